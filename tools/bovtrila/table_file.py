# SPDX-License-Identifier: Apache-2.0
"""Fare tables in files, as the reference model reads them."""
import pathlib

from bovtrila import model
from bovtrila.wire import Wrong


def read(path: str | pathlib.Path) -> model.Table:
    """The fare table in a file."""
    try:
        return model.Table(pathlib.Path(path).read_bytes().decode())
    except PermissionError:
        raise Wrong(f"{path}: you may not read this file: root and the group bovtrila may read a station's files") from None
    except (OSError, ValueError, KeyError) as error:
        raise Wrong(f"{path}: {error}; lay a valid fare table there, or name another") from None
