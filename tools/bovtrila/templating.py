# SPDX-License-Identifier: Apache-2.0
"""The templates of the HTML pages, by Jinja2. It escapes each value, and a value that is missing is an error."""
import pathlib

import jinja2


def environment(folder: pathlib.Path) -> jinja2.Environment:
    """The templates of a folder."""
    return jinja2.Environment(loader=jinja2.FileSystemLoader(folder), autoescape=True, auto_reload=False,
                              undefined=jinja2.StrictUndefined, trim_blocks=True, lstrip_blocks=True)
