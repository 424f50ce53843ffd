# SPDX-License-Identifier: Apache-2.0
"""Where the programs, the other commands and the files are that the commands need: in a clone of the repository, whose
folder tools/ has this package, or where Debian's package has put them."""
import pathlib

PACKAGE = pathlib.Path(__file__).resolve().parent
IS_CLONE = (PACKAGE.parent / "pyproject.toml").is_file()
# The top of the clone, or the folder usr/ of usr/lib/python3/dist-packages/bovtrila.
TOP = PACKAGE.parents[1] if IS_CLONE else PACKAGE.parents[3]
BIN = TOP / "bin"
PROGRAM = BIN / "bovtrila"
# Tables, touches and vectors to begin with.
DOCS = TOP / "docs" if IS_CLONE else TOP / "share" / "bovtrila" / "docs"
EXAMPLE, VECTORS = DOCS / "example.toml", DOCS / "vectors.txt"
# The SQL of a network's database.
NETWORK = TOP / "network" if IS_CLONE else TOP / "share" / "bovtrila" / "network"
# The settings of a server to begin with.
SETTINGS = TOP / "packaging" / "serve.conf" if IS_CLONE else TOP / "share" / "bovtrila" / "serve.conf"


def command(name: str) -> pathlib.Path:
    """The path of the command bovtrila-NAME."""
    return BIN / f"bovtrila-{name}"
