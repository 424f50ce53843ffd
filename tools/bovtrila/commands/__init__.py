# SPDX-License-Identifier: Apache-2.0
"""The commands: the module NAME has the function `main` of the command bovtrila-NAME, with `_` for each `-`."""
