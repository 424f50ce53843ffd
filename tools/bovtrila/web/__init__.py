# SPDX-License-Identifier: Apache-2.0
"""The page of bovtrila-exporter: its facts, its templates and its server."""
