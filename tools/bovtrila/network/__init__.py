# SPDX-License-Identifier: Apache-2.0
"""What the commands bovtrila-network-NAME share: the database of a network of stations, its
queries, and the audits of its journals."""
