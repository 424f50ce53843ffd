# SPDX-License-Identifier: Apache-2.0
"""The commands bovtrila-NAME, each the function `main` of a module of bovtrila.commands, and what they share.

- The command line: options. Where files are: places.
- The protocol: codec, wire, secured; the header of HAProxy: proxied. Fare tables: table_rows, table_file. The reference
  model of a station: model, with files of vectors in vector_file.
- Journals: layout, journal_tail, journal_view. Copies of them: copies.
- A server and its settings: serving, settings, condition, overview, certificates, rehearsal, fare_changes; the change to a
  new journal: due, old_server, handover, handover_steps.
- The script of bovtrila-stand-in, and what it finds of a gate: stand_in_script, stand_in_judge.
- Histories: history_rows, day_tally. The page of a day: day_charts, day_page, report_page, with the templates in templates/.
- HTML pages are made of templates: templating.
- The exporter: metrics, door_reports, and its page in the package web. A network of stations: the package network.
"""
