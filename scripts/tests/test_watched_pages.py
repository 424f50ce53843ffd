"""Tests the page of bovtrila-exporter: made from facts, what its server refuses, with a program that prints histories
and statements in the place of bovtrila, over the built program, and in a real browser. All traffic stays on 127.0.0.1.
"""
import importlib.util
import unittest

if importlib.util.find_spec("jinja2") and importlib.util.find_spec("prometheus_client"):
    from page_browser import Browser  # noqa: F401 (tests)
    from page_requests import CardNumbers, Requests  # noqa: F401 (tests)
    from page_stand_ins import StandIns  # noqa: F401 (tests)
    from page_statements import Printed, Statements, Worked  # noqa: F401 (tests)
    from page_views import Facts, Picture, Views  # noqa: F401 (tests)
else:

    class Lacking(unittest.TestCase):
        def test_the_page(self) -> None:
            self.skipTest("the page: python3-jinja2 and python3-prometheus-client aren't installed")
