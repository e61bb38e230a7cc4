"""Suites of tests of analysis templates: their files, how they are judged, and what no test of them notices."""
