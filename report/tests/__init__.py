"""Tests of the report: `python3 -m unittest discover -s report/tests -t .` from the top."""
