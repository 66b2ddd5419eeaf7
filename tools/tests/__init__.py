"""Tests of the launcher and of the tools: python3 -m unittest discover -s tools -t tools, at the
top."""
