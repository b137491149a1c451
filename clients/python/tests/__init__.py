"""Tests of the client: `python3 -m unittest discover -t . -s tests`, with PNUTS the path of the program."""
