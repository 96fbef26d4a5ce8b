"""Starts cif-board by `python -m`."""
from .._start import run

run("cif-board")
