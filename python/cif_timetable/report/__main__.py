"""Starts cif-report by `python -m`."""
from .._start import run

run("cif-report")
