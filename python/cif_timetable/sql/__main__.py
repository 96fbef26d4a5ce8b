"""Starts cif-sql by `python -m`."""
from .._start import run

run("cif-sql")
