"""Starts cif-feed by `python -m`."""
from .._start import run

run("cif-feed")
