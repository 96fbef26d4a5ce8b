"""Starts cif-gtfs-csv by `python -m`."""
from .._start import run

run("cif-gtfs-csv")
