"""Starts cif-gtfs by `python -m`."""
from .._start import run

run("cif-gtfs")
