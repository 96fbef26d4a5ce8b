"""Tests of cif-gtfs and cif-gtfs-csv."""
