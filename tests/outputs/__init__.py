"""Tests of what the programs beside cif leave where a machine fails them."""
