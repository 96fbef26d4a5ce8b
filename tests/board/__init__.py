"""Tests of cif-board."""
