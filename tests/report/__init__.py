"""Tests of cif-report."""
