"""Tests of cif-sql."""
