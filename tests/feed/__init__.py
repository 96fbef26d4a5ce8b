"""Tests of cif-feed."""
