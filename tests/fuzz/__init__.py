"""Compares what `cif` answers to generated inputs with what the reference answers."""
