"""Makes files for the other programs of public ones, whose layouts are from memory."""
