"""Makes inputs and commands by chance: extracts that are well formed, others that are damaged, and jobs about them.

Everything comes from a seed, so that a case can be made again.
"""
