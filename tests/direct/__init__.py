"""Direct tests of the functions of the Python package."""
import os
from pathlib import Path

# The program that is tested, unless `run` or the environment says which.
os.environ.setdefault("CIF", str(Path(__file__).resolve().parents[2] / "dist" / "cif"))
