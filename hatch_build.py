"""How a wheel is made: with the program in it, for the machines on which that runs, where it is in
dist/, as in a clone, or beside this file, as in an unpacked archive.

A source distribution has no program, and a wheel that is made of one is for any machine: there the
variable CIF names the program, or the PATH has it.
"""
from __future__ import annotations

import platform
import subprocess
import sys
from pathlib import Path
from typing import Any

from hatchling.builders.hooks.plugin.interface import BuildHookInterface

# dist/cif is for Linux on x86-64 with glibc 2.34 or later, as tests/dist makes sure.
TAG = "py3-none-manylinux_2_34_x86_64"


class ProgramHook(BuildHookInterface):
    """Adds the program to a wheel."""

    def initialize(self, version: str, build_data: dict[str, Any]) -> None:
        places = (Path(self.root, "dist", "cif"), Path(self.root, "cif"))
        program = next(filter(Path.is_file, places), None)
        runs_here = sys.platform == "linux" and platform.machine() == "x86_64"
        if self.target_name != "wheel" or not runs_here or not program:
            return
        done = subprocess.run([program, "--version"], capture_output=True, check=True, text=True)
        if done.stdout != f"cif {self.metadata.version}\n":
            told = f"{program} is {done.stdout.strip()}, and the package {self.metadata.version}"
            raise ValueError(f"{told}: both have one version")
        build_data["pure_python"] = False
        build_data["tag"] = TAG
        # into the folder of programs as it is: a script in Python would start it fifteen times slower
        data = self.build_config.target_config.setdefault("shared-data", {})
        data[str(program)] = "bin/cif"
