"""Whole programs, on a machine that fails them."""
from __future__ import annotations

import os
import resource
import shutil
import signal
import subprocess
import sys
import time
import unittest
from pathlib import Path
from typing import Dict, List, Tuple

from .files import InFolder

TOP = Path(__file__).resolve().parents[2]
PACKAGES = TOP / "python"
PROGRAMS = PACKAGES / "bin"
# The program cif that is tested.
CIF = TOP / "dist" / "cif"
EXTRACT = str(TOP / "examples" / "timetable.cif")
OTHER = str(TOP / "examples" / "changed.cif")

# The words of each program, the status of a success, and the outputs.
CALLS: Dict[str, Tuple[List[str], int, List[str]]] = {
    "cif-gtfs": (["-o", "x.zip", "--trips", "x.csv", EXTRACT], 1, ["x.csv", "x.zip"]),
    "cif-report": (["-o", "x.html", EXTRACT, OTHER], 0, ["x.csv", "x.html"]),
    "cif-sql": (["-o", "x.db", EXTRACT], 0, ["x.db"]),
}
NAPTAN = ["naptan-places", str(TOP / "examples" / "naptan.csv")]

# Runs a program that gets a signal as soon as an output is in its place.
INTERRUPTED = """\
import os, signal, sys
real = os.replace
def replace(*words):
    real(*words)
    os.kill(os.getpid(), signal.SIGTERM)
os.replace = replace
sys.path[0] = sys.argv.pop(1)
package = sys.argv.pop(1)
main = __import__(f"{package}.command_line", fromlist=["main"]).main
sys.exit(main())
"""
# Stands for cif: at the table, or the command, it does something else first.
CHANGED = """\
#!/bin/sh
case " $* " in
*" {at} "*) {first} ;;
esac
exec "{cif}" "$@"
"""
# What is asked for last, when the outputs have been looked at.
LAST = {"cif-gtfs": "public", "cif-report": "diff", "cif-sql": "calls"}
# Kilobytes of address space, from what Python itself needs to what is enough.
LEAST, MOST, STEP = 22_000, 50_000, 4_000


class Programs(InFolder):
    """Runs of all programs."""

    def words(self, program: str) -> List[str]:
        return [str(PROGRAMS / program), "--cif", str(CIF), *CALLS[program][0]]

    def run_words(
        self, words: List[str], stdin: int = subprocess.DEVNULL, memory: int = 0
    ) -> subprocess.CompletedProcess[str]:
        def limit() -> None:
            if memory:
                resource.setrlimit(resource.RLIMIT_AS, (memory * 1024,) * 2)

        return subprocess.run(
            words,
            cwd=self.folder,
            stdin=stdin,
            capture_output=True,
            text=True,
            check=False,
            preexec_fn=limit,
        )

    def left(self) -> List[str]:
        return sorted(path.name for path in self.folder.iterdir())

    def clear(self) -> None:
        for path in self.folder.iterdir():
            if path.is_dir():
                shutil.rmtree(path)
            else:
                path.unlink()

    def changed_cif(self, program: str, first: str) -> List[str]:
        """The words of a run whose cif does something first when it is asked for the last time."""
        self.clear()
        cif = self.folder / "changed-cif"
        cif.write_text(CHANGED.format(at=LAST[program], first=first, cif=CIF))
        cif.chmod(0o755)
        return [str(PROGRAMS / program), "--cif", str(cif), *CALLS[program][0]]

    def test_folder_as_standard_input(self) -> None:
        folder = os.open(self.folder, os.O_RDONLY)
        self.addCleanup(os.close, folder)
        for program in (*CALLS, "cif-gtfs-csv"):
            with self.subTest(program):
                words = NAPTAN if program == "cif-gtfs-csv" else CALLS[program][0]
                done = self.run_words([str(PROGRAMS / program), *words], folder)
                told = f"{program}: standard input is a folder\n"
                self.assertEqual((4, told, []), (done.returncode, done.stderr, self.left()))

    def test_little_memory(self) -> None:
        """It runs out, or is enough. Python's own status, 1, would be a success of cif-gtfs."""
        start = ["python3", "-B", "-c", "pass"]
        limits = [
            memory
            for memory in range(LEAST, MOST, STEP)
            if self.run_words(start, memory=memory).returncode == 0
        ]
        for program, (_, success, outputs) in CALLS.items():
            for memory in limits:
                with self.subTest(program, memory=memory):
                    self.clear()
                    done = self.run_words(self.words(program), memory=memory)
                    wanted = outputs if done.returncode == success else []
                    self.assertIn(done.returncode, (success, 4), done.stderr)
                    self.assertEqual(wanted, self.left())
                    self.assertNotIn("Traceback", done.stderr)
                    self.assertTrue(wanted or done.stderr)

    def test_value_of_hyphens(self) -> None:
        for program, (words, _, _) in CALLS.items():
            for word in "--from=--", "-o--", "--output=--":
                with self.subTest(program, word=word):
                    done = self.run_words([str(PROGRAMS / program), word, *words])
                    option = word[:2] if word == "-o--" else word[:-3]
                    told = f"{program}: error: argument {option}: expected one argument"
                    self.assertEqual((2, told), (done.returncode, done.stderr.splitlines()[-1]))

    def test_signal_after_success(self) -> None:
        for program, (words, success, outputs) in CALLS.items():
            with self.subTest(program):
                self.clear()
                own = [str(PACKAGES), f"cif_timetable.{program[4:]}", "--cif", str(CIF), *words]
                done = self.run_words([sys.executable, "-B", "-c", INTERRUPTED, *own])
                self.assertEqual(success, done.returncode, done.stderr)
                self.assertNotIn("interrupted", done.stderr)
                self.assertEqual(outputs, self.left())

    def test_killed_runs(self) -> None:
        """A run that is killed leaves a folder, which the next one removes, and no temporary file."""
        temporary = self.folder.with_name(f"{self.folder.name}-temporary")
        temporary.mkdir()
        self.addCleanup(shutil.rmtree, temporary)
        for program, (_, _, outputs) in CALLS.items():
            with self.subTest(program):
                words = self.changed_cif(program, "echo > waits; exec sleep 60")
                environment = {**os.environ, "TMPDIR": str(temporary)}
                with open(EXTRACT, "rb") as extract:
                    words[words.index(EXTRACT)] = "-"
                    with subprocess.Popen(
                        words,
                        cwd=self.folder,
                        stdin=extract,
                        env=environment,
                        start_new_session=True,
                    ) as process:
                        self.wait_for(self.folder / "waits")
                        os.killpg(process.pid, signal.SIGKILL)
                self.assertEqual([], sorted(path.name for path in temporary.iterdir()))
                (self.folder / "waits").unlink()
                (self.folder / "changed-cif").unlink()
                left = self.left()
                self.assertTrue(all(".cif-new." in name for name in left), left)
                self.assertTrue(left or program == "cif-report")
                self.run_words(self.words(program))
                self.assertEqual(outputs, self.left())

    def wait_for(self, path: Path) -> None:
        for _ in range(1200):
            if path.exists():
                return
            time.sleep(0.05)
        self.fail(f"{path} doesn't come")

    def test_second_output_is_refused(self) -> None:
        """A folder stands where the last output was to come: the other one stays as it was."""
        for program, last in ("cif-gtfs", "x.zip"), ("cif-report", "x.csv"):
            [other] = set(CALLS[program][2]) - {last}
            for text in "older", None:
                with self.subTest(program, text=text):
                    words = self.changed_cif(program, f"mkdir {last}")
                    if text:
                        (self.folder / other).write_text(text)
                    done = self.run_words(words)
                    told = f"{program}: {self.folder}/{last}: Is a directory\n"
                    self.assertEqual((4, told), (done.returncode, done.stderr))
                    (self.folder / "changed-cif").unlink()
                    wanted = [f"{last} ", *([f"{other} {text}"] if text else [])]
                    self.assertEqual(sorted(wanted), self.texts())

    def test_list_that_is_filled_in_meanwhile(self) -> None:
        filled = "tiploc,name,latitude,longitude\nA,B,51,0\n"
        words = self.changed_cif("cif-gtfs", f"printf '{filled}' > wanted.csv")
        done = self.run_words([*words, "--places-wanted", "wanted.csv"])
        self.assertIn("wanted.csv has been filled in", done.stderr)
        (self.folder / "changed-cif").unlink()
        self.assertEqual((2, [f"wanted.csv {filled}"]), (done.returncode, self.texts()))

    @unittest.skipUnless(shutil.which("strace"), "strace isn't installed")
    def test_disk_that_can_not_be_read(self) -> None:
        """SQLite reads its files so. Python's modules are read before."""
        for count in 20, 60, 200:
            with self.subTest(count):
                self.clear()
                inject = f"inject=pread64:error=EIO:when={count}+"
                trace = ["strace", "-f", "-o", "/dev/null", "-e", "trace=pread64", "-e", inject]
                done = self.run_words([*trace, *self.words("cif-sql")])
                if "strace: " in done.stderr:
                    self.skipTest(done.stderr)
                self.assertNotIn("Traceback", done.stderr)
                wanted = (0, ["x.db"]) if done.returncode == 0 else (4, [])
                self.assertEqual(wanted, (done.returncode, self.left()))
