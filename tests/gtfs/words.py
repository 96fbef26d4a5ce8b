"""The help of cif-gtfs and cif-gtfs-csv against their manual page and the completions for bash, zsh and fish."""
from __future__ import annotations

import re
import subprocess
from typing import Dict, List, Set

from .checks import PROGRAMS, TOP, Counts

WIDTH = 80
NAMES = ("cif-gtfs", "cif-gtfs-csv")

# What bash offers behind these words: words, or `files`.
LINES: Dict[str, List[str]] = {
    "cif-gtfs --pl": ["--places", "--places-wanted"],
    "cif-gtfs --places ": ["files"],
    "cif-gtfs -o ": ["files"],
    "cif-gtfs --from ": [],
    "cif-gtfs --from 260105 ": ["files"],
    "cif-gtfs-csv ": ["naptan-places", "msn-places", "msn-interchange", "alf-links"],
    "cif-gtfs-csv msn": ["msn-places", "msn-interchange"],
    "cif-gtfs-csv alf-links ": ["files"],
}
BASH = """\
compopt() { echo files; }
source "$1"
shift
COMP_WORDS=("$@")
COMP_CWORD=$(($# - 1))
"_${1//-/_}"
printf '%s\\n' "${COMPREPLY[@]}"
"""


def help_of(name: str) -> str:
    return subprocess.run(
        [PROGRAMS / name, "--help"], capture_output=True, check=True, text=True
    ).stdout


def options_in(text: str) -> Set[str]:
    """The options that a usage or a list of options names."""
    return set(re.findall(r"(?<![\w-])(--?[a-zA-Z][a-z-]*)", text))


def options_of_help(text: str) -> Set[str]:
    """The options of a help, by its list of them."""
    return options_in("\n".join(re.findall(r"^  (-.*?)(?:  .*)?$", text, re.MULTILINE)))


def options_of_page(text: str) -> Set[str]:
    tags = re.findall(r"^\.It (Fl .*)$", text, re.MULTILINE)
    return options_in(
        re.sub(
            r"Fl (?:Fl )?", lambda flag: "--" if flag[0].count("Fl") > 1 else "-", "\n".join(tags)
        )
    )


def options_of_fish(text: str) -> Set[str]:
    letters = {f"-{letter}" for letter in re.findall(r" -s (\w)", text)}
    return letters | {f"--{word}" for word in re.findall(r" -l ([\w-]+)", text)}


def options_of_zsh(text: str) -> Set[str]:
    return {option.rstrip("=+") for option in re.findall(r"['{,*](--?[a-zA-Z][a-z-]*[=+]?)", text)}


def offered(line: str) -> List[str]:
    *words, last = line.split(" ")
    path = TOP / "completions" / f"{words[0]}.bash"
    done = subprocess.run(
        ["bash", "-c", BASH, "bash", path, *words, last],
        capture_output=True,
        text=True,
        check=False,
    )
    return done.stdout.split() + done.stderr.splitlines()


def completion(name: str) -> str:
    return (TOP / "completions" / name).read_text()


def check(counts: Counts) -> None:
    page = (TOP / "man" / "cif-gtfs.1").read_text()
    for name in NAMES:
        text = help_of(name)
        counts.test(
            f"{name} --help, width", all(len(line) <= WIDTH for line in text.splitlines()), text
        )
        options = options_of_help(text)
        counts.test(f"{name} --help, options", {"-h", "--help"} <= options, options)
        counts.same(f"{name}, options for zsh", options, options_of_zsh(completion(f"_{name}")))
        counts.same(
            f"{name}, options for fish", options, options_of_fish(completion(f"{name}.fish"))
        )
        counts.same(f"{name}, options for bash", sorted(options), sorted(offered(f"{name} -")))
    counts.same(
        "cif-gtfs, options in cif-gtfs.1",
        options_of_help(help_of("cif-gtfs")),
        options_of_page(page),
    )
    synopsis = page.partition(".Sh SYNOPSIS")[2].partition(".Sh DESCRIPTION")[0]
    words = re.findall(r"^\.Op Fl (?:Fl )?([\w-]+)", synopsis, re.MULTILINE)
    usage = re.findall(r"\[--?([\w-]+)", help_of("cif-gtfs").partition("\n\n")[0])
    counts.same("cif-gtfs, SYNOPSIS", [word for word in usage if word not in ("h", "V")], words)
    kinds = re.findall(r"^  ([a-z]+-[a-z]+) ", help_of("cif-gtfs-csv"), re.MULTILINE)
    counts.same(
        "cif-gtfs-csv, kinds in cif-gtfs.1",
        kinds,
        re.findall(r"^\.It Cm ([\w-]+)", page, re.MULTILINE),
    )
    for name in "_cif-gtfs-csv", "cif-gtfs-csv.fish", "cif-gtfs-csv.bash":
        counts.test(f"cif-gtfs-csv, kinds in {name}", " ".join(kinds) in completion(name), kinds)
    statuses = re.findall(r"^  (\d)  ", help_of("cif-gtfs"), re.MULTILINE)
    counts.same("cif-gtfs, statuses", statuses, re.findall(r"^\.It (\d)$", page, re.MULTILINE))
    for line, offers in LINES.items():
        counts.same(f"bash offers behind {line!r}", sorted(offers), sorted(offered(line)))
