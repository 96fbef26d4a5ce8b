"""What the program's help says about its arguments."""
from __future__ import annotations

import re
import subprocess
from pathlib import Path
from typing import Dict, List, Optional, Tuple

from facts import Command, NotUnderstood, Option, Program

OPTION_LINE = re.compile(
    r"^ {2,6}(?P<names>-\w(?:, --[\w-]+)?|--[\w-]+)(?: <(?P<value>[^<>]+)>)?(?:  |$)"
)
PLACE_LINE = re.compile(r"^  [<[](\w+)[]>](?:\.\.\.)? +(.*)$")
LISTED = re.compile(r"^(\w+(?:, \w+)+) or (\w+)$")
CONTINUED = re.compile(r"^ {10}")
POSSIBLE = re.compile(r"\[possible values: ([^]]*)\]")
NAMED = re.compile(r"  \w+: (\w+(?:, \w+)*) or (\w+)(?: \[|$)", re.MULTILINE)
HEADING = re.compile(r"^([A-Z]\w*):$")


def asked(cif: Path, words: List[str]) -> str:
    """What the program prints for arguments that ask for help or for the version."""
    done = subprocess.run(
        [cif, *words], stdin=subprocess.DEVNULL, capture_output=True, text=True, check=False
    )
    if done.returncode != 0 or done.stderr or not done.stdout.endswith("\n"):
        raise NotUnderstood(
            f"{' '.join(['cif', *words])} has status {done.returncode} and says: {done.stderr}"
        )
    return done.stdout


def sections(text: str) -> Dict[str, List[str]]:
    """The lines below each heading of the help."""
    found: Dict[str, List[str]] = {}
    current: Optional[List[str]] = None
    for line in text.splitlines():
        heading = HEADING.match(line)
        if heading:
            current = found.setdefault(heading.group(1), [])
        elif line and not line.startswith(" "):
            current = None
        elif line and current is not None:
            current.append(line)
    return found


def items(lines: List[str]) -> List[str]:
    """The lines of a section, each with the lines that continue it."""
    found: List[str] = []
    for line in lines:
        if CONTINUED.match(line) and found:
            found[-1] += "\n" + line
        else:
            found.append(line)
    return found


def options_of(lines: List[str]) -> List[Option]:
    found = []
    for item in items(lines):
        match = OPTION_LINE.match(item.split("\n")[0])
        if not match:
            raise NotUnderstood(f"the help has the option: {item}")
        possible, named = POSSIBLE.search(item), NAMED.search(item)
        values = re.findall(r"^ +- ([^\s:]+)", item, re.MULTILINE)
        if possible:
            values = possible[1].split(", ")
        elif named:
            values = [*named[1].split(", "), named[2]]
        found.append(Option(match["names"].split(", "), match["value"] or "", values))
    return found


def places_of(text: str, called: str) -> List[str]:
    """The places that the usage line has after what is called."""
    usage = re.search(rf"^Usage: {called}( .*)?$", text, re.MULTILINE)
    if not usage:
        raise NotUnderstood(f"the help of {called} has no line of usage")
    places = (usage.group(1) or "").replace(" [OPTIONS]", "").split()
    for place in places:
        if not re.match(r"^(<\w+>|\[\w+\])(\.\.\.)?$", place):
            raise NotUnderstood(f"the usage of {called} has {place}")
    return places


def values_of(lines: List[str]) -> Dict[str, List[str]]:
    """The values of each place that takes only some, by its name: those that the help lists."""
    found = {}
    for item in items(lines):
        place = PLACE_LINE.match(item)
        if not place:
            raise NotUnderstood(f"the help has the place: {item}")
        listed = LISTED.match(place[2])
        if listed:
            found[place[1]] = [*listed[1].split(", "), listed[2]]
    return found


def program_of(cif: Path) -> Program:
    """The program's commands by their names, with the program itself under the empty one."""
    text = asked(cif, ["--help"])
    parts = sections(text)
    program = {"": Command(options_of(parts.get("Options", [])))}
    if places_of(text, "cif") != ["<COMMAND>"]:
        raise NotUnderstood("the usage of cif isn't that of commands")
    listed = [item.split()[0] for item in items(parts.get("Commands", []))]
    for name in listed:
        # The command `help` has no option.
        text = asked(cif, ["help", name] if name == "help" else [name, "--help"])
        parts = sections(text)
        places = places_of(text, f"cif {name}")
        program[name] = Command(
            options_of(parts.get("Options", [])), places, values_of(parts.get("Arguments", []))
        )
    return program


def sentences(cif: Path) -> Tuple[str, Dict[str, str], Dict[str, str]]:
    """What the help says about the program, about each command, and about each status."""
    text = asked(cif, ["--help"])
    listed = [items(sections(text).get(heading, [])) for heading in ("Commands", "Statuses")]
    commands, statuses = (dict(item.split(None, 1) for item in lines) for lines in listed)
    return text.splitlines()[0], commands, statuses


def help_texts(cif: Path, names: List[str]) -> Dict[str, str]:
    """Each text of help, with the arguments that ask for it."""
    asking = [["--help"], ["-h"], ["help"]]
    asking += [[name, word] for name in names if name != "help" for word in ("--help", "-h")]
    asking += [["help", name] for name in names]
    found: Dict[str, str] = {}
    for words in asking:
        found.setdefault(asked(cif, words), " ".join(["cif", *words]))
    return found


def examples(text: str) -> List[str]:
    """The examples in a text of help, as words: lines below `Example:` or `Examples:` that begin with cif."""
    parts = sections(text)
    lines = parts.get("Example", []) + parts.get("Examples", [])
    return [line.strip() for line in lines if line.startswith("  cif ")]
