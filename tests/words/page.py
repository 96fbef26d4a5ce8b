"""What the manual page, in mdoc, says about the program's arguments."""
from __future__ import annotations

import re
import shlex
from typing import Dict, Iterator, List, Optional, Set, Tuple, Union

from facts import Command, NotUnderstood, Option, Program, bare

MACRO = re.compile(r"^\.(?P<name>[A-Z][a-z])(?: (?P<rest>.*))?$")
CALLED = {"Fl", "Cm", "Ar", "Op", "Nm"}
PUNCTUATION = {".", ",", ";", ":", ")", "|"}


def macros(text: str) -> Iterator[List[str]]:
    """The lines that call a macro, each as the macro's name and its words."""
    for line in text.splitlines():
        match = MACRO.match(line)
        if match:
            try:
                words = shlex.split(match["rest"] or "")
            except ValueError:
                words = (match["rest"] or "").split()
            yield [match["name"], *words]


def section(text: str, heading: str) -> str:
    """The lines below the heading."""
    match = re.search(
        rf"^\.Sh {re.escape(heading)}\n(.*?)(?=^\.Sh |\Z)", text, re.MULTILINE | re.DOTALL
    )
    if not match:
        raise NotUnderstood(f"there is no section {heading}")
    return match.group(1)


def marked(words: List[str]) -> List[Tuple[str, str]]:
    """The words of a line with the macro that marks each: `Fl Fl from Ar YYMMDD` has --from and YYMMDD."""
    macro: Optional[str] = None
    hyphens = 0
    found: List[Tuple[str, str]] = []
    for word in words:
        if word in CALLED:
            if word == "Fl":
                hyphens = hyphens + 1 if macro == "Fl" and hyphens else 1
            macro = word
        elif word in PUNCTUATION:
            continue
        elif macro == "Fl":
            found.append(("Fl", "-" * hyphens + word))
            hyphens = 0
        elif macro in ("Cm", "Ar"):
            found.append((macro, word))
    return found


def usage_part(words: List[str], where: str) -> Tuple[str, Union[Option, str]]:
    """An option or a place of the synopsis, or a command's name."""
    optional = words[0] == "Op"
    parts = marked(words[1:] if optional else words)
    kinds = [kind for kind, _ in parts]
    texts = [text for _, text in parts]
    if kinds == ["Cm"] and not optional:
        return "name", texts[0]
    if kinds in (["Fl"], ["Fl", "Ar"]) and optional:
        return "option", Option(texts[:1], texts[1] if len(texts) > 1 else "")
    if kinds in (["Ar"], ["Ar", "Ar"]) and texts[1:] in ([], ["..."]):
        return "place", (f"[{texts[0]}]" if optional else f"<{texts[0]}>") + "".join(texts[1:])
    raise NotUnderstood(f"{where} has: {' '.join(words)}")


def synopsis(text: str) -> Program:
    """The commands of the synopsis, and the program itself with the options that follow no command."""
    program = {"": Command()}
    command: Optional[Command] = None
    for words in macros(section(text, "SYNOPSIS")):
        if words == ["Nm"]:
            command = None
        elif command is None and words[0] == "Fl":
            program[""].options += [Option([name]) for _, name in marked(words)]
        else:
            kind, part = usage_part(words, "SYNOPSIS")
            if isinstance(part, str) and kind == "name" and command is None:
                command = program.setdefault(part, Command())
            elif isinstance(part, Option) and command:
                command.options.append(part)
            elif isinstance(part, str) and kind == "place" and command:
                command.places.append(part)
            else:
                raise NotUnderstood(f"SYNOPSIS has: {' '.join(words)}")
    return program


def as_in_synopsis(program: Program) -> Program:
    """The program as in a synopsis: options by their long names, and help only for the program itself."""
    found = {}
    for name, command in program.items():
        shown = [option for option in command.options if not name or "--help" not in option.names]
        found[name] = Command(
            [Option(option.names[-1:], option.value_name) for option in shown], command.places
        )
    return found


def tags(lines: str) -> Iterator[Tuple[int, List[str]]]:
    """The tags of the outer lists and those of the lists inside them: pairs of the depth and the words."""
    depth = 0
    for words in macros(lines):
        if words[0] == "Bl":
            depth += 1
        elif words[0] == "El":
            depth -= 1
        elif words[0] == "It":
            yield depth, words[1:]


def commands(text: str) -> Program:
    """The commands of the section COMMANDS, each with its places, and with the values of its first place that a list below it
    has."""
    program = {"": Command()}
    command = program[""]
    for depth, words in tags(section(text, "COMMANDS")):
        parts = marked(words)
        if depth == 2 and [kind for kind, _ in parts] == ["Cm"] and command.places:
            command.values.setdefault(bare(command.places[0]), []).append(parts[0][1])
        if depth != 1:
            continue
        command, rest = Command(), words[2:]
        if words[:1] != ["Cm"] or words[1] in program:
            raise NotUnderstood(f"COMMANDS has: {' '.join(words)}")
        program[words[1]] = command
        while rest:
            size = next(
                (i for i in range(1, len(rest)) if rest[i] in ("Ar", "Op") and rest[i - 1] != "Op"),
                len(rest),
            )
            kind, part = usage_part(rest[:size], "COMMANDS")
            if not isinstance(part, str) or kind != "place":
                raise NotUnderstood(f"COMMANDS has: {' '.join(words)}")
            command.places.append(part)
            rest = rest[size:]
    return program


def options(text: str) -> List[Option]:
    """The options of the section OPTIONS, with the values that a list below one of them has."""
    found: List[Option] = []
    for depth, words in tags(section(text, "OPTIONS")):
        parts = marked(words)
        names = [name for kind, name in parts if kind == "Fl"]
        values = [name for kind, name in parts if kind == "Ar"]
        if depth == 1 and names and len(values) <= 1:
            found.append(Option(names, "".join(values)))
        elif depth == 2 and found and [kind for kind, _ in parts] == ["Cm"]:
            found[-1].values.append(parts[0][1])
        else:
            raise NotUnderstood(f"OPTIONS has: {' '.join(words)}")
    return found


def mentioned(text: str) -> Set[Tuple[str, str]]:
    """All commands, values, options and names that are marked anywhere on the page."""
    found: Set[Tuple[str, str]] = set()
    for words in macros(text):
        found |= {part for part in marked(words) if part[1] != "..."}
    return found


def known(program: Program) -> Set[Tuple[str, str]]:
    """The same for the program, so that nothing else may be mentioned."""
    found = {("Cm", name) for name in program if name}
    for command in program.values():
        found |= {("Ar", bare(place)) for place in command.places}
        found |= {("Cm", value) for values in command.values.values() for value in values}
        for option in command.options:
            found |= {("Fl", name) for name in option.names} | {
                ("Cm", value) for value in option.values
            }
            found |= {("Ar", option.value_name)} if option.value_name else set()
    return found


def examples(text: str) -> List[str]:
    """The lines of the examples that call the program, each from its name on."""
    found: List[str] = []
    for words in re.findall(r"^\.Dl \$ (.*)$", section(text, "EXAMPLES"), re.MULTILINE):
        found += [part.strip() for part in words.split("|") if part.strip().startswith("cif ")]
    return found


def bare_words(text: str) -> List[str]:
    """The words of a text in lower case, without punctuation."""
    return re.findall(r"[\w']+", text.lower())


def summary(text: str) -> str:
    """What the section NAME says about the program."""
    match = re.search(r"^\.Nd (.*)$", section(text, "NAME"), re.MULTILINE)
    if not match:
        raise NotUnderstood("NAME says nothing about the program")
    return match.group(1)


def openings(text: str, heading: str) -> Dict[str, List[str]]:
    """The words of the first paragraph below each tag of the section's outer list, by the first word of the tag."""
    found: Dict[str, List[str]] = {}
    depth = 0
    current: Optional[List[str]] = None
    for line in section(text, heading).splitlines():
        macro = line[1:3] if line.startswith(".") else ""
        words = [word for word in line.split() if word not in CALLED and word != "." + macro]
        depth += (macro == "Bl") - (macro == "El")
        if macro == "It" and depth == 1:
            current = found.setdefault(words[0], [])
        elif macro in ("Bd", "Bl", "Dl", "Pp"):
            current = None
        elif current is not None:
            current += bare_words(" ".join(words))
    return found


def reasons(text: str) -> List[str]:
    """The names of the reasons in the section DIAGNOSTICS."""
    return re.findall(r"^\.It Sy (\w+)$", section(text, "DIAGNOSTICS"), re.MULTILINE)
