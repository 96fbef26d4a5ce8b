"""What a text says about a program's arguments: its commands, options, values and places, as facts to be compared.

A fact is a kind and a text. Not every text has all kinds: completions of bash have no names of values.
"""
from __future__ import annotations

from dataclasses import dataclass, field
from typing import Dict, List, Optional, Set, Tuple

COMMAND, OPTION, TAKES_VALUE, VALUE_NAME, VALUE = (
    "command",
    "option",
    "option with a value",
    "name of a value",
    "value",
)
PLACE, PLACE_VALUE, OFFER = "place", "value of a place", "offer"

# What a shell offers at a place, by the name that the help gives to the place.
OFFERS = {
    "FILE": "files",
    "LEFT": "files",
    "RIGHT": "files",
    "FULL": "files",
    "UPDATE": "files",
    "COMMAND": "commands",
}

# The places that are looked at: one more than the most that a usage names. One that can be repeated is all from its own on.
PLACES = 4

Facts = Set[Tuple[str, str]]
# The facts of each command by its name, those of the program itself under the empty one.
FactsOf = Dict[str, Facts]


def bare(place: str) -> str:
    """The name of a place without the signs around it."""
    return place.strip("<>[].")


class NotUnderstood(Exception):
    """A text doesn't have the form that is read here."""


@dataclass
class Option:
    """An option: `-h` and `--help`, perhaps the name of its value, and the values if only some are valid."""

    names: List[str]
    value_name: str = ""
    values: List[str] = field(default_factory=list)

    def facts(self) -> Facts:
        last = self.names[-1]
        found = {(OPTION, name) for name in self.names}
        if self.value_name:
            found |= {(TAKES_VALUE, last), (VALUE_NAME, f"{last} {self.value_name}")}
        if self.value_name in OFFERS:
            found.add(value_offer_fact(last, OFFERS[self.value_name]))
        return found | {(VALUE, f"{last} {value}") for value in self.values}


@dataclass
class Command:
    """A command, or the program itself: its options, its places as usage has them, such as `[FILE]` or `<UID>`, and the values
    of each place that takes only some."""

    options: List[Option] = field(default_factory=list)
    places: List[str] = field(default_factory=list)
    values: Dict[str, List[str]] = field(default_factory=dict)

    def facts(self) -> Facts:
        found: Facts = set()
        for option in self.options:
            found |= option.facts()
        for number, place in enumerate(self.places, 1):
            found.add(place_fact(number, place))
            if bare(place) in OFFERS:
                found |= offer_facts(number, OFFERS[bare(place)], place.endswith("..."))
            found |= values_facts(number, self.values.get(bare(place), []))
        return found

    def option(self, name: str) -> Optional[Option]:
        return next((option for option in self.options if name in option.names), None)


# The commands by their names, the program itself under the empty one.
Program = Dict[str, Command]


def place_fact(number: int, place: str) -> Tuple[str, str]:
    """That there is a place; whether it can be repeated isn't checked."""
    return PLACE, f"{number} {place.removesuffix('...')}"


def offer_fact(number: int, what: str) -> Tuple[str, str]:
    """That a shell offers something at a place."""
    return OFFER, f"{what} at place {number}"


def offer_facts(number: int, what: str, repeated: bool) -> Facts:
    """That a shell offers something at a place, and at all places behind it if files can be repeated there. Commands can't:
    `help` takes more words, but the program has only one level of commands."""
    last = PLACES if repeated and what == "files" else number
    return {offer_fact(each, what) for each in range(number, last + 1)}


def values_facts(number: int, values: List[str]) -> Facts:
    """The values of a place, each of which a shell offers there; nothing if the place takes any word."""
    found = {(PLACE_VALUE, f"{number} {value}") for value in values}
    return found | {offer_fact(number, " ".join(sorted(values)))} if values else found


def value_offer_fact(option: str, what: str) -> Tuple[str, str]:
    """That a shell offers something as the value of an option."""
    return OFFER, f"{what} as the value of {option}"


def facts_of(program: Program) -> FactsOf:
    """The facts of each command by its name, and those of the program itself under the empty one."""
    facts = {name: command.facts() for name, command in program.items()}
    facts[""] |= {(COMMAND, name) for name in program if name}
    return facts


def mistake(program: Program, words: List[str]) -> str:
    """What is wrong with the arguments of an example, the first of which is the command; nothing if they are right."""
    name, rest = words[0], words[1:]
    command = program.get(name)
    if not name or not command:
        return f"there is no command {name}"
    given = 0
    while rest:
        word = rest.pop(0)
        if not word.startswith("-"):
            place = bare(command.places[given]) if given < len(command.places) else ""
            if word not in command.values.get(place, [word]):
                return f"{place} can't be {word}"
            given += 1
            continue
        option = command.option(word)
        if not option:
            return f"{name} has no option {word}"
        if option.value_name:
            if not rest:
                return f"{word} has no value"
            value = rest.pop(0)
            if option.values and value not in option.values:
                return f"{word} doesn't take {value}"
    least = sum(place.startswith("<") for place in command.places)
    most = PLACES if any(place.endswith("...") for place in command.places) else len(command.places)
    if not least <= given <= most:
        return f"{name} takes {' '.join(command.places)}"
    return ""
