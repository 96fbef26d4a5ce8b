"""What the completions say about the program's arguments. That of bash is run; those of zsh and fish are read."""
from __future__ import annotations

import re
import shlex
import subprocess
from pathlib import Path
from typing import Dict, Iterable, List, Optional

from facts import COMMAND, OPTION, PLACES, TAKES_VALUE, VALUE, Facts, FactsOf, NotUnderstood, Option
from facts import offer_fact, offer_facts, place_fact, value_offer_fact, values_facts

ASK_BASH = Path(__file__).with_name("offered.bash")

# ---- bash


def offered(completion: Path, words: List[str]) -> List[str]:
    """What bash offers for the last of the words: words, or `files`."""
    done = subprocess.run(
        ["bash", "--noprofile", "--norc", ASK_BASH, completion, *words],
        capture_output=True,
        text=True,
        check=False,
    )
    if done.returncode != 0 or done.stderr:
        raise NotUnderstood(f"bash says for {' '.join(words)}: {done.stderr}")
    return sorted(done.stdout.splitlines())


def bash_option_facts(completion: Path, command: str, option: str) -> Facts:
    """For an option that is offered: whether it takes the next word, so that this is no option and no later place moves, and
    which words."""
    found = {(OPTION, option)}
    if any(offer.startswith("-") for offer in offered(completion, [command, option, "-"])):
        return found
    behind = [["x"] * count + [""] for count in range(PLACES)]
    if all(
        offered(completion, [command, option, "x", *rest]) == offered(completion, [command, *rest])
        for rest in behind
    ):
        found.add((TAKES_VALUE, option))
        values = offered(completion, [command, option, ""])
        if values == ["files"]:
            found.add(value_offer_fact(option, "files"))
        else:
            found |= {(VALUE, f"{option} {value}") for value in values}
    return found


def bash_facts(completion: Path) -> FactsOf:
    """The facts of each command that bash offers."""
    names = offered(completion, [""])
    facts = {
        "": {(COMMAND, name) for name in names}
        | {(OPTION, name) for name in offered(completion, ["-"])}
    }
    for name in names:
        facts[name] = set()
        for option in offered(completion, [name, "-"]):
            facts[name] |= bash_option_facts(completion, name, option)
        for number in range(1, PLACES + 1):
            offers = offered(completion, [name] + ["x"] * (number - 1) + [""])
            if offers:
                what = (
                    "files"
                    if offers == ["files"]
                    else "commands"
                    if offers == names
                    else " ".join(offers)
                )
                facts[name].add(offer_fact(number, what))
    return facts


# ---- zsh

ZSH_ARM = re.compile(r"^ {8}\(([a-z|]+)\)\n(.*?)^ {12};;\n", re.MULTILINE | re.DOTALL)
ZSH_LISTED = re.compile(r"^ {8}'([a-z]+):[^']*'$", re.MULTILINE)
ZSH_OPTION = re.compile(r"^(--[a-z-]+)=\[[^]]*\]:(\w+):(?:\(([^()]*)\)|(_files))?$")
ZSH_SWITCH = re.compile(r"^(--[a-z-]+)\[[^]]*\]$")
ZSH_FLAG = re.compile(r"^'\((?:- : \*|-\w --[a-z]+)\)'\{(-\w),(--[a-z]+)\}'\[[^]]*\]'$")
ZSH_PLACE = re.compile(r"^(\*?):(:?)(\w+):(?:(\w*)|\(([^()]*)\))$")
ZSH_ACTIONS: Dict[str, Optional[str]] = {"_files": "files", "_cif_commands": "commands", "": None}


def zsh_specs(text: str) -> List[str]:
    """The specifications of a call of _arguments, one per line."""
    lines = [
        line.strip().removesuffix("&& ret=0").removesuffix("\\").strip()
        for line in text.splitlines()
    ]
    return [line for line in lines if line and not line.startswith("_arguments")]


def zsh_facts_of(specs: Iterable[str]) -> Facts:
    found: Facts = set()
    number = 0
    for spec in specs:
        flag = ZSH_FLAG.match(spec)
        option = ZSH_OPTION.match(spec.strip("'"))
        switch = ZSH_SWITCH.match(spec.strip("'"))
        place = ZSH_PLACE.match(spec.strip("'"))
        if flag:
            found |= Option(list(flag.groups())).facts()
        elif option and bool(option[4]) == (option[2] == "FILE"):
            found |= Option([option[1]], option[2], (option[3] or "").split()).facts()
        elif switch:
            found |= Option([switch[1]]).facts()
        elif place and (place[5] or place[4] in ZSH_ACTIONS):
            number += 1
            found.add(place_fact(number, f"[{place[3]}]" if place[2] else f"<{place[3]}>"))
            found |= values_facts(number, (place[5] or "").split())
            if what := ZSH_ACTIONS.get(place[4]):
                found |= offer_facts(number, what, place[1] == "*")
        else:
            raise NotUnderstood(f"_cif has: {spec}")
    return found


def zsh_facts(text: str) -> FactsOf:
    listed = ZSH_LISTED.findall(text)
    top = re.search(r"^ {4}_arguments -C \\\n(.*?)&& ret=0\n", text, re.MULTILINE | re.DOTALL)
    if not listed or not top:
        raise NotUnderstood("_cif has no list of commands, or no call of _arguments -C")
    specs = zsh_specs(top[1])
    if [spec for spec in specs if not ZSH_FLAG.match(spec)] != [
        "':COMMAND:_cif_commands'",
        "'*:: :->places'",
    ]:
        raise NotUnderstood("_cif has another first place than the command")
    facts = {
        "": {(COMMAND, name) for name in listed}
        | zsh_facts_of(spec for spec in specs if ZSH_FLAG.match(spec))
    }
    count = len(listed) + len(specs)
    for names, body in ZSH_ARM.findall(text):
        specs = zsh_specs(body)
        count += len(specs)
        for name in names.split("|"):
            facts[name] = zsh_facts_of(specs)
    # So no other line names a word.
    if count != len(re.findall(r"^ +.*'", text, re.MULTILINE)):
        raise NotUnderstood("_cif has quoted words elsewhere")
    return facts


# ---- fish

FISH_WITHOUT = ["__cif_without_command"]


def fish_flags(line: str) -> Dict[str, str]:
    """The flags of a call of complete, each with its word."""
    words = shlex.split(line)[1:]
    found = {}
    while words:
        flag = words.pop(0)
        if flag in ("-f", "-F", "-r", "-x"):
            found[flag] = ""
        elif flag in ("-c", "-n", "-a", "-d", "-l", "-s") and words:
            found[flag] = words.pop(0)
        else:
            raise NotUnderstood(f"cif.fish has: {line}")
    return found


def fish_option(flags: Dict[str, str]) -> Option:
    names = [f"-{flags['-s']}"] if "-s" in flags else []
    value_name = "VALUE" if "-x" in flags else "FILE" if "-r" in flags and "-F" in flags else ""
    return Option([*names, f"--{flags['-l']}"], value_name, flags.get("-a", "").split())


def fish_facts(text: str) -> FactsOf:
    calls = [fish_flags(line) for line in text.splitlines() if line.startswith("complete ")]
    if {"-c": "cif", "-f": ""} not in calls:
        raise NotUnderstood("cif.fish offers files everywhere")
    calls.remove({"-c": "cif", "-f": ""})
    swallowing = re.search(r"contains -- \$word (--.*)$", text, re.MULTILINE)
    if not swallowing or set(swallowing[1].split()) != {
        f"--{flags['-l']}" for flags in calls if "-x" in flags or "-r" in flags
    }:
        raise NotUnderstood(
            "cif.fish counts the words behind other options than those with a value"
        )
    listed = [
        flags["-a"]
        for flags in calls
        if flags.get("-n", "").split() == FISH_WITHOUT and "-a" in flags
    ]
    facts: FactsOf = {"": {(COMMAND, name) for name in listed}}
    for flags in calls:
        condition, *words = flags.get("-n", "").split() or [""]
        if "-l" in flags and ([condition] == FISH_WITHOUT or (condition == "__cif_in" and words)):
            for name in words or [""]:
                facts.setdefault(name, set()).update(fish_option(flags).facts())
        elif condition in ("__cif_at", "__cif_from") and ("-F" in flags or "-a" in flags):
            offers = "files" if "-F" in flags else flags["-a"]
            offers = "commands" if offers.split() == listed else " ".join(sorted(offers.split()))
            for name in words[1:]:
                found = offer_facts(int(words[0]) + 1, offers, condition == "__cif_from")
                facts.setdefault(name, set()).update(found)
        elif [condition] != FISH_WITHOUT or "-a" not in flags:
            raise NotUnderstood(
                f"cif.fish has a call of complete for {condition or 'no condition'}"
            )
    return facts
