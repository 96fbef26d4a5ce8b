"""What list.py and names.py read of the crates: the definitions of specs/, what each cites, and the contracts of functions."""
from __future__ import annotations

import re
from pathlib import Path
from typing import Dict, List, Optional, Set, Tuple

ROOT = Path(__file__).resolve().parents[2]
OWN = re.compile(r"^Rattle\.(cif_\w+)\.specs\.(.+)$")
HEAD = re.compile(r"^(?:abbrev |unfoldable )?(?:pub )?(?:record |data |abbrev )?([^\s({:]+)")
FIELD = re.compile(r"^\s+(?:pub )?(\w+) :", re.M)
CLAUSE = re.compile(r"\b(?:ensures|requires|ghost) (\w+):? (?:= )?\{")


# The names that imports bring, each with the path that it stands for, and the name behind that where the import lists several; and
# where something is defined: what it is (a definition or a type), the crate, the module or the source, and the name.
Imports = Dict[str, Tuple[str, Optional[str]]]
Place = Tuple[str, str, str, str]


def head_of(text: str) -> str:
    """The name of the definition with which a text begins."""
    head = HEAD.match(text)
    assert head is not None
    return head[1]


class Module:
    """A module of specs/: what its imports bring, and its definitions, each with its lines and with its text."""

    def __init__(self, crate: str, name: str) -> None:
        self.crate, self.name = crate, name
        self.file = ROOT / "crates" / crate / "specs" / (name.replace(".", "/") + ".antt")
        self.imports: Imports = {}
        self.definitions: Dict[str, List[str]] = {}
        self.texts: Dict[str, List[str]] = {}
        self.order: List[str] = []
        current: Optional[str] = None
        comments: List[str] = []
        for line in self.file.read_text().splitlines():
            if line.startswith(("use ", "pub use ")):
                self.imports.update(imported(line.split("use ", 1)[1]))
                current, comments = None, []
            elif not line.strip() or line.startswith("pub mod"):
                comments = []
            elif line.startswith("--"):
                comments.append(line)
            elif line[0].isspace():
                if current:
                    self.add(current, line)
            else:
                current = head_of(line)
                self.begin(current, comments)
                self.add(current, line)
                comments = []

    def begin(self, name: str, comments: List[str]) -> None:
        """Another line at the margin: it begins the definition, or goes on with it."""
        if name not in self.definitions:
            self.definitions[name], self.texts[name] = [], list(comments)
            self.order.append(name)

    def add(self, name: str, line: str) -> None:
        self.texts[name].append(line)
        if not line.lstrip().startswith("--"):
            self.definitions[name].append(line)

    def has_case(self, definition: str, name: str) -> bool:
        """Whether a line of the definition begins with the name."""
        case = re.compile(r"\s*(pub )?" + re.escape(name) + r"\b")
        return any(case.match(line) for line in self.definitions[definition])


def imported(text: str) -> Imports:
    """The names that an import brings, each with the path that it stands for."""
    text = text.strip().rstrip(";")
    match = re.match(r"^(.*)\.\{(.*)\}$", text)
    if not match:
        path, _, alias = text.partition(" as ")
        return {alias or path.rsplit(".", 1)[-1]: (path, None)}
    names: Imports = {}
    for part in match.group(2).split(","):
        inner, _, alias = part.strip().partition(" as ")
        path, _, name = f"{match.group(1)}.{inner.strip()}".rpartition(".")
        names[alias.strip() or name] = (path, name)
    return names


MODULES: Dict[Tuple[str, str], Module] = {}


def module(crate: str, name: str) -> Module:
    if (crate, name) not in MODULES:
        MODULES[crate, name] = Module(crate, name)
    return MODULES[crate, name]


def place(path: str, name: str) -> Optional[Place]:
    """Where a name of an import is defined: a module and its name, or the type of the code that it is, or nothing."""
    own = OWN.match(path)
    if not own:
        return None
    crate, inner = own.group(1), own.group(2)
    if inner.startswith("declared."):
        source, *rest = inner.split(".")[1:]
        return ("type", crate, source, rest[0] if rest else name)
    if inner.startswith("contracts."):
        return None
    return ("definition", crate, inner, name)


def cited(
    lines: List[str],
    imports: Imports,
    own: Dict[str, List[str]],
    crate: str,
    inner: str,
) -> List[Place]:
    """What the lines cite, in that order."""
    found = []
    for line in lines:
        line = re.sub(r'"[^"]*"', "", line.split(" -- ")[0])
        for word in re.findall(r"[^\s(){},;:\[\]]+", line):
            for part in (word, word.split(".")[0]):
                if part in imports:
                    path, name = imports[part]
                    at = place(path, name) if name else None
                    if name is None and "." in word:
                        at = place(path, word.split(".", 1)[1])
                    if at:
                        found.append(at)
                    break
                if part in own:
                    found.append(("definition", crate, inner, part))
                    break
    return found


def sources() -> List[Path]:
    """The files of src/ in all crates."""
    return sorted(ROOT.glob("crates/cif_*/src/*.rt"))


def declared(pattern: str) -> Dict[str, Place]:
    """The types or traits that the sources declare so, by their names."""
    found: Dict[str, Place] = {}
    for file in sources():
        for name in re.findall(pattern, file.read_text(), re.M):
            found[name] = ("type", file.parts[-3], file.stem, name)
    return found


MODELS = declared(r"^impl(?:<[^\n]*?>)? Model for (\w+)")
DEVICES = declared(r"^pub trait (\w+Device)")


def ghost_imports(text: str) -> Imports:
    """What the ghost imports of a text bring."""
    names: Imports = {}
    for line in re.findall(r"^\s*ghost use (.*?);", text, re.M | re.S):
        names.update(imported(" ".join(line.split())))
    return names


def contracts(text: str, function: str) -> List[str]:
    """The signatures and contracts of the functions of this name in the text of a source."""
    return re.findall(r"\bfn " + function + r"\b.*?(?=\n\s*\{)", text, re.S)


def clauses(
    crate: str, source: str, function: str, names: List[str]
) -> Tuple[List[str], Imports, List[Place]]:
    """The text of the clauses, the imports of the file, and the traits of the function's devices."""
    text = (ROOT / "crates" / crate / "src" / source).read_text()
    contract = contracts(text, function)[0] + "\n{"
    lines = []
    for name in names:
        clause = re.search(
            r"ensures " + name + r" \{(.*?)\}\s*(?=ensures|requires|//|\{\Z)", contract, re.S
        )
        assert clause is not None
        lines.append(clause[1])
    return (
        lines,
        ghost_imports(text),
        [DEVICES[name] for name in re.findall(r"\b\w+: (\w+)", contract) if name in DEVICES],
    )


def declaration(text: str, name: str) -> Tuple[str, str]:
    """How the text of a source declares a type or a trait, and its impl of Model, if it has one; each may be empty."""
    fields = re.search(r"(?:struct|enum|trait) " + name + r"\b(?:[^\n{]*;\n|.*?\n\})", text, re.S)
    model = re.search(r"^impl(?:<[^\n]*?>)? Model for " + name + r"\b.*?\n\}", text, re.M | re.S)
    return fields.group(0) if fields else "", model.group(0) if model else ""


def source_text(crate: str, source: str) -> str:
    return (ROOT / "crates" / crate / "src" / f"{source}.rt").read_text()


def said_of(crate: str, source: str, name: str) -> List[Place]:
    """What a type says of its fields and of its value in the logic, or a trait of its calls; and what its fields are."""
    text = source_text(crate, source)
    fields, model = declaration(text, name)
    lines = re.findall(r"(?:ghost|ensures) \w+:? \{(.*?)\}\s*(?=\n|,|;)", fields, re.S)
    lines += re.findall(r"ghost \w+ = \{(.*?)\};", model, re.S)
    found = cited(lines, ghost_imports(text), {}, crate, source)
    members = re.sub(r"ghost .*", "", fields)
    return found + [
        MODELS[word]
        for word in re.findall(r"\b[A-Z]\w+", members)
        if word in MODELS and word != name
    ]


def all_contracts() -> Dict[str, List[str]]:
    """The signatures and contracts of all functions, by their names."""
    found: Dict[str, List[str]] = {}
    for file in sources():
        text = file.read_text()
        begins = [match.start() for match in re.finditer(r"\bfn \w+", text)]
        for begin, end in zip(begins, begins[1:] + [len(text)]):
            contract = re.split(r"\n\s*\{", text[begin:end], maxsplit=1)[0]
            name = re.match(r"fn (\w+)", contract)
            assert name is not None
            found.setdefault(name[1], []).append(contract)
    return found


def all_declarations() -> Dict[str, List[str]]:
    """What the sources declare types and traits to be, by their names."""
    found: Dict[str, List[str]] = {}
    for file in sources():
        text = file.read_text()
        for name in re.findall(r"^(?:pub )?(?:struct|enum|trait) (\w+)", text, re.M):
            found.setdefault(name, []).extend(filter(None, declaration(text, name)))
    return found


def all_records() -> Tuple[Dict[str, Set[str]], Dict[str, Set[str]]]:
    """The fields of each record of specs/, and of each other definition there the names that it cites, by their names."""
    fields: Dict[str, Set[str]] = {}
    cites: Dict[str, Set[str]] = {}
    for file in ROOT.glob("crates/cif_*/specs/**/*.antt"):
        for body in re.findall(
            r"^(?:abbrev )?pub .*?(?=^(?:abbrev |unfoldable )?pub |\Z)",
            file.read_text(),
            re.M | re.S,
        ):
            name = head_of(body)
            if body.startswith("pub record"):
                fields.setdefault(name, set()).update(FIELD.findall(body))
            else:
                cites.setdefault(name, set()).update(re.findall(r"\b[A-Z]\w+", body))
    return fields, cites
