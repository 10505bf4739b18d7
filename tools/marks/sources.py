"""Reads the crates: the definitions of specs/, and the types, traits and functions of src/, each with the words that it says.

A word is resolved by the imports of its file. Words of other libraries are left out.
"""
import re
from collections import defaultdict
from dataclasses import dataclass, field
from functools import cache
from pathlib import Path

TOP = Path(__file__).resolve().parents[2]
CRATES = TOP / "crates"
WORD = re.compile(r"[A-Za-z_][A-Za-z0-9_]*(?:-[A-Za-z_][A-Za-z0-9_]*)*(?:\.[A-Za-z0-9_]+)*")
ONLY_PROOF = {"coded", "laws", "total", "matches_eq", "matches_partial_cmp", "respects_eq"}


@dataclass(frozen=True, order=True)
class Definition:
    """Of a file of specs/, by its first name; constructors and a clause's lines belong to it."""
    crate: str
    file: str
    name: str


@dataclass(frozen=True, order=True)
class Type:
    """A type or a trait of src/."""
    crate: str
    module: str
    name: str


@dataclass
class Function:
    """A function of src/: its owner is the type or trait of its block, or None."""
    crate: str
    module: str
    owner: str | None
    name: str
    is_public: bool
    is_law: bool
    clauses: set = field(default_factory=set)
    types: set = field(default_factory=set)

    def path(self):
        return "::".join(it for it in (self.crate, self.owner, self.name) if it)


# ---- definitions


@cache
def own_crates():
    return sorted(it.name for it in CRATES.iterdir() if (it / "src").is_dir())


def spec_files():
    """Each file of specs/ that has definitions; Lib.antt only names the others."""
    return sorted(it for crate in own_crates() for it in (CRATES / crate / "specs").rglob("*.antt") if it.stem != "Lib" and "declared" not in it.parts)


def without_comments(text):
    return re.sub(r"--(?= |-|$).*", "", text, flags=re.M)


def use_items(text):
    """The names of an import's braces, each with the path before it and the name that it has here."""
    for item in filter(None, (it.strip() for it in text.split(","))):
        path, _, alias = item.partition(" as ")
        *below, name = path.strip().split(".")
        yield below, name, (alias or name).strip()


def imports_of(text, pattern):
    """Each import as a path, and either pairs of names or the name of the whole."""
    for path, items, alias in re.findall(pattern + r"Rattle\.([A-Za-z0-9_.]+?)(?:\.\{([^}]*)\}| as (\w+))\s*;?", text, flags=re.M):
        if not items:
            yield path.split("."), None, alias
        for below, name, here in use_items(items):
            yield [*path.split("."), *below], [(name, here)], alias


HEAD = re.compile(r"(?:(?:abbrev|unfoldable) )?(?:pub )?(?:(data|record) )?(\w[\w-]*)(?= |:)")


def head_of(line, indent):
    """The name that a line begins to define at this indentation, and of which kind."""
    if line[:indent].strip() or line[indent:indent + 1] in ("", " ", "}", "|"):
        return None
    rest = line[indent:]
    found = HEAD.match(rest)
    if not found or rest.startswith(("use ", "module ", "mutual", "abbrev mutual", "pub mod ")):
        return None
    is_head = rest.startswith(("abbrev ", "unfoldable ", "pub ")) or found.group(1) or re.match(r"[\w-]+ :( |$)", rest)
    return (found.group(2), found.group(1)) if is_head else None


@dataclass
class SpecFile:
    path: Path
    crate: str
    name: str
    first_line: str
    lines: dict = field(default_factory=lambda: defaultdict(int))
    texts: dict = field(default_factory=lambda: defaultdict(str))
    owner: dict = field(default_factory=dict)
    imports: dict = field(default_factory=dict)
    wholes: dict = field(default_factory=dict)


def read_spec(path):
    text = path.read_text(encoding="utf-8")
    crate = path.relative_to(CRATES).parts[0]
    name = ".".join(path.relative_to(CRATES / crate / "specs").with_suffix("").parts)
    spec = SpecFile(path, crate, name, text.split("\n", 1)[0])
    add_imports(spec.imports, spec.wholes, imports_of(text, r"^use "))
    indent, pending, current, kind = 0, [], None, None
    for line in without_comments(text).split("\n"):
        if not line.strip() or line.startswith("use "):
            continue
        if line[0] != " ":
            indent = 2 if re.match(r"(abbrev )?mutual\b|module .*where", line) else 0
            if indent:
                pending.append(line)
                continue
        head = head_of(line, indent)
        if head and not (kind and line.startswith(" " * (indent + 1))):
            current, kind = head
            spec.owner[current] = current
            spec.texts[current] += "\n".join(pending) + "\n"
            spec.lines[current] += len(pending)
            pending = []
        elif kind == "data":
            constructor = re.match(" " * (indent + 2) + r"([\w-]+) :", line)
            if constructor:
                spec.owner.setdefault(constructor.group(1), current)
        if current is None:
            pending.append(line)
            continue
        spec.texts[current] += line + "\n"
        spec.lines[current] += 1
    return spec


def add_imports(names, wholes, found):
    for path, items, alias in found:
        if items is None:
            wholes[alias] = path
            continue
        for name, here in items:
            names[here] = (path, name)


@cache
def specs():
    found = (read_spec(it) for it in spec_files())
    return {(it.crate, it.name): it for it in found}


def target_of(path, name):
    """The definition or the type of an imported name, or None where it is another library's or a constant."""
    if len(path) < 3 or path[1] != "specs" or path[0] not in own_crates():
        return None
    if path[2] == "declared":
        parts = [it for it in path[3:] if it not in ("TheVariants", "TheViews")]
        if "TheConstants" in parts or len(parts) < 2:
            return None
        return Type(path[0], ".".join(parts[:-1]), parts[-1])
    if path[2] == "contracts":
        return None
    spec = specs().get((path[0], ".".join(path[2:])))
    if spec is None or name not in spec.owner:
        return None
    return Definition(path[0], spec.name, spec.owner[name])


def bound_names(text):
    """The names that a text binds by `(x : ..)`, `{x : ..}` or `λ x.`"""
    found = set()
    for names in re.findall(r"[({]\s*([\w ]+?) :", text) + re.findall(r"λ ([\w ]+)\.", text):
        found.update(names.split())
    return found


def words_of(text, names, wholes, local, types=None):
    """The definitions and types that the words of a text say, by the imports of its file and the names of the file itself."""
    text = re.sub(r'"(?:\\.|[^"\\])*"', '""', text)
    bound = bound_names(text)
    text = re.sub(r"([{;]\s*)[\w-]+ = ", r"\1", text)
    said = set()
    for word in WORD.findall(text):
        head, _, rest = word.partition(".")
        if rest and head in wholes:
            found = target_of(wholes[head], rest.split(".")[0])
            if found:
                said.add(found)
                continue
        if head in bound:
            continue
        if head in names:
            said.add(target_of(*names[head]))
        elif head in local:
            said.add(local[head])
        elif types and head in types:
            said.add(types[head])
    return said - {None}


@cache
def said_by_definitions():
    """Of each definition the definitions and types that it says."""
    said = {}
    for spec in specs().values():
        local = {name: Definition(spec.crate, spec.name, owner) for name, owner in spec.owner.items()}
        for name, text in spec.texts.items():
            own = Definition(spec.crate, spec.name, name)
            said[own] = words_of(text, spec.imports, spec.wholes, local) - {own}
    return said
