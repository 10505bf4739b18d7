"""Results of edits by earlier runs on this machine, each under a sum of all that a try of it reads: so an entry never goes stale.

Usage: tools/edits/kept.py RLIB: a sum of the parts of a built library that other crates can see, for tools/quick.
"""
import hashlib
import json
import os
import sys
import tempfile

PARTS = ("src", "specs", "proofs")
HERE = os.path.dirname(os.path.abspath(__file__))
# where a built library lists the modules that are made of it, and those of a function that its own proof alone can name
MADE = "lang/antt/made.json"
OF_ITS_PROOF = tuple(f'{{"{it}"' for it in "Code Mir Lts Parts Given Needs Kinds Layout Named MadeProof Read Close ImplProof MemberCode MemberProof CycleCode CycleInParts TieOfCycle".split())
# of a crate, the longest unused go first
MOST = 2000


class Kept:
    """A file for each crate, of edits that were refused, and by which words. No other result is kept, and none is taken where `is_fresh`.

    It lies beside the results that the kit keeps, or below ~/.cache where that isn't ours to write; EDITS_KEPT names another folder. A sum is of these
    scripts, the kit, the edit, the crate's line of crates.txt, its sources, specs and proofs, and of each library below it the parts that
    another crate can read: its interface and its definitions and lemmas."""

    def __init__(self, top, crates, is_fresh):
        self.top, self.crates, self.is_fresh, self.libraries = top, crates, is_fresh, {}
        beside = f"{os.path.dirname(crates.kit)}/rattle-kept"
        is_ours = os.path.isdir(beside) and os.stat(beside).st_uid == os.geteuid() and os.access(beside, os.W_OK)
        self.folder = os.environ.get("EDITS_KEPT") or (beside if is_ours else os.path.expanduser("~/.cache")) + "/nandusteel-edits"
        scripts = [sum_of(f"{HERE}/{it}") for it in ("run", "kept.py")]
        self.common = [scripts, kit_sum(crates.kit)]

    def keys(self, name, edits):
        """The sum for each of these edits of a crate, over its files as they stand now."""
        own = [sum_of(f"{self.top}/crates/{name}/{part}") for part in PARTS]
        below = [(it, self.library(it)) for it in self.crates.below(name)]
        common = [self.common, name, self.crates.lines[name], own, below]
        return {it: sum_of_text([common, it.name, sum_of(it.file)]) for it in edits}

    def library(self, name):
        if name not in self.libraries:
            self.libraries[name] = seen(self.crates.rlib(name))
        return self.libraries[name]

    def read(self, name):
        """The words by which edits were refused, by the sum."""
        return {} if self.is_fresh else self.read_file(name)

    def read_file(self, name):
        try:
            with open(f"{self.folder}/{name}.json", encoding="utf-8") as it:
                found = json.load(it)
            return {key: text for key, text in found.items() if isinstance(text, str)}
        except (OSError, ValueError, AttributeError):
            return {}

    def keep(self, name, texts):
        """Keeps these texts by their sums, in a file that is written apart and then renamed; where that can't be, nothing is kept."""
        if not texts:
            return
        found = self.read_file(name)
        for key, text in texts.items():
            found.pop(key, None)
            found[key] = text
        try:
            os.makedirs(self.folder, 0o700, exist_ok=True)
            with tempfile.NamedTemporaryFile("w", dir=self.folder, prefix=f"new-{name}-", delete=False, encoding="utf-8") as it:
                json.dump(dict([*found.items()][-MOST:]), it, indent=0)
            os.replace(it.name, f"{self.folder}/{name}.json")
        except OSError as error:
            print(f"note: the results of edits of {name} are not kept: {error}", flush=True)


def seen(rlib):
    """A sum of the parts of a built library that another crate can read: its interface, its definitions, lemmas and contracts, and no body."""
    files = [it for part in ("interface", "lang") for it in files_of(f"{rlib}/{part}") if os.path.isfile(it) and not it.endswith(MADE)]
    return sum_of_text([[(os.path.relpath(it, rlib), sum_of(it)) for it in files], made(f"{rlib}/{MADE}")])


def made(file):
    """The modules that are made of a library, each a line with its name and lines with how, but for those that one function's proof sees."""
    if not os.path.isfile(file):
        return []
    kept, is_seen, is_first = [], True, False
    with open(file, encoding="utf-8") as it:
        for line in it:
            is_name = line.startswith('"')
            is_seen = is_name or (not line.startswith(OF_ITS_PROOF) if is_first else is_seen)
            is_first = is_name
            kept += [line] * is_seen
    return kept


def sum_of_text(parts):
    return hashlib.sha256(repr(parts).encode()).hexdigest()


def files_of(top):
    """Each file of a folder by its path, or the file itself, in one order."""
    if not os.path.isdir(top):
        return [top]
    return sorted(f"{at}/{name}" for at, _, names in os.walk(top) for name in names)


def sum_of(top):
    """A sum of a file's bytes, or of all files of a folder by their names; a folder that isn't there has none."""
    found = []
    for path in files_of(top):
        try:
            with open(path, "rb") as it:
                found.append((os.path.relpath(path, top), hashlib.sha256(it.read()).hexdigest()))
        except FileNotFoundError:
            found.append((os.path.relpath(path, top), None))
    return sum_of_text(found)


def kit_sum(kit):
    """A sum of the kit: the texts that name it, and the size and time of each file that a check reads."""
    names = [sum_of(f"{kit}/{it}") for it in sorted(os.listdir(kit)) if it == "KIT-ID" or it.startswith("WHAT")]
    # (of a library of the kit, its format has the sum of its other files)
    rlibs = [f"rlibs/{it}/format" for it in sorted(os.listdir(f"{kit}/rlibs"))]
    files = [path for part in ("bin", "toolchain", "logic_built", "rattle", *rlibs) for path in files_of(f"{kit}/{part}") if "/__pycache__/" not in path]
    found = [(path[len(kit) :], os.lstat(path)) for path in files if os.path.lexists(path)]
    return sum_of_text([names, [(path, it.st_mode, it.st_size, it.st_mtime_ns) for path, it in found]])


if __name__ == "__main__":
    print(seen(sys.argv[1]))
