"""The lines of each crate: of code, of contracts, of definitions by their marks, and of proofs, as docs/PROOF.md has them."""
import re
from collections import defaultdict

from contracts import blanked, closing
from reach import crate_ranks, marks
from sources import CRATES, own_crates, specs, without_comments

COLUMNS = ("code", "contracts", "trusted", "surface", "worked rows", "private", "proofs")
NAMES = re.compile(r"^ *(?:pub(?:\([^)]*\))? )?(?:ghost use|use|mod) [^;]*;", re.M)


def without_names(text):
    return NAMES.sub(lambda it: "\n" * it.group(0).count("\n"), text)


def contract_lines(text):
    """The numbers of the lines on which contracts and ghost items stand."""
    found = set()
    for item in re.finditer(r"\b(?:requires|ensures|decreases)\b(?:\s+\w+)?\s*(?=\{)|\bghost \w+\s*[=:]\s*(?=\{)", text):
        end = closing(text, text.index("{", item.end() - 1))
        by = re.compile(r"\s*by\s*(?=\{)").match(text, end + 1)
        end = closing(text, text.index("{", by.end() - 1)) if by else end
        found.update(range(text.count("\n", 0, item.start()), text.count("\n", 0, end) + 1))
    return found


def of_source(path):
    """How many lines of code and of contracts a file of src/ has."""
    plain = path.read_text(encoding="utf-8")
    shape = without_names(blanked(plain))
    contracts = contract_lines(shape)
    # a line is code where something is left of it that is neither a comment nor part of a `use` or a `mod`
    named = {at for it in NAMES.finditer(blanked(plain)) for at in range(plain.count("\n", 0, it.start()), plain.count("\n", 0, it.end()) + 1)}
    filled = {at for at, line in enumerate(plain.split("\n")) if line.strip() and not line.strip().startswith("//")} - named
    return len(filled - contracts), len(filled & contracts)


def of_proof(path):
    text = without_comments(path.read_text(encoding="utf-8"))
    text = re.sub(r"^use [^\n{]*(?:\{[^}]*\})?[^\n]*$", "", text, flags=re.M)
    return sum(1 for line in text.split("\n") if line.strip() and not line.startswith("pub mod "))


def counts():
    found = defaultdict(lambda: dict.fromkeys(COLUMNS, 0))
    for crate in own_crates():
        for path in (CRATES / crate / "src").rglob("*.rt"):
            code, contracts = of_source(path)
            found[crate]["code"] += code
            found[crate]["contracts"] += contracts
        for path in (CRATES / crate / "proofs").rglob("*.antt"):
            found[crate]["proofs"] += of_proof(path)
    for (crate, _), mark in marks().items():
        found[crate][mark] += 0
    for key, spec in specs().items():
        found[key[0]][marks()[key]] += sum(spec.lines.values())
    return found


def is_of_tests(crate):
    return not crate.startswith("batch")


def row(name, numbers):
    return f"| {name} | " + " | ".join(f"{numbers[it]:,}" if numbers[it] else "" for it in COLUMNS) + " |"


def table():
    found = counts()
    own = sorted((it for it in found if not is_of_tests(it)), key=lambda it: crate_ranks()[it])
    in_all = {it: sum(found[crate][it] for crate in own) for it in COLUMNS}
    lines = ["| Crate | " + " | ".join(it.capitalize() for it in COLUMNS) + " |", "|---|" + "---|" * len(COLUMNS)]
    lines += [row(crate, found[crate]) for crate in own]
    lines += [row(f"in all ({len(own)} crates)", in_all), ""]
    lines += [f"Crates of tests and stored runs: {sum(found[it]['code'] for it in found if is_of_tests(it)):,} lines of code."]
    return "\n".join(lines) + "\n"
