"""The definitions that promises and public clauses reach, from name to name."""
from functools import cache

from contracts import is_public_type, said_by_sources
from sources import Definition, TOP, said_by_definitions, specs

HEADLINE = "The headline: a run of the program"
# Each promise with the functions whose contracts state it.
PROMISES = [
    ("Every record of a cleared set is safe", ["batch_safety::records_are_safe", "batch_safety::cleared_runs_safely"]),
    ("Nobody waits in vain", ["batch_safety::nobody_waits_in_vain"]),
    ("A reserved unit stays with its batch", ["batch_safety::units_are_kept"]),
    ("`verify` clears a set, or names a fault", ["batch_verify::verify", "batch_verify::read_certificate"]),
    ("`check` finds the least ranks, or why there are none", ["batch_check::check"]),
    ("A cell or a recipe is that of its document", ["batch_reader::read_cell", "batch_reader::read_recipe"]),
    ("The engine's calls are the machine's steps", ["batch_engine::Engine::*"]),
    ("Served lines and their answers are a safe transcript", ["batch_serve::" + it for it in (
        "serve", "serve_set", "serve_remarked", "answer_line", "CleanReader::*", "Held::*", "HeldRemarks::*", "Remarked::*", "Remarking::*",
        "clean_lines_agree", "clean_lines_serve_alike", "no_want_is_well", "serving_agrees", "told_is_recovered", "transcripts_are_safe",
        "transcripts_are_whole", "transcripts_leave_nobody_in_vain", "transcripts_settle", "want_is_not_told",
        "clean_line_rows", "comment_rows", "held_rows", "unfinished_rows", "piece_limit_is_fixed")]),
    (HEADLINE, ["batch_program::serving_is_safe", "batch_program::run_program"]),
    ("The program's other laws", ["batch_program::" + it for it in (
        "remarked_serving_is_safe", "journalled_serving_is_safe", "desks_are_safe", "desks_are_kept", "audits_are_true",
        "certificates_are_kept", "plants_are_complete")]),
]


@cache
def functions_of(path):
    """The public functions that a path names; a star stands for all."""
    found = [it for it in said_by_sources().functions if it.is_public
             and (it.path() == path or path.endswith("::*") and it.path().startswith(path[:-1]))]
    if not found:
        raise SystemExit(f"tools/marks/reach.py: there is no public function {path}")
    return found


def reached_from(front):
    """All that is reached from these names: the names that they say, the names that those say, and so on."""
    front, found = list(front), set()
    while front:
        it = front.pop()
        if it in found:
            continue
        found.add(it)
        if isinstance(it, Definition):
            front += said_by_definitions()[it]
        else:
            front += said_by_sources().values.get(it, ())
    return found


def definitions(found):
    return {it for it in found if isinstance(it, Definition)}


@cache
def reached_by_promise(paths):
    """The definitions that the statements of these functions reach."""
    front = set()
    for path in paths:
        for function in functions_of(path):
            front |= function.clauses | function.types
    return definitions(reached_from(front))


def is_rows_name(name):
    """Worked rows have files of these names."""
    return name.startswith("Row") or name == "Example"


def is_row_law(function):
    """A law that cites rows alone."""
    cited = definitions(function.clauses)
    return function.is_law and bool(cited) and all(is_rows_name(it.file) for it in cited)


@cache
def reached_by_public():
    """The definitions that public clauses reach, beside laws of rows."""
    said, front = said_by_sources(), set()
    for function in said.functions:
        if function.is_public and not is_row_law(function):
            front |= function.clauses | function.types
    for it in [*said.values, *said.kept]:
        if is_public_type(it):
            front |= {it} | said.kept.get(it, set())
    return definitions(reached_from(front))


def files_of(found):
    return {(it.crate, it.file) for it in found}


def lines_of(found):
    return sum(specs()[it.crate, it.file].lines[it.name] for it in found)


@cache
def marks():
    """Of each file of specs/ the mark that it must have."""
    trusted = files_of(set().union(*(reached_by_promise(tuple(paths)) for _, paths in PROMISES)))
    public = files_of(reached_by_public())
    found = {}
    for key in specs():
        if is_rows_name(key[1]):
            found[key] = "worked rows"
        else:
            found[key] = "trusted" if key in trusted else "surface" if key in public else "private"
    return found


def cites_rows():
    """Who cites worked rows and is neither a row nor a law of rows, with the rows that it cites."""
    for it, said in said_by_definitions().items():
        if not is_rows_name(it.file):
            yield from ((f"{it.crate}/specs/{it.file}: {it.name}", cited) for cited in definitions(said) if is_rows_name(cited.file))
    for function in said_by_sources().functions:
        if not is_row_law(function):
            yield from ((function.path(), cited) for cited in definitions(function.clauses) if is_rows_name(cited.file))
    for it, kept in said_by_sources().kept.items():
        said = definitions(kept | said_by_sources().values.get(it, set()))
        yield from ((f"{it.crate}::{it.name}", cited) for cited in said if is_rows_name(cited.file))


def used_first(files, found):
    """These files in the order in which to read them: each before its users, and the lowest crate first."""
    order, uses = [], {it: set() for it in files}
    for it in found:
        for said in definitions(reached_from(said_by_definitions()[it])):
            uses[it.crate, it.file].add((said.crate, said.file))

    def visit(it):
        if it in order or it in waiting:
            return
        waiting.add(it)
        for below in sorted(uses[it] & files):
            visit(below)
        order.append(it)

    waiting = set()
    for it in sorted(files):
        visit(it)
    ranks = crate_ranks()
    return sorted(order, key=lambda it: ranks[it[0]])


@cache
def crate_ranks():
    """Of each crate how many crates of crates.txt must stand before it."""
    below = {}
    for line in (TOP / "crates.txt").read_text(encoding="utf-8").splitlines():
        crate, _, others = line.partition("#")[0].partition(":")
        below[crate.strip()] = others.split()
    order = []

    def visit(crate):
        if crate in order:
            return
        for it in below.get(crate, ()):
            visit(it)
        order.append(crate)

    for crate in below:
        visit(crate)
    return {crate: at for at, crate in enumerate(order)}
