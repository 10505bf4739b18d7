"""The list of definitions that each promise reaches, as docs/DEFINITIONS.md has it, and its summary in docs/PROOF.md."""
from itertools import groupby

from reach import HEADLINE, PROMISES, files_of, lines_of, reached_by_promise, used_first
from sources import specs


def told(key, found):
    """A file, with the lines that are reached, of how many."""
    here, whole = lines_of(it for it in found if (it.crate, it.file) == key), sum(specs()[key].lines.values())
    return f"{key[1]} {here}" if here == whole else f"{key[1]} {here} of {whole}"


def promise(title, paths):
    found = reached_by_promise(tuple(paths))
    files = files_of(found)
    by_crate = groupby(used_first(files, found), key=lambda it: it[0])
    shown = [f"`{it}`" for it in paths[:3]] + ([f"{len(paths) - 3} more"] if len(paths) > 3 else [])
    yield f"**{title}** ({', '.join(shown)}): {lines_of(found):,} lines, {len(found)} definitions, {len(files)} files."
    yield ""
    for crate, here in by_crate:
        yield f"- {crate}: {', '.join(told(it, found) for it in here)}"
    yield ""


def listing():
    lines = [line for title, paths in PROMISES for line in promise(title, paths)]
    found = set().union(*(reached_by_promise(tuple(paths)) for _, paths in PROMISES))
    return "\n".join([*lines, f"Together: {lines_of(found):,} lines, {len(found)} definitions, {len(files_of(found))} files."]) + "\n"


# Of these crates the headline is to reach no definition: they say how the engine works.
UNBELIEVED = ["batch_arbiter", "batch_chart", "batch_record_laws", "batch_safety"]


def counted(found):
    return f"{len(found)} definitions of {lines_of(found):,} lines in {len(files_of(found))} files"


def headline():
    """The sentences of docs/PROOF.md on the headline's reach."""
    found = reached_by_promise(tuple(dict(PROMISES)[HEADLINE]))
    records = reached_by_promise(("batch_safety::records_are_safe",))
    own = sorted({it.name for it in found if it.crate == "batch_engine"})
    none = [it for it in UNBELIEVED if not any(said.crate == it for said in found)]
    lines = lines_of(it for it in found if it.crate == "batch_engine")
    return (
        f"`serving_is_safe` and `run_program` reach {counted(found)}, and `records_are_safe` by itself, the promise for all records, {counted(records)}. "
        f"Of batch_engine the headline reaches {lines} lines ({', '.join(f'`{it}`' for it in own)}); of {', '.join(none)} none.\n"
    )
