"""The parts of docs/ that these tools write, each between two markers that name its tool."""
from counted import table
from listing import headline, listing
from sources import TOP

# A page, the tool that its markers name, and the text between them.
PARTS = [
    ("DEFINITIONS.md", "tools/definitions", listing),
    ("PROOF.md", "tools/lines", table),
    ("PROOF.md", "tools/definitions", headline),
]


def markers(tool):
    return f"<!-- by {tool}: begins -->\n", f"<!-- by {tool}: ends -->\n"


def stale():
    """The pages that don't have the text that the tools print."""
    for page, tool, text in PARTS:
        begins, ends = markers(tool)
        if f"{begins}{text()}{ends}" not in (TOP / "docs" / page).read_text(encoding="utf-8"):
            yield page, tool


def written():
    for page, tool, text in PARTS:
        path, (begins, ends) = TOP / "docs" / page, markers(tool)
        before, _, rest = path.read_text(encoding="utf-8").partition(begins)
        _, _, after = rest.partition(ends)
        path.write_text(f"{before}{begins}{text()}{ends}{after}", encoding="utf-8")
