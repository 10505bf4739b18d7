"""The lines of a record of several desks that are due to a desk, by the rules of docs/FORMATS.md."""

REPLIES = (b"created ", b"ok ", b"refused ")


def text(lines):
    return b"".join(line + b"\n" for line in lines)


def due(record, name, unit):
    """The lines of the record that are due to the desk of this name, the link of a unit or of none, by the record's comments."""
    own = False
    for line in record:
        if line.startswith(b"# from "):
            own = line[7:] == name
        if line.startswith(b"#"):
            continue
        if line.startswith(REPLIES):
            if own:
                yield line
        elif unit is None or (line.startswith((b"start ", b"send ")) and line.split(b" ")[3] == unit):
            yield line
