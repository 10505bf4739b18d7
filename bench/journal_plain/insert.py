"""Inserts the lines that one read of standard input brings into a table of SQLite, in one transaction, and answers each."""
import os
import sqlite3
import sys

table = sqlite3.connect(sys.argv[1], isolation_level=None)
table.execute("PRAGMA journal_mode=WAL")
table.execute("PRAGMA synchronous=FULL")
table.execute("CREATE TABLE event (number INTEGER PRIMARY KEY, line TEXT)")
held = b""
while piece := os.read(0, 65536):
    *lines, held = (held + piece).split(b"\n")
    table.execute("BEGIN")
    table.executemany("INSERT INTO event (line) VALUES (?)", [(it.decode(),) for it in lines])
    table.execute("COMMIT")
    answers = b"ok .\n" * len(lines)
    while answers:
        answers = answers[os.write(1, answers) :]
