#!/usr/bin/env python3
"""The link of a unit, at its own pipes: it does each phase that it is told to start, and answers each command.

Usage: link.py INPUT OUTPUT [--seconds 0.1]
It writes reports to INPUT, the pipe that the server reads, and reads OUTPUT, the pipe that the server writes. A phase takes so many seconds.
"""
import argparse
import sys
import time

# the report of a phase that is sent a command
ANSWERS = {"pause": "paused", "hold": "held", "restart": "running", "stop": "stopped", "abort": "aborted"}


def report_of(words):
    """The report that is due behind an order, if any."""
    if words[0] == "start":
        outputs = " MATCH=1" if words[4] == "SAMPLE" else ""
        return f"report {words[3]} {words[4]} done{outputs}\n"
    if words[0] == "send" and words[5] in ANSWERS:
        return f"report {words[3]} {words[4]} {ANSWERS[words[5]]}\n"
    return None


def main():
    words = argparse.ArgumentParser(description=__doc__.split("\n")[0])
    words.add_argument("input")
    words.add_argument("output")
    words.add_argument("--seconds", type=float, default=0.1)
    asked = words.parse_args()
    with open(asked.input, "w", encoding="utf-8") as reports, open(asked.output, encoding="utf-8") as orders:
        for line in orders:
            report = report_of(line.split())
            if report:
                time.sleep(asked.seconds)
                reports.write(report)
                reports.flush()


if __name__ == "__main__":
    sys.exit(main())
