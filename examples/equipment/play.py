#!/usr/bin/env python3
"""Plays the equipment and an operator of the paint plant beside a server: creates and starts batches, does the phases that the server
starts, answers its commands, reports a fault now and then, restarts held batches, and stops a batch here and there.

It needs the standard library alone, and shows how a link keeps up with a record. At the end it prints a summary.
Usage: play.py [--program batchd] [--batches 200] [--seed 7] [--record FILE]
"""
import argparse
import collections
import os
import random
import subprocess
import sys

HERE = os.path.dirname(os.path.abspath(__file__))
PLANT = os.path.join(HERE, "..", "paint_plant")
DOCUMENTS = ["cell.toml", "certificate.txt", "primer.toml", "varnish.toml", "topcoat.toml", "rinse-mended.toml", "thinner.toml"]
# a recipe, the sizes that it is made in, and the units that may take its role
RECIPES = [("PRIMER", (600, 1000, 1500), ()), ("VARNISH", (500, 800), ()), ("TOPCOAT", (250, 500), ()), ("RINSE", (100,), ()),
           ("THINNER", (100, 300), ("MIXER1", "MIXER2"))]
# the report of equipment that is sent a command
ANSWERS = {"pause": "paused", "hold": "held", "restart": "running", "stop": "stopped", "abort": "aborted"}


class Server:
    """The program, its input and its record."""

    def __init__(self, program, record):
        self.process = subprocess.Popen([program, "run", *DOCUMENTS], cwd=PLANT, stdin=subprocess.PIPE, stdout=subprocess.PIPE, text=True)
        self.record = record

    def ask(self, line):
        """Sends a line, and gives its reply and the moves that come with it.

        The answer to a line ends where that to the next one begins. So a line that is surely refused is sent behind it."""
        self.process.stdin.write(f"{line}\nend-of-answer\n")
        self.process.stdin.flush()
        lines = []
        for told in self.process.stdout:
            self.record.write(told)
            if told == "refused W1\n":
                return lines[0], lines[1:]
            lines.append(told.rstrip("\n"))
        sys.exit(f"the server ended at {line!r}, with status {self.process.wait()}")

    def end(self):
        self.process.stdin.close()
        return self.process.wait()


class Plant:
    """The plant by the record alone, and the deeds that the equipment is about to do."""

    def __init__(self, chance):
        self.chance = chance
        self.states = {}  # batch: its state
        self.holders = {}  # unit: the batch that holds it
        self.live = {}  # (unit, phase): its batch, its place, and how many turns it still takes
        self.due = collections.deque()  # reports that are about to be sent
        self.counts = collections.Counter()

    def learn(self, reply, moves):
        """Takes a reply and its moves, and notes the answers that the equipment owes."""
        words = reply.split()
        if words[0] == "created":
            self.states[words[1]] = "idle"
        elif words[0] == "ok" and words[1] == "remove":
            del self.states[words[2]]
        elif words[0] == "ok" and words[1] == "report":
            self.note_state(words[5], words[7])
            if words[4] in ("done", "stopped", "aborted"):
                del self.live[words[2], words[3]]
        elif words[0] == "ok":
            self.note_state(words[2], words[3])
        for move in moves:
            self.obey(move.split())

    def note_state(self, batch, state):
        if state != self.states.get(batch) and state in ("complete", "stopped", "aborted", "holding"):
            self.counts[state] += 1
        self.states[batch] = state

    def obey(self, words):
        kind, batch, place = words[0], words[1], words[2]
        if kind == "grant" and words[3].startswith("MIXER"):
            assert words[3] not in self.holders, f"{words[3]} is granted twice"
            self.holders[words[3]] = batch
        elif kind == "release" and words[3].startswith("MIXER"):
            assert self.holders.pop(words[3]) == batch
        elif kind == "state":
            self.note_state(batch, place)
        elif kind == "start":
            unit, phase = words[3], words[4]
            assert (unit, phase) not in self.live, f"{phase} runs on {unit} already"
            assert self.holders[unit] == batch, f"{unit} isn't held by batch {batch}"
            self.live[unit, phase] = [batch, place, self.chance.randint(1, 4)]
        elif kind == "send" and words[5] in ANSWERS:
            self.due.append((words[3], words[4], ANSWERS[words[5]]))

    def running(self):
        """The phases that do their work: those of batches that run."""
        return [it for it in sorted(self.live) if self.states[self.live[it][0]] == "running"]

    def report_of(self, unit, phase):
        """The report of a phase that is done: a sample says whether the colour matches."""
        matches = f" MATCH={int(self.chance.random() < 0.5)}" if phase == "SAMPLE" else ""
        return f"report {unit} {phase} done{matches}"


def play(server, batches, chance):
    plant, created, used = Plant(chance), 0, set()

    def tell(line):
        reply, moves = server.ask(line)
        if reply.startswith("refused"):
            sys.exit(f"{line!r} was {reply}")
        plant.learn(reply, moves)

    while created < batches or plant.states:
        if plant.due:
            tell("report {} {} {}".format(*plant.due.popleft()))
            continue
        for batch, state in sorted(plant.states.items(), key=lambda it: int(it[0])):
            if state == "idle":
                tell(f"remove {batch}" if batch in used else f"start {batch}")
                used.add(batch)
            elif state == "held":
                tell(f"restart {batch}")
            elif state in ("complete", "stopped", "aborted"):
                tell(f"reset {batch}")
        if created < batches and len(plant.states) < 6:
            name, sizes, units = chance.choice(RECIPES)
            role = f" mixer={chance.choice(units)}" if units else ""
            tell(f"create {name} {chance.choice(sizes)}{role}")
            created += 1
        step(plant, chance, tell)
    return plant


def step(plant, chance, tell):
    """A turn of the equipment: each running phase works, and one of them may end or fail; now and then a batch is stopped."""
    for unit, phase in plant.running():
        batch, _, turns = plant.live[unit, phase]
        if plant.states[batch] != "running":
            continue
        if chance.random() < 0.02:
            plant.counts["faults"] += 1
            tell(f"report {unit} {phase} fault")
        elif turns > 1:
            plant.live[unit, phase][2] -= 1
        else:
            tell(plant.report_of(unit, phase))
    running = [it for it, state in sorted(plant.states.items()) if state == "running"]
    if running and chance.random() < 0.005:
        tell(f"stop {chance.choice(running)}")


def main():
    words = argparse.ArgumentParser(description=__doc__.split("\n")[0])
    words.add_argument("--program", default="batchd")
    words.add_argument("--batches", type=int, default=200)
    words.add_argument("--seed", type=int, default=7)
    words.add_argument("--record", default=os.devnull)
    asked = words.parse_args()
    with open(asked.record, "w", encoding="utf-8") as record:
        server = Server(asked.program, record)
        plant = play(server, asked.batches, random.Random(asked.seed))
    status = server.end()
    assert not plant.live and not plant.holders, "something still runs or is held"
    print(f"batches {asked.batches}, complete {plant.counts['complete']}, stopped {plant.counts['stopped']}, "
          f"held on the way {plant.counts['holding']}, faults {plant.counts['faults']}")
    return status


if __name__ == "__main__":
    sys.exit(main())
