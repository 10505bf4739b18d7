"""A set of recipes in which ranks rise nowhere: the worst case of `check`, which then looks at every two needs of each path.

write_circle(folder, recipes, candidates) writes cell.toml and this number of recipes. As in the wide set of bench/checkers, each recipe has
4,050 nodes, and 16 needs at each of the four levels. All unit procedures run on a role with this number of candidates (0: they run on the
first unit), and the last step of the last recipe asks for its needs in the reverse order.

From the command line: python3 bench/circles.py FOLDER [RECIPES [CANDIDATES]], and then

    batchd check FOLDER/cell.toml FOLDER/[0-9]*.toml
"""
import os
import random
import sys

MODULES, SHARED, PHASES, UNITS = 256, 64, 32, 64
ACROSS, DOWN, STEPS, NEEDS = 8, 8, 61, 16


def listed(names):
    return "[" + ", ".join(f'"{name}"' for name in names) + "]"


def write_cell(path, candidates, free, shared, offered):
    """Units of which so many are of one class. Each that steps may run on has a station with all phases."""
    with open(path, "w") as out:
        out.write('cell = "BENCH"\n')
        for unit in range(UNITS):
            out.write(f'[[unit]]\nname = "UNIT_{unit:02}"\n' + ('class = "LINE"\n' if unit < candidates else ""))
        for unit in range(max(candidates, 1)):
            out.write(f'[[module]]\nname = "STATION_{unit:02}"\nunit = "UNIT_{unit:02}"\nphases = {listed(offered)}\n')
        for name in free:
            out.write(f'[[module]]\nname = "{name}"\n')
        for name in shared:
            out.write(f'[[shared]]\nname = "{name}"\ncapacity = 3\n')


def write_circle(folder, recipes=256, candidates=64):
    chance = random.Random(88)
    os.makedirs(folder, exist_ok=True)
    free = [f"FREE_{n:03}" for n in range(MODULES - max(candidates, 1))]
    shared = [f"HEADER_{n:02}" for n in range(SHARED)]
    offered = [f"PHASE_{n:02}" for n in range(PHASES)]
    third = len(free) // 3
    above, between, below = free[:third], free[third : 2 * third], free[2 * third :]
    write_cell(f"{folder}/cell.toml", candidates, free, shared, offered)

    def some(pool):
        return [pool[n] for n in sorted(chance.sample(range(len(pool)), NEEDS))]

    for number in range(recipes):
        place = 'role = "ON"' if candidates > 0 else 'unit = "UNIT_00"'
        lines = [f'recipe = "R_{number:03}"', 'version = "1"', "basis = 1000"]
        lines += ["[[role]]", 'name = "ON"', 'class = "LINE"'] if candidates > 0 else []
        chart = ", ".join(f"UP_{u}" for u in range(ACROSS))
        lines += ["[procedure]", f"needs = {listed(some(shared))}", f'chart = "seq({chart})"']
        for u in range(ACROSS):
            chart = ", ".join(f"OP_{u}_{o}" for o in range(DOWN))
            lines += ["[[unit_procedure]]", f'name = "UP_{u}"', place, f"needs = {listed(some(above))}", f'chart = "seq({chart})"']
        for u in range(ACROSS):
            for o in range(DOWN):
                steps = [f"STEP_{chance.randrange(STEPS - 1):03}" for _ in range(STEPS - 1)] + [f"STEP_{STEPS - 1:03}"]
                lines += ["[[operation]]", f'name = "OP_{u}_{o}"', f"needs = {listed(some(between))}", f'chart = "seq({", ".join(steps)})"']
        for s in range(STEPS):
            needs = some(below)
            if number == recipes - 1 and s == STEPS - 1:
                needs.reverse()
            lines += ["[[phase]]", f'name = "STEP_{s:03}"', f'runs = "{offered[s % PHASES]}"', f"needs = {listed(needs)}"]
        with open(f"{folder}/{number:03}.toml", "w") as out:
            out.write("\n".join(lines) + "\n")


if __name__ == "__main__":
    write_circle(sys.argv[1], *(int(word) for word in sys.argv[2:]))
