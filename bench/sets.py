"""The worst cases of bench/all: documents and event lines of legal size. In each case one number grows while all else stays.

A chart is a label, a pair of `seq` or `par` and its parts, or a text of other forms, which the plain engine doesn't have.
"""
import random
from dataclasses import dataclass, field

UNITS, STATION_PHASES = 64, 32


def seq(*parts):
    return ("seq", parts)


def par(*parts):
    """The branches, or the only one."""
    return ("par", parts) if len(parts) > 1 else parts[0]


def nested(chart, times):
    for _ in range(times):
        chart = seq(chart)
    return chart


def text(chart):
    return chart if isinstance(chart, str) else f"{chart[0]}({','.join(map(text, chart[1]))})"


def listed(names):
    return "[" + ", ".join(f'"{name}"' for name in names) + "]"


@dataclass
class Recipe:
    """A recipe by its charts; needs are by label, the procedure's by the recipe's name."""

    name: str
    procedure: object
    unit_procedures: dict  # label: the unit, or the role, and the chart
    operations: dict  # label: chart
    phases: list
    needs: dict = field(default_factory=dict)
    tables: list = field(default_factory=list)  # the lines of values and roles
    place: str = "unit"  # or "role"
    runs: dict = field(default_factory=dict)  # label: the phase that it runs, where that has another name
    reserves: dict = field(default_factory=dict)  # label: the unit procedures that it reserves
    values: dict = field(default_factory=dict)  # label: the values that its phase is handed

    def document(self):
        lines = [f'recipe = "{self.name}"', 'version = "1"', "basis = 1000", *self.tables]
        lines += ["[procedure]", f"needs = {listed(self.needs.get(self.name, []))}", f'chart = "{text(self.procedure)}"']
        for label, (unit, chart) in self.unit_procedures.items():
            lines += [*self.act("unit_procedure", label), f'{self.place} = "{unit}"', f'chart = "{text(chart)}"']
        for label, chart in self.operations.items():
            lines += [*self.act("operation", label), f'chart = "{text(chart)}"']
        for label in self.phases:
            lines += [*self.act("phase", label), f'runs = "{self.runs.get(label, label)}"']
        return "\n".join(lines) + "\n"

    def act(self, kind, label):
        lists = {"needs": self.needs.get(label, []), "reserves": self.reserves.get(label), "values": self.values.get(label)}
        return [f"[[{kind}]]", f'name = "{label}"', *(f"{key} = {listed(names)}" for key, names in lists.items() if names is not None)]

    def nodes(self):
        """The lines of its nodes for the plain engine; no list where that one can't run it."""
        charts = [self.procedure, *(chart for _, chart in self.unit_procedures.values()), *self.operations.values()]
        if self.tables or any("(" in chart for chart in charts if isinstance(chart, str)):
            return None
        root = " ".join(["0 act", self.name, *self.needs.get(self.name, [])])
        return [f"recipe {self.name}", root, *self.below(self.procedure, 1, 0, None)]

    def below(self, chart, depth, level, unit):
        """The nodes of a chart of a procedure (level 0), a unit procedure or an operation."""
        if not isinstance(chart, str):
            yield f"{depth} {chart[0]}"
            for part in chart[1]:
                yield from self.below(part, depth + 1, level, unit)
        elif level == 2:
            yield " ".join([f"{depth} phase {unit} {chart}", *self.needs.get(chart, [])])
        else:
            unit, inner = self.unit_procedures[chart] if level == 0 else (unit, self.operations[chart])
            yield " ".join([f"{depth} act {chart}", *([unit] if level == 0 else []), *self.needs.get(chart, [])])
            yield from self.below(inner, depth + 1, level + 1, unit)


@dataclass
class Plant:
    """A cell whose units all offer the same phases, recipes, the lines that create and start, and those that are counted."""

    units: list
    phases: list
    recipes: list
    before: list
    after: list
    shared: dict = field(default_factory=dict)  # name: capacity
    classes: dict = field(default_factory=dict)  # unit: class
    free: list = field(default_factory=list)  # free modules

    def cell(self):
        lines = ['cell = "BENCH"']
        for unit in self.units:
            lines += ["[[unit]]", f'name = "{unit}"', *([f'class = "{self.classes[unit]}"'] if unit in self.classes else [])]
        for number, unit in enumerate(self.units):
            for at in range(0, len(self.phases), STATION_PHASES):
                phases = listed(self.phases[at : at + STATION_PHASES])
                lines += ["[[module]]", f'name = "MODULE_{number}_{at}"', f'unit = "{unit}"', f"phases = {phases}"]
        for name in self.free:
            lines += ["[[module]]", f'name = "{name}"']
        for name, capacity in self.shared.items():
            lines += ["[[shared]]", f'name = "{name}"', f"capacity = {capacity}"]
        return "\n".join(lines) + "\n"

    def forms(self):
        """The same for the plain engine, or None where it can't run it."""
        lines = [f"resource {unit} 1" for unit in self.units] + [f"resource {name} {of}" for name, of in self.shared.items()]
        lines += [f"phase {unit} {phase}" for unit in self.units for phase in self.phases]
        nodes = [recipe.nodes() for recipe in self.recipes]
        has_all = all(nodes) and all(line.split()[0] in ("start", "reset") or line.endswith(" done") for line in self.after)
        return "\n".join(lines + sum(nodes, [])) + "\n" if has_all else None

    def write(self, folder):
        """Writes the documents, and gives their paths, the cell's first."""
        paths = [f"{folder}/cell.toml", *(f"{folder}/recipe-{number}.toml" for number in range(len(self.recipes)))]
        for path, document in zip(paths, [self.cell(), *(recipe.document() for recipe in self.recipes)]):
            write(path, document)
        return paths


def write(path, content):
    with open(path, "w", encoding="utf-8") as out:
        out.write(content)


def begun(*names):
    """Creates and starts of batches of these recipes, of which the first is 1."""
    return [f"create {name} 1000" for name in names] + [f"start {number + 1}" for number in range(len(names))]


def work(chart, name="R", unit="U", **more):
    """A recipe whose only operation has this chart."""
    return Recipe(name, "M", {"M": (unit, "W")}, {"W": chart}, ["A"], **more)


def row(count):
    """So many phase steps, one after the other."""
    return seq(*["A"] * count)


def done(count):
    return ["report U A done"] * count


def asks(count):
    """So many acts of a batch ask for one unit, which each report hands on."""
    recipe = Recipe("R", par(*["M"] * count), {"M": ("U", "W")}, {"W": "A"}, ["A"])
    return Plant(["U"], ["A"], [recipe], begun("R"), [*done(count), "reset 1", "start 1"] * max(2, 600 // count))


def waiting(count):
    """So many branches wait for a unit that another batch holds, while another branch works on."""
    acts, charts = {"M": ("U", "W"), "K": ("V", "KEEP")}, {"W": row(900), "KEEP": "A"}
    recipe = Recipe("WORK", par("M", *["K"] * count), acts, charts, ["A"])
    return Plant(["U", "V"], ["A"], [work("A", "HOLD", "V"), recipe], begun("HOLD", "WORK"), done(600))


def live(count):
    """So many phases of the batch are live; the last of them reports."""
    others = [f"P{number}" for number in range(1, count)]
    recipe = Recipe("R", "M", {"M": ("U", "W")}, {"W": par(*others, row(700))}, ["A", *others])
    return Plant(["U"], ["A", *others], [recipe], begun("R"), done(600))


def short_name(kind, number):
    return f"{kind[0]}{number:02}"


def long_name(kind, number):
    return f"{kind}_".ljust(29, "X") + f"{number:03}"


def values(name):
    """The lines of 64 inputs, 64 parameters and 64 outputs."""
    lines = []
    for kind in ("INPUT", "PARAMETER"):
        for number in range(64):
            lines += [f"[[{kind.lower()}]]", f'name = "{name(kind, number)}"', "value = 5", "min = 0", "max = 9"]
    return lines + [line for number in range(64) for line in ("[[output]]", f'name = "{name("OUTPUT", number)}"')]


def outputs(count):
    """Each report sets so many of 64 outputs, the last ones, beside 64 inputs and 64 parameters."""
    pairs = "".join(f" {short_name('OUTPUT', 64 - count + number)}=7" for number in range(count))
    return Plant(["U"], ["A"], [work(row(700), tables=values(short_name))], begun("R"), [f"report U A done{pairs}"] * 300)


def handed(count):
    """Each phase is handed so many of 192 values at its start, the last ones."""
    last = [short_name("OUTPUT", 64 - count + number) for number in range(count)]
    return Plant(["U"], ["A"], [work(row(700), tables=values(short_name), values={"A": last})], begun("R"), done(600))


def conditions(count, condition, name):
    """After each report so many conditions of a `sel` are tried in vain, on the last of 192 values."""
    chart = f"loop(1000,{name('OUTPUT', 0)}>0,sel({f'{condition}:A,' * count}else:A))"
    return Plant(["U"], ["A"], [work(chart, tables=values(name))], begun("R"), done(max(10, 300 // count)))


def short_conditions(count):
    return conditions(count, f"{short_name('OUTPUT', 63)}>9", short_name)


def long_conditions(count):
    """The same with names of 32 letters that differ in the last three, on both sides."""
    return conditions(count, f"{long_name('OUTPUT', 62)}>{long_name('OUTPUT', 63)}", long_name)


def holders(count):
    """So many acts hold a shared resource; the last gives it back and asks again."""
    hold = work("A", "HOLD", "V", needs={"HOLD": ["S"]})
    last = work(row(700), "LAST", needs={"A": ["S"]})
    return Plant(["U", "V"], ["A"], [hold, last], begun(*["HOLD"] * (count - 1), "LAST"), done(600), {"S": 1000})


def deep(name, place, unit, **more):
    """A recipe of 16 branches, one after the other, each as deep as forms may nest."""
    acts, charts = {"M": (unit, nested("W", 30))}, {"W": nested(row(20), 30)}
    return Recipe(name, seq(*["M"] * 16), acts, charts, ["A"], place=place, **more)


def in_branches(count, names, pairs):
    """Batches of the deep recipes on so many units, each in another branch than the ones before."""
    units = [f"U{number:02}" for number in range(count)]
    before = [f"create {name} 1000{pair}" for name, pair in zip(names, pairs)] + [f"start {number + 1}" for number in range(count)]
    before += [f"report {unit} A done" for number, unit in enumerate(units) for _ in range(20 * (number % 16))]
    return before, [f"report {unit} A done" for _ in range(max(12, 300 // count)) for unit in units]


def by_role(count):
    """One deep recipe runs on so many units, which take its role."""
    units = [f"U{number:02}" for number in range(count)]
    recipe = deep("R", "role", "ROLE", tables=["[[role]]", 'name = "ROLE"', 'class = "KIND"'])
    before, after = in_branches(count, ["R"] * count, [f" ROLE={unit}" for unit in units])
    return Plant(units, ["A"], [recipe], before, after, classes=dict.fromkeys(units, "KIND"))


def by_unit(count):
    """The same with a recipe for each unit."""
    units = [f"U{number:02}" for number in range(count)]
    before, after = in_branches(count, [f"R{unit}" for unit in units], [""] * count)
    return Plant(units, ["A"], [deep(f"R{unit}", "unit", unit) for unit in units], before, after)


def letters(count):
    """All names have so many letters."""
    unit, recipe, make, chart, phase, header = (letter * count for letter in "URMWAH")
    it = Recipe(recipe, make, {make: (unit, chart)}, {chart: seq(*[phase] * 450)}, [phase], {phase: [header]})
    return Plant([unit], [phase], [it], begun(recipe), [f"report {unit} {phase} done"] * 400, {header: 8})


def over(count):
    """So many branches of a `par` are over."""
    recipe = work(row(700))
    recipe.procedure = f"par(M{',skip' * count})"
    return Plant(["U"], ["A"], [recipe], begun("R"), done(600))


def stops(count):
    """A batch that waits for nothing is stopped and started again, beside so many batches with 1,000 asks each."""
    crowd = Recipe("CROWD", par(*["M"] * 1001), {"M": ("V", "W")}, {"W": "A"}, ["A"])
    it = count + 1
    turn = [f"stop {it}", "report U A stopped", f"reset {it}", f"start {it}"]
    return Plant(["U", "V"], ["A"], [crowd, work("A")], begun(*["CROWD"] * count, "R"), turn * 25)


def aborts(count):
    """Batches of 1,364 asks, all in one line, are aborted in the order of their numbers."""
    plant = asks(1364)
    plant.before, plant.after = begun(*["R"] * count), [f"abort {number + 1}" for number in range(count)]
    return plant


def aborts_from_last(count):
    plant = aborts(count)
    plant.after.reverse()
    return plant


def many(count):
    """So many batches of 4,000 nodes on 64 units; no line is counted."""
    units, chart = [f"U{number:02}" for number in range(UNITS)], seq(*["A", par("H", "D")] * 999)
    needs, phases = {"H": ["HEADER"], "D": ["DRAIN*2"]}, ["A", "H", "D"]
    recipes = [Recipe(f"R{unit}", "M", {"M": (unit, "W")}, {"W": chart}, phases, needs) for unit in units]
    before = begun(*(f"R{units[number % UNITS]}" for number in range(count)))
    return Plant(units, phases, recipes, before, [], {"DRAIN": 1000, "HEADER": 8})


def candidates(count, recipes, turned=False, roles=1, handed=False):
    """Recipes of 4,050 nodes with 16 needs at each of four levels, on a role that so many units may take, or on so many roles in turn;
    0 units: on unit procedures of named units. turned: the last step of the last recipe asks in the other order. handed: each unit procedure
    but the last has one more step, which reserves the next. No line is counted."""
    units, free = [f"UNIT_{number:02}" for number in range(UNITS)], [f"FREE_{number:03}" for number in range(192)]
    shared, phases = {f"HEADER_{number:02}": 3 for number in range(64)}, [f"PHASE_{number:02}" for number in range(STATION_PHASES)]
    chance, pools = random.Random(88), [list(shared), free[:64], free[64:128], free[128:]]
    needs = lambda level: sorted(chance.sample(pools[level], 16))
    places = [f"ROLE_{number}" for number in range(roles)] if count > 0 else units[:roles]
    found = [candidate(f"R_{number:03}", count > 0, places, phases, needs) for number in range(recipes)]
    if turned:
        found[-1].needs["LAST"].reverse()
    if handed:
        for recipe in found:
            hand_on(recipe, phases[0])
    return Plant(units, phases, found, [], [], shared, dict.fromkeys(units[:count], "KIND"), free)


def candidate(name, has_roles, places, phases, needs):
    """A recipe of `candidates`, with 16 needs of a level at a call. Its last step asks as its first does."""
    steps = [f"STEP_{number:02}" for number in range(60)]
    recipe = Recipe(name, seq(*(f"UP_{u}" for u in range(8))), {}, {}, [*steps, "LAST"], {name: needs(0)})
    recipe.runs = {step: phases[number % len(phases)] for number, step in enumerate(recipe.phases)}
    if has_roles:
        recipe.place = "role"
        recipe.tables = [line for place in places for line in ("[[role]]", f'name = "{place}"', 'class = "KIND"')]
    for u in range(8):
        recipe.unit_procedures[f"UP_{u}"] = (places[u % len(places)], seq(*(f"OP_{u}_{o}" for o in range(8))))
        recipe.needs[f"UP_{u}"] = needs(1)
        for o in range(8):
            recipe.operations[f"OP_{u}_{o}"] = seq(*(steps[(u + o + s) % 60] for s in range(60)), "LAST")
            recipe.needs[f"OP_{u}_{o}"] = needs(2)
    recipe.needs |= {step: needs(3) for step in steps}
    recipe.needs["LAST"] = list(recipe.needs[steps[0]])
    return recipe


def hand_on(recipe, phase):
    """The last operation of each unit procedure but the last ends in a step that reserves the next unit procedure."""
    for u in range(7):
        step, (form, steps) = f"PASS_{u}", recipe.operations[f"OP_{u}_7"]
        recipe.phases.append(step)
        recipe.runs[step], recipe.reserves[step] = phase, [f"UP_{u + 1}"]
        recipe.operations[f"OP_{u}_7"] = (form, (*steps, step))
