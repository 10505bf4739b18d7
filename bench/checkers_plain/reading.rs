//! Reads the cells and recipes of the bench: TOML with one table head or one key a line, and the keys that the bench writes.

use std::collections::{HashMap, HashSet};

pub struct Cell {
    /// Units first, then free modules, then shared resources. Their positions are their numbers.
    pub resources: Vec<String>,
    pub capacities: Vec<u32>,
    pub numbers: HashMap<String, usize>,
    pub units: usize,
    pub phase_numbers: HashMap<String, usize>,
    /// Of each unit, by the numbers of phases, whether it offers them.
    pub offers: Vec<Vec<bool>>,
}

/// Which resource, if it is one, and how many units of its capacity.
pub struct Need {
    pub resource: Option<usize>,
    pub units: u32,
}

pub enum Chart {
    /// The act with this number in the table below.
    Label(usize),
    Skip,
    Seq(Vec<Chart>),
    Par(Vec<Chart>),
    Sel(Vec<Chart>),
    Loop(Box<Chart>),
}

pub enum Task {
    Follows(Chart),
    /// A phase that runs: its number in the cell, if it is one there, and in the recipe.
    Runs {
        in_cell: Option<usize>,
        in_recipe: usize,
    },
}

pub struct Act {
    /// Of a unit procedure whether its first need is a unit.
    pub has_unit: bool,
    pub needs: Vec<Need>,
    pub task: Task,
}

pub struct Recipe {
    pub name: String,
    pub procedure: Act,
    /// Unit procedures, operations and phase steps.
    pub tables: [Vec<Act>; 3],
}

/// A table of a document: its kind, and its keys with the texts of their values.
struct Table<'a> {
    kind: &'a str,
    entries: Vec<(&'a str, &'a str)>,
}

impl<'a> Table<'a> {
    fn value(&self, key: &str) -> Option<&'a str> {
        self.entries
            .iter()
            .find(|entry| entry.0 == key)
            .map(|entry| entry.1)
    }

    fn text(&self, key: &str) -> Result<&'a str, String> {
        let value = self
            .value(key)
            .ok_or_else(|| format!("{} without {key}", self.kind))?;
        quoted(value).ok_or_else(|| format!("{key} is no text"))
    }

    /// The texts of a list; none where the key isn't there.
    fn texts(&self, key: &str) -> Result<Vec<&'a str>, String> {
        let Some(value) = self.value(key) else {
            return Ok(Vec::new());
        };
        let inside = value
            .strip_prefix('[')
            .and_then(|rest| rest.strip_suffix(']'));
        let words = inside
            .ok_or_else(|| format!("{key} is no list"))?
            .split(',')
            .map(str::trim);
        let texts = words
            .filter(|word| !word.is_empty())
            .map(quoted)
            .collect::<Option<_>>();
        texts.ok_or_else(|| format!("{key} is no list of texts"))
    }
}

fn quoted(value: &str) -> Option<&str> {
    let text = value.strip_prefix('"')?.strip_suffix('"')?;
    (!text.contains(['"', '\\'])).then_some(text)
}

/// The tables of a document, the top as one of the kind "".
fn tables_of(text: &str) -> Result<Vec<Table<'_>>, String> {
    let mut tables = vec![Table {
        kind: "",
        entries: Vec::new(),
    }];
    for line in text
        .lines()
        .filter(|line| !line.is_empty() && !line.starts_with('#'))
    {
        let head = line
            .strip_prefix("[[")
            .and_then(|rest| rest.strip_suffix("]]"));
        if let Some(kind) = head.or_else(|| (line == "[procedure]").then_some("procedure")) {
            tables.push(Table {
                kind,
                entries: Vec::new(),
            });
        } else {
            let entry = line
                .split_once(" = ")
                .ok_or_else(|| format!("no entry: {line}"))?;
            tables
                .last_mut()
                .expect("the top is there")
                .entries
                .push(entry);
        }
    }
    Ok(tables)
}

pub fn read_cell(text: &str) -> Result<Cell, String> {
    let tables = tables_of(text)?;
    let mut cell = Cell {
        resources: Vec::new(),
        capacities: Vec::new(),
        numbers: HashMap::new(),
        units: tables.iter().filter(|table| table.kind == "unit").count(),
        phase_numbers: HashMap::new(),
        offers: Vec::new(),
    };
    for kind in ["unit", "module", "shared"] {
        for table in tables
            .iter()
            .filter(|table| table.kind == kind && table.value("unit").is_none())
        {
            let capacity = table.value("capacity").map_or(Ok(1), str::parse);
            cell.capacities
                .push(capacity.map_err(|_| "capacity is no number")?);
            let name = table.text("name")?.to_string();
            if cell
                .numbers
                .insert(name.clone(), cell.resources.len())
                .is_some()
            {
                return Err(format!("{name} stands twice"));
            }
            cell.resources.push(name);
        }
    }
    for table in tables
        .iter()
        .filter(|table| table.kind == "module" && table.value("unit").is_some())
    {
        cell.offer(table)?;
    }
    Ok(cell)
}

impl Cell {
    /// Notes which phases this module gives to its unit.
    fn offer(&mut self, table: &Table) -> Result<(), String> {
        let unit = table.text("unit")?;
        let unit = *self
            .numbers
            .get(unit)
            .filter(|number| **number < self.units)
            .ok_or("a module has no unit")?;
        self.offers.resize_with(self.units, Vec::new);
        for phase in table.texts("phases")? {
            let next = self.phase_numbers.len();
            let number = *self.phase_numbers.entry(phase.to_string()).or_insert(next);
            let offered = &mut self.offers[unit];
            offered.resize(offered.len().max(number + 1), false);
            offered[number] = true;
        }
        Ok(())
    }

    pub fn does_offer(&self, unit: usize, phase: usize) -> bool {
        self.offers
            .get(unit)
            .and_then(|offered| offered.get(phase))
            .copied()
            .unwrap_or(false)
    }

    fn need(&self, text: &str) -> Result<Need, String> {
        let (name, units) = text.split_once('*').unwrap_or((text, "1"));
        Ok(Need {
            resource: self.numbers.get(name).copied(),
            units: units.parse().map_err(|_| format!("no need: {text}"))?,
        })
    }
}

/// The names that the charts of a recipe say: of acts, by their tables, and of values; and the numbers of phases that are run.
struct Names<'a> {
    acts: [HashMap<&'a str, usize>; 3],
    values: HashSet<&'a str>,
    phases: HashMap<&'a str, usize>,
}

const LEVELS: [&str; 3] = ["unit_procedure", "operation", "phase"];

pub fn read_recipe(cell: &Cell, text: &str) -> Result<Recipe, String> {
    let tables = tables_of(text)?;
    let mut names = names_of(&tables)?;
    let mut read = [const { Vec::new() }; 3];
    let mut procedure = None;
    for table in &tables {
        if table.kind == "procedure" {
            procedure = Some(read_act(cell, &mut names, table, 0)?);
        } else if let Some(level) = LEVELS.iter().position(|kind| *kind == table.kind) {
            read[level].push(read_act(cell, &mut names, table, level + 1)?);
        }
    }
    Ok(Recipe {
        name: tables[0].text("recipe")?.to_string(),
        procedure: procedure.ok_or("there is no procedure")?,
        tables: read,
    })
}

fn names_of<'a>(tables: &[Table<'a>]) -> Result<Names<'a>, String> {
    let mut names = Names {
        acts: Default::default(),
        values: HashSet::new(),
        phases: HashMap::new(),
    };
    for table in tables {
        if let Some(level) = LEVELS.iter().position(|kind| *kind == table.kind) {
            let next = names.acts[level].len();
            if names.acts[level]
                .insert(table.text("name")?, next)
                .is_some()
            {
                return Err("an act stands twice".to_string());
            }
        } else if ["input", "parameter", "output"].contains(&table.kind) {
            names.values.insert(table.text("name")?);
        }
    }
    Ok(names)
}

/// The act of a table, whose charts' labels are in the table of this level.
fn read_act<'a>(
    cell: &Cell,
    names: &mut Names<'a>,
    table: &Table<'a>,
    level: usize,
) -> Result<Act, String> {
    let mut needs = Vec::new();
    let mut has_unit = true;
    if table.kind == "unit_procedure" {
        let need = cell.need(table.text("unit")?)?;
        has_unit = need.resource.is_some_and(|number| number < cell.units);
        needs.push(need);
    }
    for text in table.texts("needs")? {
        needs.push(cell.need(text)?);
    }
    Ok(Act {
        has_unit,
        needs,
        task: read_task(cell, names, table, level)?,
    })
}

fn read_task<'a>(
    cell: &Cell,
    names: &mut Names<'a>,
    table: &Table<'a>,
    level: usize,
) -> Result<Task, String> {
    if table.kind != "phase" {
        let chart = read_chart(table.text("chart")?, &names.acts[level], &names.values)?;
        return Ok(Task::Follows(chart));
    }
    let has_runs = table.value("runs").is_some();
    let runs = table.text(if has_runs { "runs" } else { "name" })?;
    let next = names.phases.len();
    Ok(Task::Runs {
        in_cell: cell.phase_numbers.get(runs).copied(),
        in_recipe: *names.phases.entry(runs).or_insert(next),
    })
}

/// The rest of a chart's text, and the meanings of its names.
struct ChartText<'a, 'n> {
    rest: &'a str,
    labels: &'n HashMap<&'a str, usize>,
    values: &'n HashSet<&'a str>,
}

fn read_chart<'a>(
    text: &'a str,
    labels: &HashMap<&'a str, usize>,
    values: &HashSet<&'a str>,
) -> Result<Chart, String> {
    let mut left = ChartText {
        rest: text,
        labels,
        values,
    };
    let chart = left
        .chart()
        .ok_or_else(|| format!("no chart from here on: {:.40}", left.rest))?;
    if left.rest.trim_start().is_empty() {
        Ok(chart)
    } else {
        Err("a chart goes on".to_string())
    }
}

impl<'a> ChartText<'a, '_> {
    fn chart(&mut self) -> Option<Chart> {
        Some(match self.word()? {
            "skip" => Chart::Skip,
            "seq" => Chart::Seq(self.charts()?),
            "par" => Chart::Par(self.charts()?),
            "sel" => Chart::Sel(self.choices()?),
            "loop" => {
                self.token('(')?;
                self.word()?
                    .parse::<u32>()
                    .ok()
                    .filter(|turns| (1..=1000).contains(turns))?;
                self.token(',')?;
                self.condition()?;
                self.token(',')?;
                let body = self.chart()?;
                self.token(')')?;
                Chart::Loop(Box::new(body))
            }
            label => Chart::Label(*self.labels.get(label)?),
        })
    }

    fn charts(&mut self) -> Option<Vec<Chart>> {
        self.token('(')?;
        let mut charts = vec![self.chart()?];
        while self.token(',').is_some() {
            charts.push(self.chart()?);
        }
        self.token(')')?;
        Some(charts)
    }

    fn choices(&mut self) -> Option<Vec<Chart>> {
        self.token('(')?;
        let mut charts = Vec::new();
        loop {
            let is_last = self.rest.trim_start().starts_with("else");
            if is_last {
                self.word()?;
            } else {
                self.condition()?;
            }
            self.token(':')?;
            charts.push(self.chart()?);
            if is_last {
                self.token(')')?;
                return Some(charts);
            }
            self.token(',')?;
        }
    }

    /// A name, a comparison, and a name or a number.
    fn condition(&mut self) -> Option<()> {
        let name = self.word()?;
        let rest = self.rest.trim_start();
        self.rest = ["<=", "/=", ">=", "<", "=", ">"]
            .iter()
            .find_map(|sign| rest.strip_prefix(sign))?;
        let term = self.word()?;
        let is_term = term.parse::<u64>().is_ok() || self.values.contains(term);
        (self.values.contains(name) && is_term).then_some(())
    }

    fn token(&mut self, token: char) -> Option<()> {
        self.rest = self.rest.trim_start().strip_prefix(token)?;
        Some(())
    }

    /// A name, a word of charts, or a number.
    fn word(&mut self) -> Option<&'a str> {
        let rest = self.rest.trim_start();
        let is_outside = |byte: u8| !(byte.is_ascii_alphanumeric() || byte == b'_' || byte == b'-');
        let end = rest.bytes().position(is_outside).unwrap_or(rest.len());
        self.rest = &rest[end..];
        (end > 0).then(|| &rest[..end])
    }
}
