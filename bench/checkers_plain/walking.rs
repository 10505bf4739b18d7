//! Walks all paths of a recipe, from the procedure to each phase step, and expands the labels on the way.

use crate::reading::{Act, Cell, Chart, Need, Recipe, Task};
use std::collections::HashMap;

/// A recipe expands to at most this many nodes.
const MAX_NODES: usize = 4096;

/// The level of operations: the procedure's is 0.
const OPERATION: usize = 2;

/// The rules that a node can break, in the order in which they are looked at.
#[derive(Clone, Copy, PartialEq, Eq, PartialOrd, Ord)]
pub enum Rule {
    UnknownResource,
    TooManyUnits,
    NotOffered,
    SamePhaseInParallel,
    LoopWithoutPhase,
    RankNotRising,
}

/// A rule that a node breaks, by the node's number and place.
pub struct Broken {
    pub node: usize,
    pub rule: Rule,
    pub place: String,
}

/// The orders of asking that were met on the paths of all recipes.
pub struct Found {
    /// Of each resource, which ones are asked for right after it, as bits.
    pub onward: Vec<Vec<u64>>,
    /// For each pair of resources that some path asks for in this order, the recipe and the place of the first step; where it is wanted.
    pub pairs: Option<HashMap<(usize, usize), (String, String)>>,
}

/// The phases that a part of a chart runs.
#[derive(Clone, Copy, Default)]
struct Runs {
    phases: [u64; 4],
    /// There is a way through it that runs nothing.
    may_be_none: bool,
}

impl Runs {
    fn overlaps(&self, other: &Runs) -> bool {
        self.phases
            .iter()
            .zip(&other.phases)
            .any(|(one, other)| one & other != 0)
    }

    fn add(&mut self, other: &Runs) {
        for (one, other) in self.phases.iter_mut().zip(&other.phases) {
            *one |= other;
        }
    }
}

struct Walk<'a> {
    cell: &'a Cell,
    recipe: &'a Recipe,
    ranks: Option<&'a [u32]>,
    found: &'a mut Found,
    /// The resources that are asked for on the way to here, and the unit on which phases run.
    asked: Vec<usize>,
    unit: Option<usize>,
    place: Vec<usize>,
    nodes: usize,
    broken: Option<Broken>,
}

/// Walks along a recipe; gives the first rule that is broken. Ranks are looked at where there are some.
pub fn walk(
    cell: &Cell,
    recipe: &Recipe,
    ranks: Option<&[u32]>,
    found: &mut Found,
) -> Result<Option<Broken>, String> {
    let mut walk = Walk {
        cell,
        recipe,
        ranks,
        found,
        asked: Vec::new(),
        unit: None,
        place: vec![0],
        nodes: 0,
        broken: None,
    };
    walk.act(&recipe.procedure, 0)?;
    Ok(walk.broken)
}

impl Walk<'_> {
    fn act(&mut self, act: &Act, level: usize) -> Result<Runs, String> {
        let node = self.enter()?;
        let before = self.asked.len();
        self.ask(act, node);
        if level == 1 {
            self.unit = act.needs.first().and_then(|need| need.resource);
        }
        let runs = match &act.task {
            Task::Follows(chart) => self.below(0, chart, level)?,
            Task::Runs { in_cell, in_recipe } => {
                let is_offered = self
                    .unit
                    .zip(*in_cell)
                    .is_some_and(|(unit, phase)| self.cell.does_offer(unit, phase));
                self.require(is_offered, node, Rule::NotOffered);
                let mut runs = Runs::default();
                runs.phases[in_recipe / 64] |= 1 << (in_recipe % 64);
                runs
            }
        };
        self.asked.truncate(before);
        Ok(runs)
    }

    /// Counts a node, and gives its number.
    fn enter(&mut self) -> Result<usize, String> {
        self.nodes += 1;
        if self.nodes > MAX_NODES {
            Err("too many nodes".to_string())
        } else {
            Ok(self.nodes - 1)
        }
    }

    /// The act asks for its needs, one after the other.
    fn ask(&mut self, act: &Act, node: usize) {
        let are_known = act.has_unit && act.needs.iter().all(|need| need.resource.is_some());
        self.require(are_known, node, Rule::UnknownResource);
        for Need { resource, units } in &act.needs {
            let Some(later) = *resource else {
                continue;
            };
            self.require(
                *units <= self.cell.capacities[later],
                node,
                Rule::TooManyUnits,
            );
            if let Some(earlier) = self.asked.last().copied() {
                self.found.onward[earlier][later / 64] |= 1 << (later % 64);
                let rises = self.ranks.is_none_or(|ranks| ranks[earlier] < ranks[later]);
                self.require(rises, node, Rule::RankNotRising);
            }
            self.note_pairs(later);
            self.asked.push(later);
        }
    }

    /// Notes which resources are asked for before this one.
    fn note_pairs(&mut self, later: usize) {
        if let Some(pairs) = &mut self.found.pairs {
            for earlier in &self.asked {
                pairs
                    .entry((*earlier, later))
                    .or_insert_with(|| (self.recipe.name.clone(), place_text(&self.place)));
            }
        }
    }

    /// The chart below the node, as its child with this number.
    fn below(&mut self, child: usize, chart: &Chart, level: usize) -> Result<Runs, String> {
        self.place.push(child);
        let runs = self.chart(chart, level);
        self.place.pop();
        runs
    }

    fn chart(&mut self, chart: &Chart, level: usize) -> Result<Runs, String> {
        let recipe = self.recipe;
        if let Chart::Label(number) = chart {
            return self.act(&recipe.tables[level][*number], level + 1);
        }
        let node = self.enter()?;
        match chart {
            Chart::Label(_) | Chart::Skip => Ok(Runs {
                may_be_none: true,
                ..Runs::default()
            }),
            Chart::Seq(charts) => self.all(charts, level, None),
            Chart::Par(charts) => {
                self.all(charts, level, Some(node).filter(|_| level == OPERATION))
            }
            Chart::Sel(charts) => {
                let mut runs = Runs::default();
                for (child, chart) in charts.iter().enumerate() {
                    let branch = self.below(child, chart, level)?;
                    runs.add(&branch);
                    runs.may_be_none |= branch.may_be_none;
                }
                Ok(runs)
            }
            Chart::Loop(body) => {
                let runs = self.below(0, body, level)?;
                self.require(!runs.may_be_none, node, Rule::LoopWithoutPhase);
                Ok(runs)
            }
        }
    }

    /// Charts that all run. Where they are branches of the `par` at a node, no two may run the same phase.
    fn all(
        &mut self,
        charts: &[Chart],
        level: usize,
        apart_at: Option<usize>,
    ) -> Result<Runs, String> {
        let mut runs = Runs {
            may_be_none: true,
            ..Runs::default()
        };
        for (child, chart) in charts.iter().enumerate() {
            let branch = self.below(child, chart, level)?;
            if let Some(node) = apart_at {
                self.require(!branch.overlaps(&runs), node, Rule::SamePhaseInParallel);
            }
            runs.add(&branch);
            runs.may_be_none &= branch.may_be_none;
        }
        Ok(runs)
    }

    /// Notes the rule as broken at the node where this doesn't hold; the first broken rule is kept.
    fn require(&mut self, holds: bool, node: usize, rule: Rule) {
        let is_first = || {
            self.broken
                .as_ref()
                .is_none_or(|broken| (node, rule) < (broken.node, broken.rule))
        };
        if !holds && is_first() {
            self.broken = Some(Broken {
                node,
                rule,
                place: place_text(&self.place),
            });
        }
    }
}

/// A place as the numbers of children with dots between, but for the root's own.
fn place_text(place: &[usize]) -> String {
    place
        .iter()
        .map(usize::to_string)
        .collect::<Vec<_>>()
        .join(".")
}
