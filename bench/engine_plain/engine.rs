//! The machine: batches, the lines of resources, and the moves in their order.
//!
//! One move is made at a time: that of the least batch number that has one; within a batch the first kind of state, release, begin
//! or end, ask, grant; within a kind the least place. (`send` comes before these kinds, and never of the events of the bench.)

use crate::forms::{Forms, Kind, Need, Recipe};
use crate::lines::Event;
use std::collections::{BTreeSet, VecDeque};

const MAX_BATCHES: usize = 4096;
const MAX_SIZE: u64 = 1_000_000_000;

#[derive(Clone, Copy, PartialEq)]
pub enum State {
    Idle,
    Running,
    Complete,
}

pub enum Refusal {
    UnknownRecipe,
    UnknownBatch,
    NotAccepted(State),
    NoLivePhase,
    SizeOutOfRange,
    Full,
}

pub enum Reply {
    Created {
        batch: u64,
        recipe: usize,
        size: u64,
    },
    Ordered {
        command: &'static str,
        batch: u64,
        state: State,
    },
    Reported {
        phase: usize,
        act: BatchAct,
        state: State,
    },
    Refused(Refusal),
}

/// The deed of a move.
#[derive(Clone, Copy)]
pub enum Deed {
    State(State),
    Release(Need),
    Begin,
    Start(usize),
    End,
    Ask(Need),
    Grant(Need),
}

/// An act: the number of its batch, and its node of the batch's recipe.
#[derive(Clone, Copy)]
pub struct BatchAct {
    pub batch: u64,
    pub recipe: usize,
    pub node: usize,
}

/// A deed at an act; where the batch changes its state, at the root.
#[derive(Clone, Copy)]
pub struct Move {
    pub act: BatchAct,
    pub deed: Deed,
}

/// Some nodes of a batch, in order. There are few at a time.
#[derive(Default)]
struct Nodes(Vec<u16>);

impl Nodes {
    fn insert(&mut self, node: usize) {
        if let Err(at) = self.0.binary_search(&(node as u16)) {
            self.0.insert(at, node as u16);
        }
    }

    fn remove(&mut self, node: usize) {
        if let Ok(at) = self.0.binary_search(&(node as u16)) {
            self.0.remove(at);
        }
    }

    fn first(&self) -> Option<usize> {
        self.0.first().map(|node| usize::from(*node))
    }
}

/// A batch, with its acts by the steps that they can take next.
struct Batch {
    recipe: usize,
    state: State,
    is_done: bool,
    /// Of an act how many of its needs it holds, of a `par` how many of its branches aren't finished.
    counts: Vec<u16>,
    /// Ready, and each need is held.
    entering: Nodes,
    /// Ready, and a need is lacking.
    lacking: Nodes,
    /// In the line of a resource.
    asking: Nodes,
    /// Begun, and its chart is finished.
    ending: Nodes,
    /// Ended, and needs are still held.
    freeing: Nodes,
}

impl Batch {
    fn new(number: usize, recipe: &Recipe) -> Batch {
        let mut batch = Batch {
            recipe: number,
            state: State::Idle,
            is_done: false,
            counts: vec![0; recipe.nodes.len()],
            entering: Nodes::default(),
            lacking: Nodes::default(),
            asking: Nodes::default(),
            ending: Nodes::default(),
            freeing: Nodes::default(),
        };
        batch.reach(recipe, 0);
        batch
    }

    /// The chart has come to this node.
    fn reach(&mut self, recipe: &Recipe, number: usize) {
        let node = &recipe.nodes[number];
        match node.kind {
            Kind::Act { .. } | Kind::Phase { .. } => {
                self.counts[number] = 0;
                self.ready(recipe, number);
            }
            Kind::Seq => self.reach(recipe, number + 1),
            Kind::Par => {
                self.counts[number] = node.children as u16;
                let mut child = Some(number + 1);
                while let Some(branch) = child {
                    self.reach(recipe, branch);
                    child = recipe.nodes[branch].next;
                }
            }
        }
    }

    fn ready(&mut self, recipe: &Recipe, node: usize) {
        if usize::from(self.counts[node]) == recipe.nodes[node].needs.len() {
            self.entering.insert(node);
        } else {
            self.lacking.insert(node);
        }
    }

    /// The act has ended, and gives back the needs that it holds.
    fn end(&mut self, recipe: &Recipe, node: usize) {
        let held = recipe.nodes[node].needs.len();
        self.counts[node] = held as u16;
        if held == 0 {
            self.finish(recipe, node);
        } else {
            self.freeing.insert(node);
        }
    }

    /// Nothing remains of this node, nor of those above it that it was the last of.
    fn finish(&mut self, recipe: &Recipe, mut number: usize) {
        while let Some(parent) = recipe.nodes[number].parent {
            match recipe.nodes[parent].kind {
                Kind::Seq => {
                    if let Some(next) = recipe.nodes[number].next {
                        return self.reach(recipe, next);
                    }
                }
                Kind::Par => {
                    self.counts[parent] -= 1;
                    if self.counts[parent] > 0 {
                        return;
                    }
                }
                Kind::Act { .. } | Kind::Phase { .. } => return self.ending.insert(parent),
            }
            number = parent;
        }
        self.is_done = true;
    }

    /// The first move of the batch but for grants.
    fn own_move(&self, recipe: &Recipe) -> Option<(usize, Deed)> {
        if self.state != State::Running {
            return None;
        }
        if self.is_done {
            return Some((0, Deed::State(State::Complete)));
        }
        if let Some(node) = self.freeing.first() {
            let last = usize::from(self.counts[node]) - 1;
            return Some((node, Deed::Release(recipe.nodes[node].needs[last])));
        }
        match (self.entering.first(), self.ending.first()) {
            (Some(entering), ending) if ending.is_none_or(|ending| entering < ending) => {
                return Some((entering, entered(recipe, entering)));
            }
            (_, Some(ending)) => return Some((ending, Deed::End)),
            _ => {}
        }
        let node = self.lacking.first()?;
        Some((node, Deed::Ask(self.next_need(recipe, node))))
    }

    fn next_need(&self, recipe: &Recipe, node: usize) -> Need {
        recipe.nodes[node].needs[usize::from(self.counts[node])]
    }
}

fn entered(recipe: &Recipe, node: usize) -> Deed {
    match recipe.nodes[node].kind {
        Kind::Phase { number } => Deed::Start(number),
        _ => Deed::Begin,
    }
}

impl Recipe {
    pub fn name_at(&self, node: usize) -> &str {
        match &self.nodes[node].kind {
            Kind::Act { name } => name,
            _ => "",
        }
    }
}

/// A resource as it is used.
#[derive(Default)]
struct Line {
    units_held: u32,
    /// Who asked for it, batch and node, the oldest first.
    askers: VecDeque<(usize, usize)>,
}

pub struct Engine<'a> {
    pub forms: &'a Forms,
    /// The batch of number n is the one at n - 1.
    batches: Vec<Batch>,
    lines: Vec<Line>,
    /// Of each phase that a unit offers, the batch and the node that run it.
    live: Vec<Option<(usize, usize)>>,
    /// The worklist: a batch that isn't in it has no move.
    marked: BTreeSet<usize>,
}

impl<'a> Engine<'a> {
    pub fn new(forms: &'a Forms) -> Engine<'a> {
        Engine {
            forms,
            batches: Vec::new(),
            lines: forms.resources.iter().map(|_| Line::default()).collect(),
            live: vec![None; forms.phases.len()],
            marked: BTreeSet::new(),
        }
    }

    pub fn accept(&mut self, event: &Event) -> Reply {
        let answer = match *event {
            Event::Create { recipe, size } => self.create(recipe, size),
            Event::Start { batch } => self.order("start", batch),
            Event::Reset { batch } => self.order("reset", batch),
            Event::Done { unit, phase } => self.report(unit, phase),
        };
        answer.unwrap_or_else(Reply::Refused)
    }

    fn create(&mut self, name: &str, size: u64) -> Result<Reply, Refusal> {
        let forms = self.forms;
        let recipe = *forms
            .recipe_numbers
            .get(name)
            .ok_or(Refusal::UnknownRecipe)?;
        if self.batches.len() == MAX_BATCHES {
            return Err(Refusal::Full);
        }
        if size == 0 || size > MAX_SIZE {
            return Err(Refusal::SizeOutOfRange);
        }
        self.batches
            .push(Batch::new(recipe, &forms.recipes[recipe]));
        Ok(Reply::Created {
            batch: self.batches.len() as u64,
            recipe,
            size,
        })
    }

    fn order(&mut self, command: &'static str, number: u64) -> Result<Reply, Refusal> {
        let index = (number as usize).wrapping_sub(1);
        let batch = self.batches.get_mut(index).ok_or(Refusal::UnknownBatch)?;
        match (command, batch.state) {
            ("start", State::Idle) => batch.state = State::Running,
            ("reset", State::Complete) => {
                batch.state = State::Idle;
                batch.is_done = false;
                batch.reach(&self.forms.recipes[batch.recipe], 0);
            }
            (_, state) => return Err(Refusal::NotAccepted(state)),
        }
        self.marked.insert(index);
        Ok(Reply::Ordered {
            command,
            batch: number,
            state: batch.state,
        })
    }

    fn report(&mut self, unit: &str, name: &str) -> Result<Reply, Refusal> {
        let of_unit = self
            .forms
            .phase_numbers
            .get(unit)
            .ok_or(Refusal::NoLivePhase)?;
        let phase = *of_unit.get(name).ok_or(Refusal::NoLivePhase)?;
        let (index, node) = self.live[phase].take().ok_or(Refusal::NoLivePhase)?;
        let batch = &mut self.batches[index];
        batch.end(&self.forms.recipes[batch.recipe], node);
        self.marked.insert(index);
        let act = BatchAct {
            batch: index as u64 + 1,
            recipe: batch.recipe,
            node,
        };
        Ok(Reply::Reported {
            phase,
            act,
            state: batch.state,
        })
    }

    /// Makes the next move, if one is possible.
    pub fn next_move(&mut self) -> Option<Move> {
        while let Some(index) = self.marked.first().copied() {
            let batch = &self.batches[index];
            let recipe = &self.forms.recipes[batch.recipe];
            if let Some((node, deed)) = batch.own_move(recipe).or_else(|| self.grant_of(index)) {
                let act = BatchAct {
                    batch: index as u64 + 1,
                    recipe: batch.recipe,
                    node,
                };
                self.make(index, recipe, node, deed);
                return Some(Move { act, deed });
            }
            self.marked.remove(&index);
        }
        None
    }

    /// The first act of the batch that is served.
    fn grant_of(&self, index: usize) -> Option<(usize, Deed)> {
        let batch = &self.batches[index];
        let recipe = &self.forms.recipes[batch.recipe];
        for node in batch.asking.0.iter().map(|node| usize::from(*node)) {
            let need = batch.next_need(recipe, node);
            let line = &self.lines[need.resource];
            let is_free =
                line.units_held + need.units <= self.forms.resources[need.resource].capacity;
            if is_free && line.askers.front() == Some(&(index, node)) {
                return Some((node, Deed::Grant(need)));
            }
        }
        None
    }

    fn make(&mut self, index: usize, recipe: &Recipe, node: usize, deed: Deed) {
        let batch = &mut self.batches[index];
        match deed {
            Deed::State(state) => batch.state = state,
            Deed::Begin => {
                batch.entering.remove(node);
                batch.reach(recipe, node + 1);
            }
            Deed::Start(phase) => {
                batch.entering.remove(node);
                self.live[phase] = Some((index, node));
            }
            Deed::End => {
                batch.ending.remove(node);
                batch.end(recipe, node);
            }
            Deed::Release(need) => self.release(index, recipe, node, need),
            Deed::Ask(need) => {
                batch.lacking.remove(node);
                batch.asking.insert(node);
                self.lines[need.resource].askers.push_back((index, node));
            }
            Deed::Grant(need) => self.grant(index, recipe, node, need),
        }
    }

    fn release(&mut self, index: usize, recipe: &Recipe, node: usize, need: Need) {
        let batch = &mut self.batches[index];
        batch.counts[node] -= 1;
        if batch.counts[node] == 0 {
            batch.freeing.remove(node);
            batch.finish(recipe, node);
        }
        self.lines[need.resource].units_held -= need.units;
        self.mark_first(need.resource);
    }

    fn grant(&mut self, index: usize, recipe: &Recipe, node: usize, need: Need) {
        let batch = &mut self.batches[index];
        batch.asking.remove(node);
        batch.counts[node] += 1;
        batch.ready(recipe, node);
        let line = &mut self.lines[need.resource];
        line.askers.pop_front();
        line.units_held += need.units;
        self.mark_first(need.resource);
    }

    /// Whoever is first in the line may be served now.
    fn mark_first(&mut self, resource: usize) {
        if let Some((index, _)) = self.lines[resource].askers.front() {
            self.marked.insert(*index);
        }
    }
}
