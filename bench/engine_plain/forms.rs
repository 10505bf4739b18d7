//! The cell and the recipes of the bench, in a form of lines that the script writes beside their documents.
//!
//! A line is one of
//!
//! ```text
//! resource NAME CAPACITY
//! phase UNIT NAME              a phase that a unit offers
//! recipe NAME                  its nodes follow, in order of place
//! DEPTH act NAME NEED..
//! DEPTH phase UNIT NAME NEED..
//! DEPTH seq
//! DEPTH par
//! ```
//!
//! where a NEED is `RESOURCE` or `RESOURCE*K`, and the first need of a unit procedure is its unit. The root's DEPTH is 0.

use std::collections::HashMap;
use std::fmt::Write;

/// How many units of a resource's capacity.
#[derive(Clone, Copy)]
pub struct Need {
    pub resource: usize,
    pub units: u32,
}

pub enum Kind {
    Act { name: String },
    Phase { number: usize },
    Seq,
    Par,
}

pub struct Node {
    pub kind: Kind,
    pub needs: Vec<Need>,
    pub parent: Option<usize>,
    /// The next node below the same parent.
    pub next: Option<usize>,
    /// How many nodes stand right below; the first is the node that follows this one.
    pub children: u32,
    pub place: String,
}

pub struct Recipe {
    pub name: String,
    pub nodes: Vec<Node>,
}

pub struct Resource {
    pub name: String,
    pub capacity: u32,
}

/// A phase that a unit offers.
pub struct Phase {
    pub unit: String,
    pub name: String,
}

#[derive(Default)]
pub struct Forms {
    pub resources: Vec<Resource>,
    pub phases: Vec<Phase>,
    pub recipes: Vec<Recipe>,
    pub recipe_numbers: HashMap<String, usize>,
    /// The phases of each unit, by their names.
    pub phase_numbers: HashMap<String, HashMap<String, usize>>,
    resource_numbers: HashMap<String, usize>,
}

impl Forms {
    /// The forms of the text, or the first line that says nothing.
    pub fn read(text: &str) -> Result<Forms, String> {
        let mut forms = Forms::default();
        // the nodes on the way from the root to the last one that was read
        let mut way = Vec::new();
        for line in text.lines() {
            forms.take(line, &mut way).ok_or_else(|| line.to_string())?;
        }
        Ok(forms)
    }

    fn take(&mut self, line: &str, way: &mut Vec<usize>) -> Option<()> {
        let mut words = line.split(' ');
        match words.next()? {
            "resource" => {
                let name = words.next()?.to_string();
                let capacity = words.next()?.parse().ok()?;
                self.resource_numbers
                    .insert(name.clone(), self.resources.len());
                self.resources.push(Resource { name, capacity });
            }
            "phase" => {
                let (unit, name) = (words.next()?.to_string(), words.next()?.to_string());
                let of_unit = self.phase_numbers.entry(unit.clone()).or_default();
                of_unit.insert(name.clone(), self.phases.len());
                self.phases.push(Phase { unit, name });
            }
            "recipe" => {
                let name = words.next()?.to_string();
                self.recipe_numbers.insert(name.clone(), self.recipes.len());
                self.recipes.push(Recipe {
                    name,
                    nodes: Vec::new(),
                });
                way.clear();
            }
            depth => self.take_node(depth.parse().ok()?, words, way)?,
        }
        Some(())
    }

    fn take_node<'a>(
        &mut self,
        depth: usize,
        mut words: impl Iterator<Item = &'a str>,
        way: &mut Vec<usize>,
    ) -> Option<()> {
        let kind = self.kind(&mut words)?;
        let needs = words.map(|word| self.need(word)).collect::<Option<_>>()?;
        let nodes = &mut self.recipes.last_mut()?.nodes;
        // the last node at this depth is the neighbour before this one, where it has the same parent
        let before = way.get(depth).copied();
        way.truncate(depth);
        let parent = way.last().copied();
        let place = place_below(nodes, parent);
        let number = nodes.len();
        if let Some(parent) = parent {
            nodes[parent].children += 1;
        }
        if let Some(before) = before {
            nodes[before].next = Some(number);
        }
        nodes.push(Node {
            kind,
            needs,
            parent,
            next: None,
            children: 0,
            place,
        });
        way.push(number);
        Some(())
    }

    fn kind<'a>(&self, words: &mut impl Iterator<Item = &'a str>) -> Option<Kind> {
        Some(match words.next()? {
            "act" => Kind::Act {
                name: words.next()?.to_string(),
            },
            "phase" => Kind::Phase {
                number: *self.phase_numbers.get(words.next()?)?.get(words.next()?)?,
            },
            "seq" => Kind::Seq,
            "par" => Kind::Par,
            _ => return None,
        })
    }

    fn need(&self, word: &str) -> Option<Need> {
        let (name, units) = word.split_once('*').unwrap_or((word, "1"));
        Some(Need {
            resource: *self.resource_numbers.get(name)?,
            units: units.parse().ok()?,
        })
    }
}

/// The place of the next node below this parent.
fn place_below(nodes: &[Node], parent: Option<usize>) -> String {
    let Some(parent) = parent.map(|parent| &nodes[parent]) else {
        return "0".to_string();
    };
    let mut place = parent.place.clone();
    write!(place, ".{}", parent.children).expect("a string takes any text");
    place
}
