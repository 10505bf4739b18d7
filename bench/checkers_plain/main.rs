//! The plain checker beside which `bench/checkers` times batchd: it decides the same question, and nothing is proved of it.
//!
//! It reads cells and recipes with the keys that the bench writes, and no roles. It tests the rules that don't speak of ranks, collects
//! the edges between needs along each path, and finds the least ranks, or a shortest circle; or it verifies a certificate. It expects
//! documents that are well formed otherwise, and ends with a message at one that isn't. Verdicts are batchd's texts, but of several
//! circles of one length it may name another.
//!
//! ```text
//! checkers_plain check CELL RECIPE..
//! checkers_plain verify CELL CERTIFICATE RECIPE..
//! ```

mod reading;
mod walking;

use reading::{read_cell, read_recipe, Cell, Recipe};
use std::collections::{HashMap, HashSet, VecDeque};
use std::fmt::Write;
use std::process::ExitCode;
use walking::{walk, Broken, Found, Rule};

const MAX_RECIPES: usize = 256;

fn read(path: &str) -> Result<String, String> {
    std::fs::read_to_string(path).map_err(|error| format!("{path}: {error}"))
}

/// The verdict on the documents: a text, and whether they are accepted.
type Verdict = (String, bool);

/// Walks along the recipes one by one; gives the refusal of the first that breaks a rule.
fn walk_all(
    cell: &Cell,
    paths: &[String],
    ranks: Option<&[u32]>,
    found: &mut Found,
) -> Result<Option<String>, String> {
    let mut names = HashSet::new();
    let mut refusal = None;
    for path in paths {
        let recipe: Recipe =
            read_recipe(cell, &read(path)?).map_err(|fault| format!("{path}: {fault}"))?;
        let broken =
            walk(cell, &recipe, ranks, found).map_err(|fault| format!("{path}: {fault}"))?;
        if let (None, Some(Broken { rule, place, .. })) = (&refusal, broken) {
            refusal = Some(format!("refused {} {} {place}\n", code(rule), recipe.name));
        }
        names.insert(recipe.name);
    }
    let is_set = names.len() == paths.len() && paths.len() <= MAX_RECIPES;
    Ok(if is_set {
        refusal
    } else {
        Some("refused V10\n".to_string())
    })
}

fn code(rule: Rule) -> &'static str {
    match rule {
        Rule::UnknownResource => "V3",
        Rule::TooManyUnits => "V9",
        Rule::NotOffered => "V5",
        Rule::SamePhaseInParallel => "V6",
        Rule::LoopWithoutPhase => "V7",
        Rule::RankNotRising => "V4",
    }
}

fn nothing_found(cell: &Cell) -> Found {
    let count = cell.resources.len();
    Found {
        onward: vec![vec![0; count.div_ceil(64)]; count],
        pairs: None,
    }
}

fn check(cell: &Cell, paths: &[String]) -> Result<Verdict, String> {
    let mut found = nothing_found(cell);
    if let Some(refusal) = walk_all(cell, paths, None, &mut found)? {
        return Ok((refusal, false));
    }
    if let Some(ranks) = least_ranks(&found.onward) {
        return Ok((rank_lines(cell, &ranks), true));
    }
    found.pairs = Some(HashMap::new());
    walk_all(cell, paths, None, &mut found)?;
    Ok((circle_lines(cell, &found.pairs.unwrap_or_default()), false))
}

/// Of each resource one more than the greatest rank before it, and 1 where there is none before it; None where there is a circle.
fn least_ranks(onward: &[Vec<u64>]) -> Option<Vec<u32>> {
    let count = onward.len();
    let later = |earlier: usize| {
        (0..count).filter(move |later| onward[earlier][later / 64] >> (later % 64) & 1 == 1)
    };
    let mut before = vec![0; count];
    for earlier in 0..count {
        later(earlier).for_each(|later| before[later] += 1);
    }
    let mut ranks = vec![1; count];
    let mut free: Vec<usize> = (0..count)
        .filter(|resource| before[*resource] == 0)
        .collect();
    let mut ranked = 0;
    while let Some(earlier) = free.pop() {
        ranked += 1;
        for later in later(earlier) {
            ranks[later] = ranks[later].max(ranks[earlier] + 1);
            before[later] -= 1;
            if before[later] == 0 {
                free.push(later);
            }
        }
    }
    (ranked == count).then_some(ranks)
}

fn rank_lines(cell: &Cell, ranks: &[u32]) -> String {
    let mut named: Vec<_> = cell.resources.iter().zip(ranks).collect();
    named.sort();
    named
        .iter()
        .map(|(name, rank)| format!("rank {name} {rank}\n"))
        .collect()
}

/// A shortest circle, edge by edge, from the edge whose first name is the least.
fn circle_lines(cell: &Cell, pairs: &HashMap<(usize, usize), (String, String)>) -> String {
    let mut circle = (0..cell.resources.len())
        .filter_map(|start| way_back(cell.resources.len(), pairs, start))
        .min_by_key(Vec::len)
        .unwrap_or_default();
    let least = (0..circle.len())
        .min_by_key(|at| &cell.resources[circle[*at]])
        .unwrap_or(0);
    circle.rotate_left(least);
    let mut lines = "refused C1\n".to_string();
    for (at, earlier) in circle.iter().enumerate() {
        let later = circle[(at + 1) % circle.len()];
        let (recipe, place) = &pairs[&(*earlier, later)];
        let (earlier, later) = (&cell.resources[*earlier], &cell.resources[later]);
        writeln!(lines, "edge {recipe} {place} {earlier} {later}")
            .expect("a string takes any text");
    }
    lines
}

/// The resources of a shortest circle that goes through this one.
fn way_back(
    count: usize,
    pairs: &HashMap<(usize, usize), (String, String)>,
    start: usize,
) -> Option<Vec<usize>> {
    let mut came_from = vec![None; count];
    let mut queue = VecDeque::from([start]);
    while let Some(at) = queue.pop_front() {
        if pairs.contains_key(&(at, start)) {
            let mut way = vec![at];
            while way[way.len() - 1] != start {
                way.extend(came_from[way[way.len() - 1]]);
            }
            way.reverse();
            return Some(way);
        }
        for onward in (0..count).filter(|onward| pairs.contains_key(&(at, *onward))) {
            if came_from[onward].is_none() {
                came_from[onward] = Some(at);
                queue.push_back(onward);
            }
        }
    }
    None
}

fn verify(cell: &Cell, certificate: &str, paths: &[String]) -> Result<Verdict, String> {
    let mut ranks = vec![0; cell.resources.len()];
    for line in certificate.lines() {
        let words: Vec<_> = line.split(' ').collect();
        let ["rank", name, rank] = words[..] else {
            return Err(format!("no rank line: {line}"));
        };
        let number = *cell
            .numbers
            .get(name)
            .ok_or_else(|| format!("no resource: {name}"))?;
        ranks[number] = rank.parse().map_err(|_| format!("no rank: {rank}"))?;
    }
    if let Some(number) = ranks.iter().position(|rank| *rank == 0) {
        return Ok((format!("refused V1 {}\n", cell.resources[number]), false));
    }
    let refusal = walk_all(cell, paths, Some(&ranks), &mut nothing_found(cell))?;
    Ok(refusal.map_or_else(
        || ("accepted\n".to_string(), true),
        |refusal| (refusal, false),
    ))
}

fn run(words: &[String]) -> Result<Verdict, String> {
    match words {
        [command, cell, recipes @ ..] if command == "check" => check(&read_cell(&read(cell)?)?, recipes),
        [command, cell, certificate, recipes @ ..] if command == "verify" => {
            verify(&read_cell(&read(cell)?)?, &read(certificate)?, recipes)
        }
        _ => Err("checkers_plain check CELL RECIPE.., or checkers_plain verify CELL CERTIFICATE RECIPE..".to_string()),
    }
}

fn main() -> ExitCode {
    let words: Vec<String> = std::env::args().skip(1).collect();
    match run(&words) {
        Ok((text, is_accepted)) => {
            print!("{text}");
            if is_accepted {
                ExitCode::SUCCESS
            } else {
                ExitCode::FAILURE
            }
        }
        Err(fault) => {
            eprintln!("checkers_plain: {fault}");
            ExitCode::from(2)
        }
    }
}
