//! The plain engine beside which `bench/engine` times batchd: a worklist of batches that may have a move, and nothing proved.
//!
//! It is limited to the parts that the bench has: recipes of `seq`, `par`, acts, phases and needs, without values, roles, `sel` or `loop`;
//! the events `create`, `start`, `reset` and `report .. done`. On these it writes the record that batchd writes, byte for byte.
//!
//! ```text
//! engine_plain serve FORMS < events > record
//! engine_plain follow FORMS COUNT < events > more events
//! ```
//!
//! `follow` takes the events and writes COUNT events that can come after them: reports of the phases that run, the one that started first
//! before the others, and reset and start of each batch that is complete.

mod engine;
mod forms;
mod lines;

use engine::{Deed, Engine, Move, State};
use forms::{Forms, Phase};
use lines::{read_event, Record};
use std::collections::VecDeque;
use std::error::Error;
use std::io::{self, BufRead, BufReader, BufWriter, Write};

/// How many bytes are read and written at once.
const PIECE: usize = 65_536;

/// Answers the line, and tells of each move.
fn answer(
    engine: &mut Engine,
    line: &str,
    record: &mut Record,
    mut tell: impl FnMut(&Move),
) -> Result<(), Box<dyn Error>> {
    let event = read_event(line).ok_or_else(|| format!("the bench has no such event: {line}"))?;
    let reply = engine.accept(&event);
    record.reply(engine.forms, &reply);
    while let Some(made) = engine.next_move() {
        record.made(engine.forms, &made);
        tell(&made);
    }
    Ok(())
}

fn serve(forms: &Forms) -> Result<(), Box<dyn Error>> {
    let mut engine = Engine::new(forms);
    let mut input = BufReader::with_capacity(PIECE, io::stdin().lock());
    let mut out = io::stdout().lock();
    let mut record = Record::default();
    let mut line = String::new();
    while input.read_line(&mut line)? > 0 {
        answer(&mut engine, &line, &mut record, |_| {})?;
        line.clear();
        // the written text is handed on before the input is asked for more
        if record.text.len() >= PIECE || input.buffer().is_empty() {
            out.write_all(&record.text)?;
            record.text.clear();
        }
    }
    Ok(out.flush()?)
}

/// The events that come of this move.
fn follow_up(forms: &Forms, made: &Move) -> Vec<String> {
    match made.deed {
        Deed::Start(phase) => {
            let Phase { unit, name } = &forms.phases[phase];
            vec![format!("report {unit} {name} done")]
        }
        Deed::State(State::Complete) => vec![
            format!("reset {}", made.act.batch),
            format!("start {}", made.act.batch),
        ],
        _ => Vec::new(),
    }
}

fn follow(forms: &Forms, count: usize) -> Result<(), Box<dyn Error>> {
    let mut engine = Engine::new(forms);
    let mut record = Record::default();
    let mut coming = VecDeque::new();
    for line in io::stdin().lock().lines() {
        answer(&mut engine, &line?, &mut record, |made| {
            coming.extend(follow_up(forms, made))
        })?;
        record.text.clear();
    }
    let mut out = BufWriter::with_capacity(PIECE, io::stdout().lock());
    for _ in 0..count {
        let line = coming.pop_front().ok_or("nothing runs any more")?;
        writeln!(out, "{line}")?;
        answer(&mut engine, &line, &mut record, |made| {
            coming.extend(follow_up(forms, made))
        })?;
        record.text.clear();
    }
    Ok(out.flush()?)
}

fn main() -> Result<(), Box<dyn Error>> {
    let words: Vec<String> = std::env::args().skip(1).collect();
    let words: Vec<&str> = words.iter().map(String::as_str).collect();
    match words[..] {
        ["serve", path] => serve(&Forms::read(&std::fs::read_to_string(path)?)?),
        ["follow", path, count] => follow(
            &Forms::read(&std::fs::read_to_string(path)?)?,
            count.parse()?,
        ),
        _ => Err("engine_plain serve FORMS, or engine_plain follow FORMS COUNT".into()),
    }
}
