//! Desks over named pipes without a machine, which bench/serve times beside `batchd serve`: each line of a desk is written to standard output and
//! to the desk, behind `ok `. As in batchd, each desk has a thread that reads and one that writes, with one thread between them. Texts of whole
//! lines come to it by a channel with 16 places a desk, and lines go on by a channel of 1,024 for each desk. It waits for a desk that doesn't read.
//!
//! Usage: serve_plain FOLDER DESKS [polls], over FOLDER/D00.in, D00.out and so on. It waits at its channels; with `polls` it looks at them, and
//! sleeps between as batchd does.
use std::env;
use std::fs::{File, OpenOptions};
use std::io::{self, BufWriter, Read, Write};
use std::mem;
use std::sync::mpsc::{sync_channel, Receiver, SyncSender, TryRecvError};
use std::thread::{self, JoinHandle};
use std::time::Duration;

const TEXTS: usize = 16;
const LINES: usize = 1_024;
const ROOM: usize = 4_096;

/// A text of whole lines, and the desk that sent it.
type Sent = (usize, Vec<u8>);

/// The shortest and the longest sleep, in microseconds.
#[derive(Clone, Copy)]
struct Sleeps {
    least: u32,
    most: u32,
}

const BETWEEN: Sleeps = Sleeps { least: 1_000, most: 10_000 };

/// Those of a thread that writes, where there are so many desks.
fn writing(desks: usize) -> Sleeps {
    Sleeps { least: 1_000, most: (desks as u32 * 800).clamp(10_000, 50_000) }
}

/// A channel's end that is waited for, or looked at.
struct Source<T> {
    items: Receiver<T>,
    polls: Option<Sleeps>,
    // how long it slept since the last item, in microseconds
    idle: u32,
}

impl<T> Source<T> {
    fn new(items: Receiver<T>, polls: Option<Sleeps>) -> Source<T> {
        Source { items, polls, idle: 0 }
    }

    /// The next item, once it comes; none where no more come.
    fn next(&mut self) -> Option<T> {
        let Some(sleeps) = self.polls else {
            return self.items.recv().ok();
        };
        loop {
            match self.items.try_recv() {
                Ok(item) => {
                    self.idle = 0;
                    return Some(item);
                }
                Err(TryRecvError::Disconnected) => return None,
                Err(TryRecvError::Empty) => {
                    let time = (self.idle / 16).clamp(sleeps.least, sleeps.most);
                    thread::sleep(Duration::from_micros(u64::from(time)));
                    self.idle = self.idle.saturating_add(time);
                }
            }
        }
    }

    /// The next item, if it is there.
    fn next_now(&mut self) -> Option<T> {
        let item = self.items.try_recv().ok()?;
        self.idle = 0;
        Some(item)
    }
}

/// Hands over the whole lines of an input, to its end.
fn read_lines(mut input: File, desk: usize, texts: &SyncSender<Sent>) -> io::Result<()> {
    let mut room = [0; ROOM];
    let mut kept = Vec::new();
    loop {
        let count = input.read(&mut room)?;
        if count == 0 {
            return Ok(());
        }
        kept.extend_from_slice(&room[..count]);
        let Some(at) = kept.iter().rposition(|byte| *byte == b'\n') else {
            continue;
        };
        let rest = kept.split_off(at + 1);
        if texts.send((desk, mem::replace(&mut kept, rest))).is_err() {
            return Ok(());
        }
    }
}

/// Writes the lines that come, and hands on the written text whenever no line is there.
fn write_lines(output: File, mut lines: Source<Vec<u8>>) -> io::Result<()> {
    let mut output = BufWriter::with_capacity(ROOM, output);
    loop {
        let mut line = lines.next_now();
        if line.is_none() {
            output.flush()?;
            line = lines.next();
        }
        match line {
            Some(line) => output.write_all(&line)?,
            None => return Ok(()),
        }
    }
}

/// Answers the texts that come, to their end: the answers to a text go to the record first.
fn echo(mut texts: Source<Sent>, desks: &[SyncSender<Vec<u8>>]) -> io::Result<()> {
    let mut record = BufWriter::new(io::stdout().lock());
    while let Some((desk, text)) = texts.next() {
        let answers: Vec<_> = text.split_inclusive(|byte| *byte == b'\n').map(|line| [b"ok ", line].concat()).collect();
        for answer in &answers {
            record.write_all(answer)?;
        }
        record.flush()?;
        for answer in answers {
            // a desk that went away is told nothing
            let _ = desks[desk].send(answer);
        }
    }
    Ok(())
}

fn main() -> io::Result<()> {
    let words: Vec<String> = env::args().collect();
    let (folder, count) = (words[1].clone(), words[2].parse().map_err(io::Error::other)?);
    let polls = words.get(3).is_some_and(|word| word == "polls");
    let (texts, sent) = sync_channel(TEXTS * count);
    let mut desks = Vec::new();
    let mut writers: Vec<JoinHandle<io::Result<()>>> = Vec::new();
    for desk in 0..count {
        let (lines, told) = sync_channel(LINES);
        desks.push(lines);
        let (texts, path) = (texts.clone(), format!("{folder}/D{desk:02}"));
        let output = format!("{path}.out");
        thread::spawn(move || read_lines(File::open(format!("{path}.in"))?, desk, &texts));
        let told = Source::new(told, polls.then_some(writing(count)));
        writers.push(thread::spawn(move || write_lines(OpenOptions::new().append(true).open(output)?, told)));
    }
    drop(texts);
    echo(Source::new(sent, polls.then_some(BETWEEN)), &desks)?;
    drop(desks);
    for writer in writers {
        writer.join().map_err(|_| io::Error::other("a thread panicked"))??;
    }
    Ok(())
}
