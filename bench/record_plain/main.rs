// The state at the end of a record, by a plain program: the batches, the holders, the waiters and the live phases, in the lines and the
// order of `batchd status`. It trusts the record, and knows no recovery blocks.
use std::collections::BTreeMap;
use std::fs::File;
use std::io::{BufRead, BufReader, BufWriter, Write};

type Act = (u64, Vec<u32>);

struct Listed {
    recipe: Vec<u8>,
    size: u64,
    state: &'static str,
}

struct Live {
    unit: Vec<u8>,
    name: Vec<u8>,
    state: &'static str,
}

#[derive(Default)]
struct Tale {
    batches: BTreeMap<u64, Listed>,
    holders: BTreeMap<Vec<u8>, BTreeMap<Act, u64>>,
    waiters: BTreeMap<Vec<u8>, Vec<(Act, u64)>>,
    live: BTreeMap<Act, Live>,
}

const STATES: [&str; 12] = [
    "idle", "running", "pausing", "paused", "holding", "held", "restarting", "stopping", "stopped",
    "aborting", "aborted", "complete",
];

fn number(word: &[u8]) -> u64 {
    word.iter().fold(0, |sum, digit| sum * 10 + u64::from(digit - b'0'))
}

fn place(word: &[u8]) -> Vec<u32> {
    word.split(|byte| *byte == b'.').map(|part| number(part) as u32).collect()
}

fn state(word: &[u8]) -> &'static str {
    STATES.iter().find(|state| state.as_bytes() == word).expect("a state")
}

fn led(command: &[u8], now: &'static str) -> &'static str {
    match command {
        b"pause" => "pausing",
        b"resume" | b"start" => "running",
        b"hold" => "holding",
        b"restart" => "restarting",
        b"stop" => "stopping",
        b"abort" => "aborting",
        _ => now,
    }
}

// A need is told as `NAME` or `NAME*K`.
fn need(word: &[u8]) -> (Vec<u8>, u64) {
    match word.iter().position(|byte| *byte == b'*') {
        Some(at) => (word[..at].to_vec(), number(&word[at + 1..])),
        None => (word.to_vec(), 1),
    }
}

impl Tale {
    fn take(&mut self, line: &[u8]) {
        let words: Vec<&[u8]> = line.split(|byte| *byte == b' ').collect();
        match words[0] {
            b"created" => {
                let listed = Listed { recipe: words[2].to_vec(), size: number(words[3]), state: "idle" };
                self.batches.insert(number(words[1]), listed);
            }
            b"ok" => self.reply(&words[1..]),
            b"state" => self.batch_state(number(words[1]), words[2]),
            b"ask" => {
                let (name, units) = need(words[3]);
                self.waiters.entry(name).or_default().push(((number(words[1]), place(words[2])), units));
            }
            b"grant" => {
                let (name, units) = need(words[3]);
                let act = (number(words[1]), place(words[2]));
                self.leave(&name, &act);
                *self.holders.entry(name).or_default().entry(act).or_default() += units;
            }
            b"release" => {
                let (name, _) = need(words[3]);
                if let Some(holders) = self.holders.get_mut(&name) {
                    holders.remove(&(number(words[1]), place(words[2])));
                }
            }
            b"start" => {
                let live = Live { unit: words[3].to_vec(), name: words[4].to_vec(), state: "running" };
                self.live.insert((number(words[1]), place(words[2])), live);
            }
            b"send" => {
                if let Some(live) = self.live.get_mut(&(number(words[1]), place(words[2]))) {
                    live.state = led(words[5], live.state);
                }
            }
            _ => {}
        }
    }

    fn reply(&mut self, words: &[&[u8]]) {
        match words[0] {
            b"remove" => {
                self.batches.remove(&number(words[1]));
            }
            b"report" => {
                let act = (number(words[4]), place(words[5]));
                self.batch_state(act.0, words[6]);
                match words[3] {
                    b"paused" => self.phase_state(&act, "paused"),
                    b"held" => self.phase_state(&act, "held"),
                    b"running" => self.phase_state(&act, "running"),
                    b"fault" => {}
                    _ => {
                        self.live.remove(&act);
                    }
                }
            }
            command => {
                let batch = number(words[1]);
                if command == b"stop" || command == b"abort" {
                    for line in self.waiters.values_mut() {
                        line.retain(|((other, _), _)| *other != batch);
                    }
                }
                self.batch_state(batch, words[2]);
            }
        }
    }

    fn batch_state(&mut self, batch: u64, word: &[u8]) {
        if let Some(listed) = self.batches.get_mut(&batch) {
            listed.state = state(word);
        }
    }

    fn phase_state(&mut self, act: &Act, state: &'static str) {
        if let Some(live) = self.live.get_mut(act) {
            live.state = state;
        }
    }

    fn leave(&mut self, name: &[u8], act: &Act) {
        if let Some(line) = self.waiters.get_mut(name) {
            line.retain(|(other, _)| other != act);
        }
    }

    fn tell(&self, out: &mut impl Write) -> std::io::Result<()> {
        for (batch, listed) in &self.batches {
            write!(out, "batch {batch} ")?;
            out.write_all(&listed.recipe)?;
            writeln!(out, " {} {}", listed.size, listed.state)?;
        }
        for (name, holders) in &self.holders {
            for (act, units) in holders {
                claim(out, b"holds ", name, act, *units)?;
            }
        }
        for (name, line) in &self.waiters {
            for (act, units) in line {
                claim(out, b"waits ", name, act, *units)?;
            }
        }
        let mut live: Vec<_> = self.live.iter().collect();
        live.sort_by(|(_, a), (_, b)| (&a.unit, &a.name).cmp(&(&b.unit, &b.name)));
        for ((batch, place), live) in live {
            out.write_all(b"runs ")?;
            out.write_all(&live.unit)?;
            out.write_all(b" ")?;
            out.write_all(&live.name)?;
            writeln!(out, " {batch} {} {}", dotted(place), live.state)?;
        }
        Ok(())
    }
}

fn claim(out: &mut impl Write, word: &[u8], name: &[u8], act: &Act, units: u64) -> std::io::Result<()> {
    out.write_all(word)?;
    out.write_all(name)?;
    writeln!(out, " {} {} {units}", act.0, dotted(&act.1))
}

fn dotted(place: &[u32]) -> String {
    place.iter().map(u32::to_string).collect::<Vec<_>>().join(".")
}

fn main() -> std::io::Result<()> {
    let path = std::env::args().nth(1).expect("a record");
    let mut record = BufReader::with_capacity(65_536, File::open(path)?);
    let mut tale = Tale::default();
    let mut line = Vec::new();
    while record.read_until(b'\n', &mut line)? > 0 {
        if line.pop() == Some(b'\n') && !line.starts_with(b"#") && !line.starts_with(b"refused ") && !line.is_empty() {
            tale.take(&line);
        }
        line.clear();
    }
    let mut out = BufWriter::new(std::io::stdout());
    tale.tell(&mut out)?;
    out.flush()
}
