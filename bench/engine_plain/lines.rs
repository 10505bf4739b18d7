//! The event lines that the bench has, and the lines of the record.

use crate::engine::{BatchAct, Deed, Move, Refusal, Reply, State};
use crate::forms::{Forms, Need};

/// The events that the bench has.
pub enum Event<'a> {
    Create { recipe: &'a str, size: u64 },
    Start { batch: u64 },
    Reset { batch: u64 },
    Done { unit: &'a str, phase: &'a str },
}

/// The event of a line; None where the bench has none of this form.
pub fn read_event(line: &str) -> Option<Event<'_>> {
    let mut words = line.split_ascii_whitespace();
    let event = match words.next()? {
        "create" => Event::Create {
            recipe: words.next()?,
            size: words.next()?.parse().ok()?,
        },
        "start" => Event::Start {
            batch: words.next()?.parse().ok()?,
        },
        "reset" => Event::Reset {
            batch: words.next()?.parse().ok()?,
        },
        "report" => {
            let (unit, phase) = (words.next()?, words.next()?);
            (words.next()? == "done").then_some(Event::Done { unit, phase })?
        }
        _ => return None,
    };
    words.next().is_none().then_some(event)
}

/// The lines of a record, as they are put together.
#[derive(Default)]
pub struct Record {
    pub text: Vec<u8>,
}

impl Record {
    fn word(&mut self, word: &str) -> &mut Record {
        self.text.extend_from_slice(word.as_bytes());
        self.text.push(b' ');
        self
    }

    fn number(&mut self, mut number: u64) -> &mut Record {
        let mut digits = [0; 20];
        let mut at = digits.len();
        loop {
            at -= 1;
            digits[at] = b'0' + (number % 10) as u8;
            number /= 10;
            if number == 0 {
                break;
            }
        }
        self.text.extend_from_slice(&digits[at..]);
        self.text.push(b' ');
        self
    }

    /// Ends the line with the word before.
    fn end(&mut self) {
        if let Some(last) = self.text.last_mut() {
            *last = b'\n';
        }
    }

    pub fn reply(&mut self, forms: &Forms, reply: &Reply) {
        match *reply {
            Reply::Created {
                batch,
                recipe,
                size,
            } => {
                let name = &forms.recipes[recipe].name;
                self.word("created").number(batch).word(name).number(size)
            }
            Reply::Ordered {
                command,
                batch,
                state,
            } => self.word("ok").word(command).number(batch).state(state),
            Reply::Reported { phase, act, state } => {
                self.word("ok").word("report").phase(forms, phase);
                self.word("done").act(forms, act).state(state)
            }
            Reply::Refused(ref refusal) => self.refusal(refusal),
        }
        .end();
    }

    fn refusal(&mut self, refusal: &Refusal) -> &mut Record {
        match refusal {
            Refusal::UnknownRecipe => self.word("refused E1"),
            Refusal::UnknownBatch => self.word("refused E2"),
            Refusal::NotAccepted(state) => self.word("refused E3").state(*state),
            Refusal::NoLivePhase => self.word("refused E4"),
            Refusal::SizeOutOfRange => self.word("refused E7 F1"),
            Refusal::Full => self.word("refused E8"),
        }
    }

    pub fn made(&mut self, forms: &Forms, made: &Move) {
        let act = made.act;
        match made.deed {
            Deed::State(state) => self.word("state").number(act.batch).state(state),
            Deed::Release(need) => self.word("release").act(forms, act).need(forms, need),
            Deed::Begin => {
                let name = forms.recipes[act.recipe].name_at(act.node);
                self.word("begin").act(forms, act).word(name)
            }
            Deed::Start(phase) => self.word("start").act(forms, act).phase(forms, phase),
            Deed::End => self.word("end").act(forms, act),
            Deed::Ask(need) => self.word("ask").act(forms, act).need(forms, need),
            Deed::Grant(need) => self.word("grant").act(forms, act).need(forms, need),
        }
        .end();
    }

    /// The batch and the place of an act.
    fn act(&mut self, forms: &Forms, act: BatchAct) -> &mut Record {
        let node = &forms.recipes[act.recipe].nodes[act.node];
        self.number(act.batch).word(&node.place)
    }

    fn phase(&mut self, forms: &Forms, phase: usize) -> &mut Record {
        let phase = &forms.phases[phase];
        self.word(&phase.unit).word(&phase.name)
    }

    fn state(&mut self, state: State) -> &mut Record {
        self.word(state_word(state))
    }

    fn need(&mut self, forms: &Forms, need: Need) -> &mut Record {
        self.word(&forms.resources[need.resource].name);
        if need.units > 1 {
            self.text.pop();
            self.text.push(b'*');
            self.number(u64::from(need.units));
        }
        self
    }
}

fn state_word(state: State) -> &'static str {
    match state {
        State::Idle => "idle",
        State::Running => "running",
        State::Complete => "complete",
    }
}
