//! Calls and stores as values, how a call is carried out on either engine, and how both are told in the words of
//! docs/PROGRAM.md.

use crate::engine::{Answer, Interface, ENDED, MOVED, WAITING};
use std::fmt;

pub enum Call {
    SetAllowance(u32),
    Begin(u32, Vec<u8>),
    Turn(u32, u32),
    Commit(u32),
    Abort(u32),
}

impl Call {
    /// The slot that the call is about.
    pub fn slot(&self) -> Option<u32> {
        match *self {
            Call::SetAllowance(_) => None,
            Call::Begin(slot, _) | Call::Turn(slot, _) | Call::Commit(slot) | Call::Abort(slot) => Some(slot),
        }
    }
}

/// A host's memory, and which store it takes it for.
#[derive(Clone)]
pub struct Store {
    pub words: Vec<u32>,
    pub log: bool,
}

/// Inlined, so that between a host's loop and the engine there is one call, the engine's own.
#[inline(always)]
pub fn perform<E: Interface>(engine: &mut E, call: &Call, words: &mut [u32], log: bool, flags: bool) -> Answer {
    match call {
        Call::SetAllowance(allowance) => engine.set_allowance(*allowance),
        Call::Begin(slot, script) => engine.begin(*slot, script),
        Call::Turn(slot, other) => engine.turn(*slot, *other, words, log, flags),
        Call::Commit(slot) => engine.commit(*slot, words, log),
        Call::Abort(slot) => engine.abort(*slot),
    }
}

impl fmt::Display for Call {
    fn fmt(&self, out: &mut fmt::Formatter) -> fmt::Result {
        match self {
            Call::SetAllowance(allowance) => write!(out, "allow {allowance}"),
            Call::Begin(slot, script) => {
                write!(out, "begin {slot} with")?;
                script.iter().try_for_each(|byte| write!(out, " {byte:02X}"))
            }
            Call::Turn(slot, other) => write!(out, "turn {slot} {other}"),
            Call::Commit(slot) => write!(out, "commit {slot}"),
            Call::Abort(slot) => write!(out, "abort {slot}"),
        }
    }
}

/// The answer to a call, as the program of docs/PROGRAM.md prints it.
pub fn told(call: &Call, answer: Answer) -> String {
    let [first, second, third] = answer.values;
    if answer.refusal != 0 {
        let counted = answer.values.iter().take(answer.count as usize);
        return counted.fold(format!("refused {}", answer.refusal), |told, value| format!("{told} {value}"));
    }
    match (call, first) {
        (Call::SetAllowance(_), _) => "allowed".to_string(),
        (Call::Begin(..), _) => "begun".to_string(),
        (Call::Turn(..), MOVED) => "moved".to_string(),
        (Call::Turn(..), ENDED) => "ended".to_string(),
        (Call::Turn(..), WAITING) => "waiting".to_string(),
        (Call::Turn(..), _) => format!("no answer to a turn: {first} {second} {third}"),
        (Call::Commit(_), _) => format!("committed {first} {second}"),
        (Call::Abort(_), _) => "aborted".to_string(),
    }
}

/// More words than this are not told one by one.
const WORDS_TOLD: usize = 64;

impl fmt::Display for Store {
    fn fmt(&self, out: &mut fmt::Formatter) -> fmt::Result {
        out.write_str(if self.log { "log" } else { "flat" })?;
        self.words.iter().take(WORDS_TOLD).try_for_each(|word| write!(out, " {word}"))?;
        match self.words.len() {
            count if count > WORDS_TOLD => write!(out, " ... ({count} words in all)"),
            _ => Ok(()),
        }
    }
}

/// An answer with all its fields, those that do not count included, since they have to be 0.
impl fmt::Display for Answer {
    fn fmt(&self, out: &mut fmt::Formatter) -> fmt::Result {
        let [first, second, third] = self.values;
        match self.refusal {
            0 => write!(out, "accepted")?,
            number => write!(out, "refused {number}")?,
        }
        write!(out, ", {} of the values {first} {second} {third}", self.count)
    }
}
