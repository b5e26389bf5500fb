//! A host in Rust: carries out a scenario through the linked engine, and prints the answers as the program gorsepick does.
//!
//!     host FILE
//!
//! It knows the commands of docs/PROGRAM.md but for image, load and alone, and prints no summary. Lines are carried out as
//! they are read; one that is wrong ends the host with status 1. Its serial book is kept through the library alone: at a
//! commit the slot's script is run by itself on a second, fresh engine over a copy of the pages.

#[path = "../include/gorsepick.rs"]
mod gorsepick;

use gorsepick::{Answer, Engine};
use std::collections::HashMap;

const SLOTS: u32 = 8;

/// A store in the host's words.
#[derive(Default)]
struct Store {
    words: Vec<u32>,
    log: bool,
}

impl Store {
    /// The word of a page, or as an error the page that is not there.
    fn get(&mut self, page: u32) -> Result<u32, u32> {
        let (mut word, mut missing) = (0, 0);
        let there = gorsepick::read(&mut self.words, self.log, page, &mut word, &mut missing);
        if there { Ok(word) } else { Err(missing) }
    }

    fn put(&mut self, page: u32, word: u32) -> Result<(), u32> {
        let mut missing = 0;
        let there = gorsepick::put(&mut self.words, self.log, page, word, &mut missing);
        if there { Ok(()) } else { Err(missing) }
    }

    fn pages(&mut self) -> Vec<u32> {
        (0..gorsepick::size(&mut self.words, self.log)).filter_map(|page| self.get(page).ok()).collect()
    }
}

struct Host {
    engine: Engine,
    store: Store,
    flags: bool,
    scripts: HashMap<String, Vec<u8>>,
    /// The serial book: its pages, and the script of each slot that it has.
    book: Store,
    begun: [Option<Vec<u8>>; SLOTS as usize],
}

/// The words of a line, taken one by one.
struct Words<'a>(std::str::SplitWhitespace<'a>);

impl<'a> Words<'a> {
    fn name(&mut self) -> Result<&'a str, String> {
        self.0.next().ok_or("one word more is due".to_string())
    }

    fn number(&mut self) -> Result<u32, String> {
        let word = self.name()?;
        let digits = word.bytes().all(|b| b.is_ascii_digit());
        word.parse().ok().filter(|_| digits).ok_or(format!("{word}: a number from 0 to 4294967295 is due"))
    }

    fn numbers(&mut self) -> Result<Vec<u32>, String> {
        let mut all = Vec::new();
        while self.0.clone().next().is_some() {
            all.push(self.number()?);
        }
        Ok(all)
    }

    fn bytes(&mut self) -> Result<Vec<u8>, String> {
        let digits: Vec<u32> = self.0.by_ref().flat_map(str::chars).map(|c| c.to_digit(16).ok_or(c)).collect::<Result<_, _>>()
            .map_err(|c| format!("{c}: a hexadecimal digit is due"))?;
        if digits.len() % 2 == 1 {
            return Err("an even count of hexadecimal digits is due".to_string());
        }
        Ok(digits.chunks(2).map(|pair| (pair[0] * 16 + pair[1]) as u8).collect())
    }
}

fn list(heading: &str, numbers: &[u32]) -> String {
    numbers.iter().fold(heading.to_string(), |text, n| format!("{text} {n}"))
}

/// A refusal, or what an accepted call answers.
fn told(answer: Answer, accepted: impl FnOnce(&[usize]) -> String) -> String {
    let values = &answer.values[..answer.count as usize];
    match answer.refusal {
        0 => accepted(values),
        number => values.iter().fold(format!("refused {number}"), |text, value| format!("{text} {value}")),
    }
}

impl Host {
    fn new() -> Host {
        Host {
            engine: Engine::fresh(),
            store: Store::default(),
            flags: false,
            scripts: HashMap::new(),
            book: Store::default(),
            begun: Default::default(),
        }
    }

    /// The book starts anew from the store's pages; slots that are open then are not in it.
    fn start_book(&mut self) {
        self.book = Store { words: self.store.pages(), log: false };
        self.begun = Default::default();
    }

    /// Runs a slot's script alone over the book's pages: on a fresh engine, with nothing beside it.
    fn book_commit(&mut self, slot: u32) {
        let Some(script) = self.begun[slot as usize].take() else { return };
        let mut alone = Engine::fresh();
        alone.begin(0, &script);
        while alone.turn(0, 0, &mut self.book.words, false, self.flags).values[0] == 0 {}
        alone.commit(0, &mut self.book.words, false);
    }

    /// Carries out a command on the store, or gives none where it is another.
    fn store_command(&mut self, command: &str, words: &mut Words) -> Result<Option<String>, String> {
        Ok(Some(match command {
            "flat" | "log" => {
                self.store = Store { words: words.numbers()?, log: command == "log" };
                self.start_book();
                format!("size {}", gorsepick::size(&mut self.store.words, self.store.log))
            }
            "get" => {
                let page = words.number()?;
                self.store.get(page).map_or_else(|missing| format!("fault {missing}"), |word| format!("word {word}"))
            }
            "put" => {
                let (page, word) = (words.number()?, words.number()?);
                match self.store.put(page, word) {
                    Ok(()) => {
                        self.start_book();
                        "put".to_string()
                    }
                    Err(missing) => format!("fault {missing}"),
                }
            }
            "pages" => list("pages", &self.store.pages()),
            "words" => list("words", &self.store.words),
            "book" => list("pages", &self.book.pages()),
            _ => return Ok(None),
        }))
    }

    /// Carries out one of the five calls.
    fn call(&mut self, command: &str, words: &mut Words) -> Result<String, String> {
        if command == "allow" {
            return Ok(told(self.engine.set_allowance(words.number()?), |_| "allowed".to_string()));
        }
        let slot = words.number()?;
        Ok(match command {
            "begin" => {
                let name = words.name()?;
                let script = self.scripts.get(name).ok_or(format!("{name}: no earlier line gave this script"))?.clone();
                let answer = self.engine.begin(slot, &script);
                if answer.refusal == 0 {
                    self.begun[slot as usize] = Some(script);
                }
                told(answer, |_| "begun".to_string())
            }
            "turn" => {
                let answer = self.engine.turn(slot, words.number()?, &mut self.store.words, self.store.log, self.flags);
                told(answer, |values| ["moved", "ended", "waiting"][values[0]].to_string())
            }
            "commit" => {
                let answer = self.engine.commit(slot, &mut self.store.words, self.store.log);
                if answer.refusal == 0 {
                    self.book_commit(slot);
                }
                told(answer, |values| format!("committed {} {}", values[0], values[1]))
            }
            _ => {
                let answer = self.engine.abort(slot);
                if answer.refusal == 0 {
                    self.begun[slot as usize] = None;
                }
                told(answer, |_| "aborted".to_string())
            }
        })
    }

    fn question(&mut self, command: &str, words: &mut Words) -> Result<String, String> {
        if command == "shadows" {
            let places = (0..SLOTS * SLOTS).map(|i| self.engine.stand(i / SLOTS, i % SLOTS));
            return Ok(format!("{} shadows", places.filter(|answer| answer.refusal == 0).count()));
        }
        let (slot, other) = (words.number()?, words.number()?);
        Ok(if command == "stand" {
            let finds = ["ended", "waiting", "ready"];
            told(self.engine.stand(slot, other), |values| format!("step {} {}", values[0], finds[values[1]]))
        } else {
            told(self.engine.read_entry(slot, other, words.number()? as usize), |values| match values {
                [step, page] => format!("step {step} page {page}"),
                _ => "absent".to_string(),
            })
        })
    }

    fn carry_out(&mut self, line: &str) -> Result<(), String> {
        let line = line.split('#').next().unwrap_or("");
        let mut words = Words(line.split_whitespace());
        let Some(command) = words.0.next() else { return Ok(()) };
        let answer = match command {
            "script" => {
                let name = words.name()?.to_string();
                self.scripts.insert(name, words.bytes()?);
                None
            }
            "arithmetic" => {
                self.flags = match words.name()? {
                    "counters" => false,
                    "flags" => true,
                    _ => return Err("counters or flags is due".to_string()),
                };
                self.start_book();
                None
            }
            "allow" | "begin" | "turn" | "commit" | "abort" => Some(self.call(command, &mut words)?),
            "stand" | "entry" | "shadows" => Some(self.question(command, &mut words)?),
            _ => Some(self.store_command(command, &mut words)?.ok_or(format!("{command}: this host has no such command"))?),
        };
        if let Some(word) = words.0.next() {
            return Err(format!("{word}: fewer words are due"));
        }
        if let Some(answer) = answer {
            println!("{} -> {answer}", line.split_whitespace().collect::<Vec<_>>().join(" "));
        }
        Ok(())
    }
}

fn run() -> Result<(), String> {
    let mut arguments = std::env::args().skip(1);
    let (Some(file), None) = (arguments.next(), arguments.next()) else {
        return Err("host FILE: carries out the scenario in FILE through the linked engine".to_string());
    };
    gorsepick::check_version()?;
    let text = std::fs::read_to_string(&file).map_err(|e| format!("{file}: {e}"))?;
    let mut host = Host::new();
    for (i, line) in text.lines().enumerate() {
        host.carry_out(line).map_err(|e| format!("line {}: {e}", i + 1))?;
    }
    Ok(())
}

fn main() {
    if let Err(message) = run() {
        eprintln!("{message}");
        std::process::exit(1);
    }
}
