//! The timing: both engines, side by side in one run, on the same calls over the same words.
//!
//! A case is a list of calls to time, from an engine and words that other calls have made ready. For each round the
//! ready engine and its words are copied by value, several times, and the clock runs over the timed calls on all copies
//! in turn. Nothing is subtracted: a figure holds the call itself and the loop that takes it from the list, which is
//! the same for both. Copying is not timed. So a commit, which can be made just once from one state, is timed like a
//! turn.
//!
//! Rounds of the two engines alternate, and each round goes over all cases of a table, so that what else the machine
//! does for a while meets all of them. The median of the rounds counts.

use crate::calls::{perform, Call, Store};
use crate::engine::{Answer, Engine, Interface, Spoils, ENDED, MOVED, SLOTS, WAITING};
use crate::linked::Linked;
use crate::plan::Plan;
use crate::random::{encode, step, Random, COMBINE, READ, SET, WRITE};
use std::fmt::Write;
use std::hint::black_box;
use std::time::{Duration, Instant};

const ROUNDS: usize = 1001;
const WARM_UP: Duration = Duration::from_secs(2);
/// Copies of the ready state in a round. Few enough for all of them to stay in a cache, and enough that reading the
/// clock does not count.
const COPIES: usize = 16;
/// The pages of a store where the size is not what is looked at.
const PAGES: u32 = 64;
const SIZES: [u32; 5] = [16, 64, 256, 1024, 4096];
const CONFLICT_PAGES: u32 = 16;
const CONFLICT_CALLS: usize = 4000;
const CONFLICT_SEED: u64 = 1;

struct Case {
    label: String,
    x: u32,
    store: Store,
    ready: Vec<Call>,
    timed: Vec<Call>,
    copies: usize,
}

impl Case {
    fn new(label: &str, x: u32, store: Store, ready: Vec<Call>, timed: Vec<Call>) -> Self {
        Case { label: label.to_string(), x, store, ready, timed, copies: COPIES }
    }
}

/// A case as one engine has it.
struct Bench<'a, E> {
    case: &'a Case,
    ready: E,
    words: Vec<u32>,
    engines: Vec<E>,
    memories: Vec<Vec<u32>>,
}

impl<'a, E: Interface> Bench<'a, E> {
    fn new(case: &'a Case) -> Self {
        let mut ready = E::fresh();
        let mut words = case.store.words.clone();
        for call in &case.ready {
            perform(&mut ready, call, &mut words, case.store.log, false);
        }
        let (engines, memories) = (vec![ready; case.copies], vec![words.clone(); case.copies]);
        Bench { case, ready, words, engines, memories }
    }

    /// The answers to the timed calls, and the words after them.
    fn outcome(&self) -> (Vec<Answer>, Vec<u32>) {
        let (mut engine, mut words) = (self.ready, self.words.clone());
        let log = self.case.store.log;
        let answers = self.case.timed.iter().map(|call| perform(&mut engine, call, &mut words, log, false)).collect();
        (answers, words)
    }

    /// Nanoseconds per timed call, in one round.
    fn round(&mut self) -> f64 {
        self.engines.fill(self.ready);
        for memory in &mut self.memories {
            memory.copy_from_slice(&self.words);
        }
        let log = black_box(self.case.store.log);
        let start = Instant::now();
        for (engine, memory) in self.engines.iter_mut().zip(&mut self.memories) {
            for call in &self.case.timed {
                black_box(perform(engine, call, memory, log, false));
            }
        }
        let spent = start.elapsed().as_nanos() as f64;
        spent / (self.case.copies * self.case.timed.len()) as f64
    }
}

fn median(mut rounds: Vec<f64>) -> f64 {
    rounds.sort_by(f64::total_cmp);
    rounds[rounds.len() / 2]
}

/// A case on both sides, with the nanoseconds per call of each round.
struct Duel<'a> {
    proved: Bench<'a, Linked>,
    plain: Bench<'a, Engine>,
    proved_rounds: Vec<f64>,
    plain_rounds: Vec<f64>,
}

impl<'a> Duel<'a> {
    fn new(case: &'a Case) -> Result<Self, String> {
        let (proved, plain) = (Bench::new(case), Bench::new(case));
        if proved.outcome() != plain.outcome() {
            return Err(format!("the engines answer differently where {} is timed; compare tells how", case.label));
        }
        Ok(Duel { proved, plain, proved_rounds: Vec::new(), plain_rounds: Vec::new() })
    }

    fn round(&mut self) {
        self.proved_rounds.push(self.proved.round());
        self.plain_rounds.push(self.plain.round());
    }
}

/// Nanoseconds per call of each case, of the proved engine and of the plain one.
fn measure(cases: &[Case]) -> Result<Vec<(f64, f64)>, String> {
    let mut duels = cases.iter().map(Duel::new).collect::<Result<Vec<_>, _>>()?;
    for _ in 0..ROUNDS {
        duels.iter_mut().for_each(Duel::round);
    }
    Ok(duels.into_iter().map(|duel| (median(duel.proved_rounds), median(duel.plain_rounds))).collect())
}

fn flat(size: u32) -> Store {
    Store { words: (0..size).map(|page| page % 8).collect(), log: false }
}

/// A log store with some entries used. They name pages from the last on down, which no timed script reads: so each read
/// looks at all of them.
fn log(size: u32, capacity: u32, used: u32) -> Store {
    let mut words = vec![size, capacity, used];
    words.extend((0..size).map(|page| page % 8));
    words.extend((0..capacity).map(|entry| size - 1 - entry % (size / 2)));
    words.extend((0..capacity).map(|entry| entry % 8));
    Store { words, log: true }
}

/// Sixteen steps that add 5 to each of four pages: reads, sets, combines and writes in equal parts.
fn adding(first_page: u32) -> Vec<u8> {
    let add = |page| [step(READ, 0, 0, page), step(SET, 1, 0, 5), step(COMBINE, 0, 1, 0), step(WRITE, 0, 0, page)];
    encode(&(first_page..first_page + 4).flat_map(add).collect::<Vec<_>>())
}

fn writing(pages: u32) -> Vec<u8> {
    encode(&(0..pages).map(|page| step(WRITE, 0, 0, page)).collect::<Vec<_>>())
}

/// Reads page 1 and then page 0.
fn reading() -> Vec<u8> {
    encode(&[step(READ, 0, 0, 1), step(READ, 1, 0, 0)])
}

/// Turns of the leading shadows of some slots, one after the other, again and again.
fn turns(slots: std::ops::Range<u32>, each: usize) -> Vec<Call> {
    (0..each).flat_map(|_| slots.clone().map(|slot| Call::Turn(slot, slot))).collect()
}

/// Turns of so many slots, each on pages of its own.
fn turn_case(label: &str, x: u32, store: Store, open: u32) -> Case {
    let ready = (0..open).map(|slot| Call::Begin(slot, adding(4 * slot))).collect();
    Case::new(label, x, store, ready, turns(0..open, 16))
}

/// A commit of four pages by one of so many slots, all of them at their ends and each on pages of its own.
fn apart_commit_case(label: &str, x: u32, store: Store, open: u32) -> Case {
    let mut ready: Vec<Call> = (0..open).map(|slot| Call::Begin(slot, adding(4 * slot))).collect();
    ready.extend(turns(0..open, 16));
    Case::new(label, x, store, ready, vec![Call::Commit(0)])
}

/// A commit of one page that all other slots have read: each is spoiled, and its shadow leads.
fn spoiling_commit_case(label: &str, open: u32) -> Case {
    let mut ready = vec![Call::SetAllowance(SLOTS as u32), Call::Begin(0, writing(1)), Call::Turn(0, 0)];
    ready.extend((1..open).map(|slot| Call::Begin(slot, reading())));
    ready.extend(turns(1..open, 2));
    Case::new(label, open, flat(PAGES), ready, vec![Call::Commit(0)])
}

fn commit_case(label: &str, store: Store, pages: u32) -> Case {
    let mut ready = vec![Call::Begin(0, writing(pages))];
    ready.extend(turns(0..1, pages as usize));
    Case::new(label, pages, store, ready, vec![Call::Commit(0)])
}

/// What the calls of a mix come to.
#[derive(Default)]
struct Mix {
    begins: u32,
    moved: u32,
    waiting: u32,
    ended: u32,
    commits: u32,
    spoils: Spoils,
    rest: u32,
}

impl Mix {
    fn count(&mut self, call: &Call, answer: Answer) {
        let counter = match (call, answer.refusal, answer.values[0]) {
            (Call::Begin(..), 0, _) => &mut self.begins,
            (Call::Turn(..), 0, MOVED) => &mut self.moved,
            (Call::Turn(..), 0, WAITING) => &mut self.waiting,
            (Call::Turn(..), 0, ENDED) => &mut self.ended,
            (Call::Commit(_), 0, _) => &mut self.commits,
            _ => &mut self.rest,
        };
        *counter += 1;
    }

    fn told(&self, allowance: u32) -> String {
        let Mix { begins, moved, waiting, ended, commits, spoils, rest } = self;
        format!(
            "allowance {allowance}: turns moved {moved}, waiting {waiting}, ended {ended}; begins {begins}, commits \
             {commits}; spoiled {}, of which a shadow took over for {}; aborts and declined {rest}",
            spoils.spoiled, spoils.taken_over
        )
    }
}

/// Eight slots on the same four pages. The calls are chosen beforehand, as the plain engine goes, and then timed as
/// they are; what they come to is told too.
fn conflict_case(allowance: u32) -> (Case, Mix) {
    let store = flat(CONFLICT_PAGES);
    let (mut engine, mut words, mut mix) = (Engine::fresh(), store.words.clone(), Mix::default());
    let (mut plan, mut random) = (Plan::heavy_conflict(), Random::for_list(CONFLICT_SEED, 0));
    engine.set_allowance(allowance);
    let mut next_call = || {
        let call = plan.next_call(&mut random, &engine, CONFLICT_PAGES);
        let (answer, spoils) = match call {
            Call::Commit(slot) => engine.commit_telling(slot, &mut words, false),
            _ => (perform(&mut engine, &call, &mut words, false, false), Spoils::default()),
        };
        plan.heed(&call, answer);
        mix.count(&call, answer);
        mix.spoils += spoils;
        call
    };
    let timed = (0..CONFLICT_CALLS).map(|_| next_call()).collect();
    let ready = vec![Call::SetAllowance(allowance)];
    let case = Case::new(&format!("allowance {allowance}"), allowance, store, ready, timed);
    (Case { copies: 1, ..case }, mix)
}

fn turn_cases() -> Vec<Case> {
    vec![turn_case("one open slot", 1, flat(PAGES), 1), turn_case("eight open slots", 8, flat(PAGES), 8)]
}

fn commit_cases() -> Vec<Case> {
    let pages = [(1, "one page"), (16, "16 pages")];
    let cases = pages.iter().flat_map(|&(pages, told)| {
        [
            commit_case(&format!("flat, {told}"), flat(PAGES), pages),
            commit_case(&format!("log, {told}"), log(PAGES, PAGES, 0), pages),
            commit_case(&format!("full log, {told}"), log(PAGES, PAGES, PAGES), pages),
        ]
    });
    cases.collect()
}

fn size_cases(case: fn(&str, u32, Store, u32) -> Case) -> Vec<Case> {
    let cases = SIZES.iter().flat_map(|&size| {
        [
            case("flat", size, flat(size), 1),
            case("empty log", size, log(size, size, 0), 1),
            case("half full log", size, log(size, size, size / 2), 1),
        ]
    });
    cases.collect()
}

fn turn_by_slots_cases() -> Vec<Case> {
    (1..=SLOTS as u32).map(|open| turn_case("no conflict", open, flat(PAGES), open)).collect()
}

fn commit_by_slots_cases() -> Vec<Case> {
    let cases = (1..=SLOTS as u32).flat_map(|open| {
        [apart_commit_case("no conflict", open, flat(PAGES), open), spoiling_commit_case("all others spoiled", open)]
    });
    cases.collect()
}

/// Measures a group of cases, prints its table, and adds its rows.
fn report(group: &str, title: &str, x: &str, cases: &[Case], rows: &mut String) -> Result<(), String> {
    println!("\n{title}");
    println!("  {:<20}{x:>14}{:>12}{:>12}{:>8}", "", "proved ns", "plain ns", "ratio");
    for (Case { label, x, .. }, (proved, plain)) in cases.iter().zip(measure(cases)?) {
        println!("  {label:<20}{x:>14}{proved:>12.1}{plain:>12.1}{:>8.2}", proved / plain);
        writeln!(rows, "{group},\"{label}\",{x},{proved:.2},{plain:.2}").expect("a string takes all");
    }
    Ok(())
}

/// A processor at rest has a low clock rate, so no time counts until it has worked for a while.
fn warm_up() -> Result<(), String> {
    let begun = Instant::now();
    while begun.elapsed() < WARM_UP {
        measure(&turn_cases())?;
    }
    Ok(())
}

pub fn run(csv: Option<&str>) -> Result<(), String> {
    let mut rows = "group,label,x,proved_ns,plain_ns\n".to_string();
    let rows = &mut rows;
    println!("Nanoseconds per call, the median of {ROUNDS} rounds that alternate between the engines.");
    warm_up()?;
    report("turn", "Turns without conflict, 64 pages, flat", "open slots", &turn_cases(), rows)?;
    let (conflicts, mixes): (Vec<Case>, Vec<Mix>) = [1, 2, 4, 8].map(conflict_case).into_iter().unzip();
    let title = "Heavy conflict: eight slots on four pages, all calls of the mix";
    report("conflict", title, "allowance", &conflicts, rows)?;
    conflicts.iter().zip(&mixes).for_each(|(case, mix)| println!("  {}", mix.told(case.x)));
    report("commit", "Commits, 64 pages, one open slot", "pages put", &commit_cases(), rows)?;
    report("turn-by-size", "Turns by store size, one open slot", "store size", &size_cases(turn_case), rows)?;
    let cases = size_cases(apart_commit_case);
    report("commit-by-size", "Commits of four pages by store size, one open slot", "store size", &cases, rows)?;
    report("turn-by-slots", "Turns by open slots, 64 pages, flat", "open slots", &turn_by_slots_cases(), rows)?;
    report("commit-by-slots", "Commits by open slots, 64 pages, flat", "open slots", &commit_by_slots_cases(), rows)?;
    match csv {
        Some(path) => std::fs::write(path, rows).map_err(|error| format!("cannot write {path}: {error}")),
        None => Ok(()),
    }
}
