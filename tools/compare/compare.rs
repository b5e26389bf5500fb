//! The comparison: random lists of calls on both engines, over memories of their own with the same words. After every
//! call all that a host can see of the two has to be the same.

use crate::calls::{perform, told, Call, Store};
use crate::engine::{is_script, is_sound, Answer, Engine, Interface, Spoils, LAST_REFUSAL, SLOTS};
use crate::linked::Linked;
use crate::plan::{Event, Plan};
use crate::random::{store, Random};
use std::fmt::Display;

/// What the two engines do not agree on.
struct Difference {
    what: String,
    proved: String,
    plain: String,
}

fn agree<T: PartialEq + Display>(what: impl FnOnce() -> String, proved: T, plain: T) -> Result<(), Difference> {
    if proved == plain {
        return Ok(());
    }
    Err(Difference { what: what(), proved: proved.to_string(), plain: plain.to_string() })
}

/// Words that stand before and after what the proved engine is lent, and that it must leave.
const GUARD: u64 = 0x6AA2_D000_D2AA_6000;

/// The proved engine between guards.
#[derive(Clone)]
#[repr(C)]
struct Guarded {
    before: [u64; 4],
    engine: Linked,
    after: [u64; 4],
}

/// Words between guards.
#[derive(Clone)]
struct Lent {
    words: Vec<u32>,
}

impl Lent {
    const EDGE: usize = 8;

    fn new(words: &[u32]) -> Self {
        let edge = [GUARD as u32; Lent::EDGE];
        Lent { words: [&edge, words, &edge].concat() }
    }

    fn all(&mut self) -> &mut [u32] {
        let end = self.words.len() - Lent::EDGE;
        &mut self.words[Lent::EDGE..end]
    }

    fn seen(&self) -> &[u32] {
        &self.words[Lent::EDGE..self.words.len() - Lent::EDGE]
    }

    fn is_whole(&self) -> bool {
        let (before, after) = (&self.words[..Lent::EDGE], &self.words[self.words.len() - Lent::EDGE..]);
        before.iter().chain(after).all(|&word| word == GUARD as u32)
    }
}

/// Both engines, each with a memory of its own.
#[derive(Clone)]
struct Pair {
    proved: Guarded,
    plain: Engine,
    proved_words: Lent,
    /// The words of the plain side, and which kind of store both sides are told.
    store: Store,
    flags: bool,
}

/// How many pages a check looks at in a large store.
#[derive(Clone, Copy, PartialEq)]
enum Pages {
    Some,
    All,
}

/// Up to this size, or with no more entries than these in a log, all pages are looked at after every call.
const FEW_PAGES: u32 = 64;
const FEW_ENTRIES: u32 = 16;

/// Numbers that name no slot, asked for now and then besides those that do.
const STRANGE: [u32; 2] = [SLOTS as u32, u32::MAX];

/// What stands where a read or a put must not write.
const UNREAD: u32 = 0x5EED_1E55;

impl Pair {
    fn fresh(store: Store, flags: bool) -> Self {
        let proved_words = Lent::new(&store.words);
        let proved = Guarded { before: [GUARD; 4], engine: Linked::fresh(), after: [GUARD; 4] };
        Pair { proved, plain: Engine::fresh(), proved_words, store, flags }
    }

    fn size(&mut self) -> u32 {
        Engine::size(&mut self.store.words, self.store.log)
    }

    fn arithmetic(&self) -> &'static str {
        if self.flags {
            "flags"
        } else {
            "counters"
        }
    }

    fn call(&mut self, call: &Call) -> (Answer, Answer, Spoils) {
        let (log, flags) = (self.store.log, self.flags);
        let proved = perform(&mut self.proved.engine, call, self.proved_words.all(), log, flags);
        let words = &mut self.store.words;
        let (plain, spoils) = match *call {
            Call::Commit(slot) => self.plain.commit_telling(slot, words, log),
            _ => (perform(&mut self.plain, call, words, log, flags), Spoils::default()),
        };
        (proved, plain, spoils)
    }

    fn put(&mut self, page: u32, word: u32) -> Result<(), Difference> {
        let log = self.store.log;
        let (mut proved_missing, mut plain_missing) = (UNREAD, UNREAD);
        let proved = Linked::put(self.proved_words.all(), log, page, word, &mut proved_missing);
        let plain = Engine::put(&mut self.store.words, log, page, word, &mut plain_missing);
        agree(|| format!("whether page {page} was put"), proved, plain)?;
        agree(|| format!("the page told of a put to page {page}"), proved_missing, plain_missing)
    }

    fn replace(&mut self, store: Store) {
        self.proved_words = Lent::new(&store.words);
        self.store = store;
    }

    fn check(&mut self, pages: Pages, strange: bool) -> Result<(), Difference> {
        self.check_words("")?;
        self.check_pages(pages, strange)?;
        self.check_shadows(strange)?;
        self.check_words(", after the questions")
    }

    fn check_words(&self, when: &str) -> Result<(), Difference> {
        let guards = self.proved.before.iter().chain(&self.proved.after).all(|&word| word == GUARD);
        agree(|| format!("the words around what was lent{when}"), guards && self.proved_words.is_whole(), true)?;
        if self.proved_words.seen() == self.store.words {
            return Ok(());
        }
        let both = self.proved_words.seen().iter().zip(&self.store.words);
        both.enumerate().try_for_each(|(place, (proved, plain))| {
            agree(|| format!("word {place} of the memory{when}"), proved, plain)
        })
    }

    fn check_pages(&mut self, pages: Pages, strange: bool) -> Result<(), Difference> {
        let size = self.size();
        let proved = Linked::size(self.proved_words.all(), self.store.log);
        agree(|| "the store's size".to_string(), proved, size)?;
        let stride = if self.has_cheap_reads(size) || pages == Pages::All { 1 } else { (size / FEW_PAGES) as usize };
        (0..size).step_by(stride).try_for_each(|page| self.check_page(page))?;
        // One past the last, and in a large store the last, which the stride leaves out.
        (size.saturating_sub(1)..=size).try_for_each(|page| self.check_page(page))?;
        if strange {
            self.check_page(u32::MAX)?;
        }
        Ok(())
    }

    /// A read of a log looks at its entries: a large store with many of them is looked at in places.
    fn has_cheap_reads(&self, size: u32) -> bool {
        let few_entries = !self.store.log || self.store.words.get(1).is_none_or(|&capacity| capacity <= FEW_ENTRIES);
        size <= FEW_PAGES || few_entries
    }

    fn check_page(&mut self, page: u32) -> Result<(), Difference> {
        let log = self.store.log;
        let (mut proved_word, mut plain_word) = (UNREAD, UNREAD);
        let (mut proved_missing, mut plain_missing) = (UNREAD, UNREAD);
        let proved = Linked::read(self.proved_words.all(), log, page, &mut proved_word, &mut proved_missing);
        let plain = Engine::read(&mut self.store.words, log, page, &mut plain_word, &mut plain_missing);
        agree(|| format!("whether page {page} is there"), proved, plain)?;
        agree(|| format!("the word of page {page}"), proved_word, plain_word)?;
        agree(|| format!("the page told of a read of page {page}"), proved_missing, plain_missing)
    }

    fn check_shadows(&mut self, strange: bool) -> Result<(), Difference> {
        let named = 0..SLOTS as u32;
        let unnamed = STRANGE.into_iter().filter(|_| strange);
        for slot in named.clone().chain(unnamed.clone()) {
            for other in named.clone().chain(unnamed.clone()) {
                self.check_shadow(slot, other, strange)?;
            }
        }
        Ok(())
    }

    fn check_shadow(&mut self, slot: u32, other: u32, strange: bool) -> Result<(), Difference> {
        let (proved, plain) = (self.proved.engine.stand(slot, other), self.plain.stand(slot, other));
        agree(|| format!("the answer to stand {slot} {other}"), proved, plain)?;
        let mut index = 0;
        while self.check_entry(slot, other, index)? {
            index += 1;
        }
        if strange {
            self.check_entry(slot, other, usize::MAX)?;
        }
        Ok(())
    }

    /// Whether there is such an entry.
    fn check_entry(&mut self, slot: u32, other: u32, index: usize) -> Result<bool, Difference> {
        let proved = self.proved.engine.read_entry(slot, other, index);
        let plain = self.plain.read_entry(slot, other, index);
        agree(|| format!("the answer to entry {slot} {other} {index}"), proved, plain)?;
        Ok(plain.refusal == 0 && plain.count > 0)
    }
}

#[derive(Default)]
struct Tally {
    lists: u64,
    /// Lists that begin with a log, and with flags.
    on_logs: u64,
    with_flags: u64,
    accepted: u64,
    declined: [u64; LAST_REFUSAL + 1],
    commits: u64,
    spoiled: u64,
    taken_over: u64,
    damaged_scripts: u64,
    stores: u64,
    unsound_layouts: u64,
    meddled: u64,
    copies: u64,
    calls_on_copies: u64,
}

impl Tally {
    fn count_call(&mut self, call: &Call, answer: Answer, spoils: Spoils) {
        match answer.refusal {
            0 => self.accepted += 1,
            refusal => self.declined[refusal as usize] += 1,
        }
        match call {
            Call::Begin(_, script) if !is_script(script) => self.damaged_scripts += 1,
            Call::Commit(_) if answer.refusal == 0 => self.commits += 1,
            _ => {}
        }
        self.spoiled += u64::from(spoils.spoiled);
        self.taken_over += u64::from(spoils.taken_over);
    }

    fn count_store(&mut self, store: &mut Store) {
        self.stores += 1;
        self.unsound_layouts += u64::from(store.log && !is_sound(&mut store.words));
    }

    fn print(&self) {
        let declined: u64 = self.declined.iter().sum();
        println!("No difference.");
        println!("Lists of calls:         {}", self.lists);
        println!("  begun over a log:     {}", self.on_logs);
        println!("  begun with flags:     {}", self.with_flags);
        println!("Calls:                  {}", self.accepted + declined);
        println!("  accepted:             {}", self.accepted);
        println!("  declined:             {declined}");
        for (refusal, count) in self.declined.iter().enumerate().skip(1) {
            println!("    with refusal {refusal:2}:    {count}");
        }
        println!("Commits:                {}", self.commits);
        println!("Spoiled transactions:   {}", self.spoiled);
        println!("  a shadow took over:   {}", self.taken_over);
        println!("  started over:         {}", self.spoiled - self.taken_over);
        println!("Begins with no script:  {}", self.damaged_scripts);
        println!("Memories handed over:   {}", self.stores);
        println!("  of unsound layout:    {}", self.unsound_layouts);
        println!("Changes by the host:    {}", self.meddled);
        println!("Copies brought to end:  {}", self.copies);
        println!("  by further calls:     {}", self.calls_on_copies);
    }
}

/// One list, with all that has happened in it.
struct List {
    pair: Pair,
    plan: Plan,
    random: Random,
    tally: Tally,
    past: Vec<(Event, String)>,
}

/// Strange numbers are asked for after one event in so many.
const STRANGE_EVERY: usize = 16;

/// Copies of both engines are brought to their close after one event in so many.
const PROBE_EVERY: usize = 8;

impl List {
    fn run(&mut self) -> Result<(), Difference> {
        for _ in 0..self.random.between(20, 120) {
            let size = self.pair.size();
            let event = self.plan.next(&mut self.random, &self.pair.plain, &self.pair.store, size);
            self.go_through(event)?;
            self.check()?;
        }
        while self.go_to_close()? {
            self.check()?;
        }
        self.pair.check(Pages::All, true)
    }

    fn check(&mut self) -> Result<(), Difference> {
        let events = self.past.len();
        self.pair.check(Pages::Some, events.is_multiple_of(STRANGE_EVERY))?;
        if events.is_multiple_of(PROBE_EVERY) {
            self.probe()?;
        }
        Ok(())
    }

    /// Brings a copy of all to its close. No question tells registers and own lists, but commits do, and those of
    /// shadows that come to lead. A copy can go there at any time, and the list itself goes on as if it had not.
    fn probe(&mut self) -> Result<(), Difference> {
        let random = Random::for_list(self.random.any().into(), 0);
        let (pair, plan, tally) = (self.pair.clone(), self.plan.clone(), Tally::default());
        let mut copy = List { pair, plan, random, tally, past: Vec::new() };
        let closed = copy.close();
        self.tally.copies += 1;
        self.tally.calls_on_copies += copy.past.len() as u64;
        closed.map_err(|Difference { what, proved, plain }| {
            let what = format!("{what}, in a copy that was brought to its close after event {}", self.past.len());
            self.past.append(&mut copy.past);
            Difference { what, proved, plain }
        })
    }

    fn close(&mut self) -> Result<(), Difference> {
        while self.go_to_close()? {
            self.pair.check_words("")?;
        }
        Ok(())
    }

    /// One more call on the way to the close, if there is one.
    fn go_to_close(&mut self) -> Result<bool, Difference> {
        let Some(call) = self.plan.closing_call(&mut self.random, &self.pair.plain) else { return Ok(false) };
        self.go_through(Event::Call(call))?;
        Ok(true)
    }

    fn go_through(&mut self, event: Event) -> Result<(), Difference> {
        let (answer, agreed) = match &event {
            Event::Call(call) => self.make_call(call),
            _ => self.meddle(&event),
        };
        self.past.push((event, answer));
        agreed
    }

    /// What the plain engine answers, and whether the proved one does.
    fn make_call(&mut self, call: &Call) -> (String, Result<(), Difference>) {
        let (proved, plain, spoils) = self.pair.call(call);
        self.plan.heed(call, plain);
        self.tally.count_call(call, plain, spoils);
        (told(call, plain), agree(|| "the answer to the call".to_string(), proved, plain))
    }

    fn meddle(&mut self, event: &Event) -> (String, Result<(), Difference>) {
        self.tally.meddled += 1;
        match event {
            Event::Put(page, word) => return ("by the host".to_string(), self.pair.put(*page, *word)),
            Event::Replace(store) => {
                self.pair.replace(store.clone());
                self.tally.count_store(&mut self.pair.store);
            }
            _ => self.pair.flags = !self.pair.flags,
        }
        (format!("size {}, arithmetic of {}", self.pair.size(), self.pair.arithmetic()), Ok(()))
    }

    fn print_past(&self, first: &str) {
        println!("The list so far, with the plain engine's answers:");
        println!("       {first}");
        for (number, (event, answer)) in self.past.iter().enumerate() {
            let happened = match event {
                Event::Call(call) => call.to_string(),
                Event::Put(page, word) => format!("put {page} {word}"),
                Event::Replace(store) => store.to_string(),
                Event::SwitchArithmetic => "the other arithmetic".to_string(),
            };
            println!("{:5}  {happened} -> {answer}", number + 1);
        }
    }
}

/// Runs a list, and gives the tally back; where the engines differ, it tells all instead.
fn run_list(seed: u64, number: u64, mut tally: Tally) -> Option<Tally> {
    let mut random = Random::for_list(seed, number);
    let plan = Plan::drawn(&mut random);
    let mut first = store(&mut random);
    let flags = random.chance(50);
    tally.lists += 1;
    tally.on_logs += u64::from(first.log);
    tally.with_flags += u64::from(flags);
    tally.count_store(&mut first);
    let pair = Pair::fresh(first, flags);
    let opening = format!("{} -> arithmetic of {}", pair.store, pair.arithmetic());
    let mut list = List { pair, plan, random, tally, past: Vec::new() };
    let Err(difference) = list.run() else { return Some(list.tally) };
    println!("The engines differ in list {number} of seed {seed}, at event {}.", list.past.len());
    list.print_past(&opening);
    println!("What differs:      {}", difference.what);
    println!("The proved engine: {}", difference.proved);
    println!("The plain engine:  {}", difference.plain);
    None
}

/// Whether all lists came out the same.
pub fn run(lists: u64, seed: u64) -> bool {
    println!("Seed:                   {seed}");
    let tally = (0..lists).try_fold(Tally::default(), |tally, number| run_list(seed, number, tally));
    if let Some(tally) = &tally {
        tally.print();
    }
    tally.is_some()
}
