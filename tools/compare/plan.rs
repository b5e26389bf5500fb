//! Lists of calls that meet: which call comes next, given how the engine stands. The plan looks at the plain engine by
//! its questions, so that turns find shadows and transactions come to their end and commit.

use crate::calls::{Call, Store};
use crate::engine::{Answer, Engine, AT_END, NOT_OPEN, OFF_PAGES, READY, SLOTS, UNWRITABLE};
use crate::random::{damaged_script, fit_script, reading_script, store, writing_script, Ground, Random};

/// What a host does next.
pub enum Event {
    Call(Call),
    /// It puts a page itself.
    Put(u32, u32),
    /// It hands over other words, or the same ones changed, or as another kind of store.
    Replace(Store),
    SwitchArithmetic,
}

/// How a list goes. Where a field begins with "To" or "That" it is the chance of it, in percent.
#[derive(Clone)]
pub struct Plan {
    /// The slots in use, the favoured one first.
    slots: Vec<u32>,
    /// Whether the first slot reads what all others write, or each does as it happens.
    one_reads: bool,
    /// On how many pages scripts meet.
    hot: u32,
    /// To hold back the commit of a transaction at its end.
    patience: u32,
    /// To give a turn to another shadow than the leading one.
    speculation: u32,
    /// To abort a transaction. That makes room for shadows where there was none.
    aborting: u32,
    /// To set the allowance while all slots are closed.
    reallowing: u32,
    /// To make a call with any numbers.
    odd: u32,
    /// To begin with bytes that are no script.
    damaged: u32,
    /// To begin with a script that strays from the pages.
    straying: u32,
    /// That the host puts a page, or takes the other arithmetic. Shadows of one slot then come to the same step in
    /// different ways, so that it shows which of them is copied.
    unrest: u32,
    /// That the host changes store or arithmetic.
    meddling: u32,
    /// The slots that a page has been missing for, a bit each. They may as well be aborted.
    stuck: u8,
}

impl Plan {
    pub fn drawn(random: &mut Random) -> Self {
        if random.chance(20) {
            return Plan::unquiet(random);
        }
        let count = random.weighted(&[(2, 2), (4, 3), (4, 4), (2, 6), (3, 8)]);
        Plan {
            slots: some_slots(random, count),
            one_reads: false,
            hot: random.between(1, 5),
            patience: random.pick(&[10, 40, 70, 85]),
            speculation: random.pick(&[10, 30, 50, 65]),
            aborting: random.pick(&[0, 2, 5]),
            reallowing: 40,
            odd: random.pick(&[1, 2, 5, 15]),
            damaged: random.pick(&[0, 0, 5, 20]),
            straying: random.pick(&[0, 5, 15]),
            unrest: random.pick(&[0, 0, 0, 8]),
            meddling: random.pick(&[0, 0, 0, 0, 0, 2, 6, 15]),
            stuck: 0,
        }
    }

    /// A slot with several shadows, under a host that does not keep still.
    fn unquiet(random: &mut Random) -> Self {
        let count = random.pick(&[3, 4, 5, SLOTS]);
        Plan {
            slots: some_slots(random, count),
            one_reads: true,
            hot: random.between(1, 2),
            patience: 85,
            speculation: random.pick(&[65, 80]),
            reallowing: 80,
            unrest: 35,
            ..Plan::heavy_conflict()
        }
    }

    /// Eight slots busy on few pages, with none but sensible calls.
    pub fn heavy_conflict() -> Self {
        Plan {
            slots: (0..SLOTS as u32).collect(),
            one_reads: false,
            hot: 4,
            patience: 50,
            speculation: 35,
            aborting: 0,
            reallowing: 0,
            odd: 0,
            damaged: 0,
            straying: 0,
            unrest: 0,
            meddling: 0,
            stuck: 0,
        }
    }

    pub fn next(&self, random: &mut Random, engine: &Engine, store: &Store, size: u32) -> Event {
        if random.chance(self.meddling) {
            return meddle(random, store, size);
        }
        if random.chance(self.unrest) {
            return self.unsettle(random, size);
        }
        Event::Call(self.next_call(random, engine, size))
    }

    /// The word put is often the number of a page, since a script may take it for an index.
    fn unsettle(&self, random: &mut Random, size: u32) -> Event {
        if random.chance(20) {
            return Event::SwitchArithmetic;
        }
        let reach = self.reach(size).max(1);
        let word = if random.chance(50) { random.below(reach) } else { random.word() };
        Event::Put(random.below(reach), word)
    }

    pub fn next_call(&self, random: &mut Random, engine: &Engine, size: u32) -> Call {
        if random.chance(self.odd) {
            return self.odd_call(random, size);
        }
        if random.chance(self.reallowing) && open_slots(engine).is_empty() {
            return Call::SetAllowance(random.pick(&[1, 2, 2, 3, 3, 4, 5, 6, 7, 8, 8, 8]));
        }
        if self.one_reads && random.chance(85) {
            return self.staged_call(random, engine, size);
        }
        // The smaller of two places, so that the first slots of the list meet more often.
        let count = self.slots.len() as u32;
        let slot = self.slots[random.below(count).min(random.below(count)) as usize];
        self.call_for(slot, random, engine, size)
    }

    fn call_for(&self, slot: u32, random: &mut Random, engine: &Engine, size: u32) -> Call {
        let leading = engine.look(slot, slot);
        if leading.refusal == NOT_OPEN {
            return Call::Begin(slot, self.script(slot, random, size));
        }
        if random.chance(if self.is_stuck(slot) { 75 } else { self.aborting }) {
            return Call::Abort(slot);
        }
        let ended = leading.values[1] == AT_END;
        if ended && !random.chance(self.patience) {
            return Call::Commit(slot);
        }
        let others = other_shadows(engine, slot);
        let speculates = random.chance(self.speculation) || ended;
        if speculates && !others.is_empty() {
            return Call::Turn(slot, random.pick(&others));
        }
        Call::Turn(slot, slot)
    }

    /// The first slot comes to its end, then the others do, which write what it has read. Its shadows then catch up,
    /// each by its own turns, and one of the slots commits.
    fn staged_call(&self, random: &mut Random, engine: &Engine, size: u32) -> Call {
        for &slot in &self.slots {
            let leading = engine.look(slot, slot);
            if leading.refusal == NOT_OPEN {
                return Call::Begin(slot, self.script(slot, random, size));
            }
            if leading.values[1] != AT_END && !self.is_stuck(slot) {
                return Call::Turn(slot, slot);
            }
        }
        let reader = self.slots[0];
        let mut behind = other_shadows(engine, reader);
        behind.retain(|&other| engine.look(reader, other).values[1] == READY);
        if !behind.is_empty() && random.chance(95) {
            return Call::Turn(reader, random.pick(&behind));
        }
        Call::Commit(random.pick(&self.slots))
    }

    /// Any call at all: for absent shadows, closed or open slots, and numbers that name nothing.
    fn odd_call(&self, random: &mut Random, size: u32) -> Call {
        let (slot, other) = (any_slot(random), any_slot(random));
        match random.below(8) {
            0 => Call::SetAllowance(match random.below(6) {
                0 => random.pick(&[256, 257, 0x8000_0002, u32::MAX]),
                _ => random.below(10),
            }),
            1 | 2 => Call::Begin(slot, self.script(slot, random, size)),
            3..=5 => Call::Turn(slot, other),
            6 => Call::Commit(slot),
            _ => Call::Abort(slot),
        }
    }

    /// How many pages are named. Where one slot reads they are few, so that the host's puts meet it.
    fn reach(&self, size: u32) -> u32 {
        if self.one_reads {
            size.min(self.hot + 2)
        } else {
            size
        }
    }

    fn script(&self, slot: u32, random: &mut Random, size: u32) -> Vec<u8> {
        let ground = Ground { hot: self.hot, size: self.reach(size) };
        if self.one_reads {
            let draw = if slot == self.slots[0] { reading_script } else { writing_script };
            return draw(random, ground);
        }
        if random.chance(self.damaged) {
            return damaged_script(random, ground);
        }
        let strays = random.chance(self.straying);
        fit_script(random, ground, strays)
    }

    /// The next of the calls that bring a list to its close: each open slot runs to its end and commits. Registers and
    /// own lists, which no question tells, come to light so.
    pub fn closing_call(&self, random: &mut Random, engine: &Engine) -> Option<Call> {
        let open = open_slots(engine);
        if open.is_empty() {
            return None;
        }
        let slot = random.pick(&open);
        if self.is_stuck(slot) {
            return Some(Call::Abort(slot));
        }
        let ended = engine.look(slot, slot).values[1] == AT_END;
        Some(if ended { Call::Commit(slot) } else { Call::Turn(slot, slot) })
    }

    /// Takes note of which slots are stuck.
    pub fn heed(&mut self, call: &Call, answer: Answer) {
        let Some(slot) = call.slot().filter(|&slot| slot < SLOTS as u32) else { return };
        match (call, answer.refusal) {
            (_, OFF_PAGES | UNWRITABLE) => self.stuck |= 1 << slot,
            (Call::Begin(..) | Call::Commit(_) | Call::Abort(_), 0) => self.stuck &= !(1 << slot),
            _ => {}
        }
    }

    fn is_stuck(&self, slot: u32) -> bool {
        self.stuck >> slot & 1 != 0
    }
}

/// So many slots, in any order.
fn some_slots(random: &mut Random, count: usize) -> Vec<u32> {
    let mut slots: Vec<u32> = (0..SLOTS as u32).collect();
    for place in (1..SLOTS).rev() {
        slots.swap(place, random.below(place as u32 + 1) as usize);
    }
    slots.truncate(count);
    slots
}

fn open_slots(engine: &Engine) -> Vec<u32> {
    (0..SLOTS as u32).filter(|&slot| engine.look(slot, slot).refusal == 0).collect()
}

fn other_shadows(engine: &Engine, slot: u32) -> Vec<u32> {
    (0..SLOTS as u32).filter(|&other| other != slot && engine.look(slot, other).refusal == 0).collect()
}

fn any_slot(random: &mut Random) -> u32 {
    match random.below(10) {
        0 => random.pick(&[8, 9, 255, 256, 257, 0x8000_0000, u32::MAX]),
        _ => random.below(SLOTS as u32),
    }
}

fn meddle(random: &mut Random, current: &Store, size: u32) -> Event {
    match random.below(8) {
        0 => Event::SwitchArithmetic,
        1 => Event::Replace(store(random)),
        2 => Event::Replace(Store { log: !current.log, ..current.clone() }),
        3 | 4 => Event::Replace(scribbled(random, current)),
        _ => Event::Put(random.below(size + 1), random.word()),
    }
}

/// The same words with one changed, or one more or fewer of them. The first few are changed more often, since they make
/// a layout sound or not.
fn scribbled(random: &mut Random, current: &Store) -> Store {
    let mut scribbled = current.clone();
    let words = &mut scribbled.words;
    if words.is_empty() || random.chance(10) {
        words.push(random.word());
    } else if random.chance(10) {
        words.pop();
    } else {
        let count = words.len() as u32;
        let place = if random.chance(40) { random.below(count.min(3)) } else { random.below(count) };
        words[place as usize] = random.word();
    }
    scribbled
}
