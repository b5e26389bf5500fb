//! A second engine, in plain Rust. Its rules are written from docs/ and include/gorsepick.h alone, without a look at the
//! proved one, so that where the two agree, two readings of the rules agree. Only how a log is cut and searched was worked
//! out for speed on both sides at once, and looks alike.
//!
//! It allocates nothing, keeps no store and no arithmetic, and takes the host's words anew at each call.
//!
//! Its own checks are from the runs that stand in docs/:
//!     rustc --edition 2021 --test tools/compare/main.rs -L target/staticlib -l static=linked -o target/checks && target/checks

pub const SLOTS: usize = 8;
pub const MAX_PAGES: usize = 4096;
pub const MAX_STEPS: usize = 16;
const MAX_ENTRIES: usize = 4096;
const REGISTERS: usize = 4;

/// What a turn answers.
pub const MOVED: usize = 0;
pub const ENDED: usize = 1;
pub const WAITING: usize = 2;

/// What a stand answers beside the step.
pub const AT_END: usize = 0;
pub const HALTED: usize = 1;
pub const READY: usize = 2;

/// The refusals that a host tells apart; all have their numbers in `Answer::from`.
pub const NOT_OPEN: u32 = 7;
pub const OFF_PAGES: u32 = 9;
pub const UNWRITABLE: u32 = 11;
pub const LAST_REFUSAL: usize = 11;

pub use crate::gorsepick::Answer;

/// The calls of include/gorsepick.h. Both engines answer them, so that a harness is written once.
pub trait Interface: Copy {
    fn fresh() -> Self;
    fn set_allowance(&mut self, allowance: u32) -> Answer;
    fn begin(&mut self, slot: u32, script: &[u8]) -> Answer;
    fn turn(&mut self, slot: u32, other: u32, words: &mut [u32], log: bool, flags: bool) -> Answer;
    fn commit(&mut self, slot: u32, words: &mut [u32], log: bool) -> Answer;
    fn abort(&mut self, slot: u32) -> Answer;
    fn stand(&mut self, slot: u32, other: u32) -> Answer;
    fn read_entry(&mut self, slot: u32, other: u32, index: usize) -> Answer;
    fn size(words: &mut [u32], log: bool) -> u32;
    fn read(words: &mut [u32], log: bool, page: u32, word: &mut u32, missing: &mut u32) -> bool;
    fn put(words: &mut [u32], log: bool, page: u32, word: u32, missing: &mut u32) -> bool;
}

/// Why a call is declined, with the values that are told.
#[derive(Clone, Copy)]
enum Refusal {
    NoSlot(u32),
    BadAllowance(u32),
    SlotsOpen(u32),
    AlreadyOpen(u32),
    Unfit(usize),
    Undefined(u32),
    NotOpen(u32),
    NoShadow(u32),
    OffPages { slot: u32, step: u32, page: u32 },
    NotEnded(u32),
    Unwritable { slot: u32, page: u32 },
}

impl Answer {
    fn new<const N: usize>(refusal: u32, told: [usize; N]) -> Self {
        let mut values = [0; 3];
        values[..N].copy_from_slice(&told);
        Answer { refusal, count: N as u32, values }
    }

    fn refused<const N: usize>(refusal: u32, told: [u32; N]) -> Self {
        Answer::new(refusal, told.map(|value| value as usize))
    }
}

impl From<Refusal> for Answer {
    fn from(refusal: Refusal) -> Self {
        match refusal {
            Refusal::NoSlot(slot) => Answer::refused(1, [slot]),
            Refusal::BadAllowance(allowance) => Answer::refused(2, [allowance]),
            Refusal::SlotsOpen(lowest) => Answer::refused(3, [lowest]),
            Refusal::AlreadyOpen(slot) => Answer::refused(4, [slot]),
            Refusal::Unfit(length) => Answer::new(5, [length]),
            Refusal::Undefined(step) => Answer::refused(6, [step]),
            Refusal::NotOpen(slot) => Answer::refused(NOT_OPEN, [slot]),
            Refusal::NoShadow(other) => Answer::refused(8, [other]),
            Refusal::OffPages { slot, step, page } => Answer::refused(OFF_PAGES, [slot, step, page]),
            Refusal::NotEnded(step) => Answer::refused(10, [step]),
            Refusal::Unwritable { slot, page } => Answer::refused(UNWRITABLE, [slot, page]),
        }
    }
}

fn answered<const N: usize>(outcome: Result<[usize; N], Refusal>) -> Answer {
    match outcome {
        Ok(values) => Answer::new(0, values),
        Err(refusal) => refusal.into(),
    }
}

/// The arithmetic that `flags` names. A decoded combine has no operation above 2.
fn combine(flags: bool, operation: u32, a: u32, b: u32) -> u32 {
    match (flags, operation) {
        (false, 0) => a.wrapping_add(b),
        (false, 1) => a.wrapping_sub(b),
        (false, _) => a.max(b),
        (true, 0) => a & b,
        (true, 1) => a | b,
        (true, _) => a ^ b,
    }
}

/// The store that a call is handed. A flat store of too many words is kept as one of none.
enum Pages<'a> {
    Flat(&'a mut [u32]),
    Log(Log<'a>),
}

impl<'a> Pages<'a> {
    fn over(words: &'a mut [u32], log: bool) -> Self {
        if log {
            Pages::Log(Log::cut(words).unwrap_or_default())
        } else if words.len() <= MAX_PAGES {
            Pages::Flat(words)
        } else {
            Pages::Flat(&mut [])
        }
    }

    fn size(&self) -> u32 {
        match self {
            Pages::Flat(words) => words.len() as u32,
            Pages::Log(log) => log.base.len() as u32,
        }
    }

    fn read(&self, page: u32) -> Option<u32> {
        match self {
            Pages::Flat(words) => words.get(page as usize).copied(),
            Pages::Log(log) => log.read(page),
        }
    }

    fn put(&mut self, page: u32, word: u32) -> bool {
        match self {
            Pages::Flat(words) => words.get_mut(page as usize).map(|place| *place = word).is_some(),
            Pages::Log(log) => log.put(page, word),
        }
    }
}

/// A log store, cut into its parts. Over unsound words all parts are empty, so that its size is 0 and nothing is put.
#[derive(Default)]
struct Log<'a> {
    header: &'a mut [u32],
    base: &'a mut [u32],
    pages: &'a mut [u32],
    words: &'a mut [u32],
}

/// The header's words: N, C and U.
const HEADER: usize = 3;
const USED: usize = 2;

impl<'a> Log<'a> {
    /// The parts of sound words.
    fn cut(words: &'a mut [u32]) -> Option<Self> {
        let &mut [size, capacity, used, ..] = words else { return None };
        let (size, capacity, used) = (size as usize, capacity as usize, used as usize);
        let bounded = size <= MAX_PAGES && (1..=MAX_ENTRIES).contains(&capacity) && used <= capacity;
        if !bounded || words.len() != HEADER + size + 2 * capacity {
            return None;
        }
        let (header, rest) = words.split_at_mut(HEADER);
        let (base, rest) = rest.split_at_mut(size);
        let (pages, words) = rest.split_at_mut(capacity);
        // All used entries are looked at, also past a bad one: without an early way out the loop goes many at a time.
        let named = pages[..used].iter().fold(true, |named, &page| named & ((page as usize) < size));
        named.then_some(Log { header, base, pages, words })
    }

    fn used(&self) -> usize {
        self.header[USED] as usize
    }

    fn read(&self, page: u32) -> Option<u32> {
        let base = *self.base.get(page as usize)?;
        let latest = self.pages[..self.used()].iter().rposition(|&named| named == page);
        Some(latest.map_or(base, |entry| self.words[entry]))
    }

    fn put(&mut self, page: u32, word: u32) -> bool {
        if page as usize >= self.base.len() {
            return false;
        }
        if self.used() == self.pages.len() {
            self.carry();
        }
        let entry = self.used();
        self.pages[entry] = page;
        self.words[entry] = word;
        self.header[USED] += 1;
        true
    }

    /// Carries a full log into the base words, in order, so that later entries win. Entries keep what they hold.
    fn carry(&mut self) {
        let count = if cfg!(plant = "carry-leaves-one") { self.pages.len() - 1 } else { self.pages.len() };
        for (&page, &word) in self.pages.iter().zip(self.words.iter()).take(count) {
            self.base[page as usize] = word;
        }
        self.header[USED] = 0;
    }
}

/// Whether words are a sound layout of a log store.
pub fn is_sound(words: &mut [u32]) -> bool {
    Log::cut(words).is_some()
}

#[derive(Clone, Copy)]
enum Action {
    Read,
    ReadIndexed,
    Write,
    WriteIndexed,
    Set,
    Combine,
    Skip,
}

#[derive(Clone, Copy)]
struct Step {
    action: Action,
    a: u8,
    b: u8,
    operand: u32,
}

impl Step {
    const NONE: Step = Step { action: Action::Set, a: 0, b: 0, operand: 0 };

    /// The step with this code and operand, where it is defined; `left` steps come after it.
    fn decode(code: u8, operand: u32, left: usize) -> Option<Step> {
        let action = match code >> 4 {
            0 => Action::Read,
            1 => Action::ReadIndexed,
            2 => Action::Write,
            3 => Action::WriteIndexed,
            4 => Action::Set,
            5 => Action::Combine,
            6 => Action::Skip,
            _ => return None,
        };
        let (a, b) = (code >> 2 & 3, code & 3);
        let defined = match action {
            Action::Read | Action::Write | Action::Set => b == 0,
            Action::ReadIndexed | Action::WriteIndexed => true,
            Action::Combine => operand <= 2,
            // No bound of 15 is needed besides: at most 15 steps are left.
            Action::Skip => operand >= 1 && operand as usize <= left,
        };
        defined.then_some(Step { action, a, b, operand })
    }
}

#[derive(Clone, Copy)]
struct Script {
    length: u8,
    steps: [Step; MAX_STEPS],
}

impl Script {
    const NONE: Script = Script { length: 0, steps: [Step::NONE; MAX_STEPS] };

    fn decode(bytes: &[u8]) -> Result<Script, Refusal> {
        let unfit = Refusal::Unfit(bytes.len());
        let (&length, rest) = bytes.split_first().ok_or(unfit)?;
        let count = usize::from(length);
        if !(1..=MAX_STEPS).contains(&count) || rest.len() != 5 * count {
            return Err(unfit);
        }
        let (codes, operands) = rest.split_at(count);
        let (operands, _) = operands.as_chunks::<4>();
        let mut script = Script { length, ..Script::NONE };
        for (number, (&code, &operand)) in codes.iter().zip(operands).enumerate() {
            let step = Step::decode(code, u32::from_be_bytes(operand), count - 1 - number);
            script.steps[number] = step.ok_or(Refusal::Undefined(number as u32))?;
        }
        Ok(script)
    }
}

/// Whether bytes are a script.
pub fn is_script(bytes: &[u8]) -> bool {
    Script::decode(bytes).is_ok()
}

/// What a step comes to from where a shadow stands. It is worked out before anything changes, so that a step for a page
/// that is not there leaves no trace, and accounting can come between.
#[derive(Clone, Copy)]
enum Effect {
    /// A store read: register a takes the word, and the page is recorded.
    StoreRead { page: u32, word: u32 },
    /// Register a takes the word: a read from the own list, a set or a combine.
    Takes(u32),
    /// The page takes register a.
    Write { page: u32 },
    /// So many of the next steps are left out.
    LeavesOut(u8),
}

/// Where a run of a script stands. Pages stand apart from steps and words, since it is pages that are searched.
#[derive(Clone, Copy)]
struct Shadow {
    step: u8,
    read_count: u8,
    write_count: u8,
    read_steps: [u8; MAX_STEPS],
    registers: [u32; REGISTERS],
    read_pages: [u32; MAX_STEPS],
    written_pages: [u32; MAX_STEPS],
    written_words: [u32; MAX_STEPS],
}

impl Shadow {
    const START: Shadow = Shadow {
        step: 0,
        read_count: 0,
        write_count: 0,
        read_steps: [0; MAX_STEPS],
        registers: [0; REGISTERS],
        read_pages: [0; MAX_STEPS],
        written_pages: [0; MAX_STEPS],
        written_words: [0; MAX_STEPS],
    };

    fn read_pages(&self) -> &[u32] {
        &self.read_pages[..usize::from(self.read_count)]
    }

    fn written_pages(&self) -> &[u32] {
        &self.written_pages[..usize::from(self.write_count)]
    }

    /// The own list, in order of first write.
    fn writes(&self) -> impl Iterator<Item = (u32, u32)> + '_ {
        self.written_pages().iter().copied().zip(self.written_words)
    }

    fn has_read(&self, page: u32) -> bool {
        self.read_pages().contains(&page)
    }

    fn has_read_any(&self, pages: &[u32]) -> bool {
        pages.iter().any(|&page| self.has_read(page))
    }

    fn has_written(&self, page: u32) -> bool {
        self.written_pages().contains(&page)
    }

    fn written(&self, page: u32) -> Option<u32> {
        let place = self.written_pages().iter().position(|&written| written == page)?;
        Some(self.written_words[place])
    }

    fn register(&self, number: u8) -> u32 {
        self.registers[usize::from(number) % REGISTERS]
    }

    fn indexed(&self, step: Step) -> u32 {
        step.operand.wrapping_add(self.register(step.b))
    }

    /// The page that a step reads, from the store or from the own list.
    fn page_read(&self, step: Step) -> Option<u32> {
        match step.action {
            Action::Read => Some(step.operand),
            Action::ReadIndexed => Some(self.indexed(step)),
            _ => None,
        }
    }

    /// What the step comes to, or the page that is not there.
    fn effect(&self, step: Step, pages: &Pages, flags: bool) -> Result<Effect, u32> {
        match step.action {
            Action::Read => self.read(step.operand, pages),
            Action::ReadIndexed => self.read(self.indexed(step), pages),
            Action::Write => Self::write(step.operand, pages),
            Action::WriteIndexed => Self::write(self.indexed(step), pages),
            Action::Set => Ok(Effect::Takes(step.operand)),
            Action::Combine => {
                let (a, b) = (self.register(step.a), self.register(step.b));
                Ok(Effect::Takes(combine(flags, step.operand, a, b)))
            }
            Action::Skip => {
                let equal = self.register(step.a) == self.register(step.b);
                Ok(Effect::LeavesOut(if equal { step.operand as u8 } else { 0 }))
            }
        }
    }

    fn read(&self, page: u32, pages: &Pages) -> Result<Effect, u32> {
        match self.written(page) {
            Some(word) => Ok(Effect::Takes(word)),
            None => pages.read(page).map(|word| Effect::StoreRead { page, word }).ok_or(page),
        }
    }

    fn write(page: u32, pages: &Pages) -> Result<Effect, u32> {
        if page < pages.size() {
            Ok(Effect::Write { page })
        } else {
            Err(page)
        }
    }

    fn take(&mut self, step: Step, effect: Effect) {
        let a = usize::from(step.a) % REGISTERS;
        let mut left_out = 0;
        match effect {
            Effect::StoreRead { page, word } => {
                self.record_read(page);
                self.registers[a] = word;
            }
            Effect::Takes(word) => self.registers[a] = word,
            Effect::Write { page } => self.record_write(page, self.registers[a]),
            Effect::LeavesOut(count) => left_out = count,
        }
        self.step += 1 + left_out;
    }

    fn record_read(&mut self, page: u32) {
        let place = usize::from(self.read_count);
        self.read_steps[place] = self.step;
        self.read_pages[place] = page;
        self.read_count += u8::from(!(cfg!(plant = "no-sixteenth-read") && place == MAX_STEPS - 1));
    }

    fn record_write(&mut self, page: u32, word: u32) {
        let first = self.written_pages().iter().position(|&written| written == page);
        if cfg!(plant = "no-sixteenth-write") && first.is_none() && usize::from(self.write_count) == MAX_STEPS - 1 {
            return;
        }
        let place = first.unwrap_or_else(|| {
            self.write_count += 1;
            usize::from(self.write_count) - 1
        });
        self.written_pages[place] = page;
        self.written_words[place] = word;
    }
}

/// Sets of slots are bits of a byte.
fn bit(slot: usize) -> u8 {
    1 << slot
}

/// The slots of a set, in rising order.
fn slots_of(mut set: u8) -> impl Iterator<Item = usize> {
    std::iter::from_fn(move || {
        let lowest = set.trailing_zeros() as usize;
        set &= set.wrapping_sub(1);
        (lowest < SLOTS).then_some(lowest)
    })
}

/// A slot: its script, and its shadows with the set of those that are there. The one at the slot's own place leads.
#[derive(Clone, Copy)]
struct Row {
    script: Script,
    present: u8,
    shadows: [Shadow; SLOTS],
}

impl Row {
    const CLOSED: Row = Row { script: Script::NONE, present: 0, shadows: [Shadow::START; SLOTS] };

    fn has(&self, other: usize) -> bool {
        self.present & bit(other) != 0
    }

    /// The shadows that have read none of these pages.
    fn untouched_by(&self, pages: &[u32]) -> u8 {
        let clean = slots_of(self.present).filter(|&other| !self.shadows[other].has_read_any(pages));
        clean.fold(0, |set, other| set | bit(other))
    }

    /// The furthest of some shadows. The leading one is looked at first and then the others in rising order, and only a
    /// higher step takes the lead over, so that among equals the rule's first one stays.
    fn furthest(&self, slot: usize, among: u8) -> Option<usize> {
        let leading = slots_of(among & bit(slot));
        let others = slots_of(among & !bit(slot));
        let is_further = |next: usize, best: usize| {
            let (next, best) = (self.shadows[next].step, self.shadows[best].step);
            next > best || (cfg!(plant = "last-of-equals") && next == best)
        };
        leading.chain(others).reduce(|best, next| if is_further(next, best) { next } else { best })
    }

    /// Makes the shadow at a place a copy of another, or a start.
    fn fork(&mut self, place: usize, from: Option<usize>) {
        match from {
            Some(from) => self.shadows.copy_within(from..=from, place),
            None => self.shadows[place] = Shadow::START,
        }
        self.present |= bit(place);
    }

    /// Drops the shadows that have read a replaced page. Where the leading one goes, the furthest that remains leads.
    fn renew(&mut self, slot: usize, replaced: &[u32]) -> Spoils {
        let clean = self.untouched_by(replaced);
        self.present = if cfg!(plant = "only-leads-dropped") { self.present & (clean | !bit(slot)) } else { clean };
        if self.has(slot) {
            return Spoils::default();
        }
        self.fork(slot, self.furthest(slot, self.present));
        Spoils { spoiled: 1, taken_over: u32::from(self.shadows[slot].step > 0) }
    }
}

/// What a commit did to the other slots, which no answer tells: how many were spoiled, and for how many of those a
/// shadow past step 0 took over.
#[derive(Clone, Copy, Default)]
pub struct Spoils {
    pub spoiled: u32,
    pub taken_over: u32,
}

impl std::ops::AddAssign for Spoils {
    fn add_assign(&mut self, more: Spoils) {
        self.spoiled += more.spoiled;
        self.taken_over += more.taken_over;
    }
}

#[derive(Clone, Copy)]
pub struct Engine {
    allowance: u8,
    open: u8,
    rows: [Row; SLOTS],
}

fn slot_from(number: u32) -> Result<usize, Refusal> {
    if (number as usize) < SLOTS {
        Ok(number as usize)
    } else {
        Err(Refusal::NoSlot(number))
    }
}

impl Engine {
    fn is_open(&self, slot: usize) -> bool {
        self.open & bit(slot) != 0
    }

    fn leading(&self, slot: usize) -> &Shadow {
        &self.rows[slot].shadows[slot]
    }

    fn find_open(&self, number: u32) -> Result<usize, Refusal> {
        let slot = slot_from(number)?;
        if self.is_open(slot) {
            Ok(slot)
        } else {
            Err(Refusal::NotOpen(number))
        }
    }

    /// The shadow that a turn or a question names. Both numbers are looked at before the slot is.
    fn find_shadow(&self, slot: u32, other: u32) -> Result<(usize, usize), Refusal> {
        slot_from(slot)?;
        let place = slot_from(other)?;
        let slot = self.find_open(slot)?;
        if self.rows[slot].has(place) {
            Ok((slot, place))
        } else {
            Err(Refusal::NoShadow(other))
        }
    }

    /// What the shadow's next turn would find.
    fn standing(&self, slot: usize, other: usize) -> usize {
        if slot != other {
            return if self.waits(slot, other) { HALTED } else { READY };
        }
        let row = &self.rows[slot];
        if row.shadows[slot].step >= row.script.length {
            AT_END
        } else {
            READY
        }
    }

    /// The leading shadow's step is looked at first: a shadow before it is before the end, so it has a next step.
    fn waits(&self, slot: usize, other: usize) -> bool {
        let row = &self.rows[slot];
        let shadow = &row.shadows[other];
        if shadow.step >= row.shadows[slot].step {
            return true;
        }
        let next = row.script.steps[usize::from(shadow.step)];
        let page = shadow.page_read(next);
        let from_store = |page| cfg!(plant = "waits-for-own") || !shadow.has_written(page);
        page.is_some_and(|page| from_store(page) && self.leading(other).has_written(page))
    }

    fn account(&mut self, slot: usize, other: usize) {
        let row = &self.rows[slot];
        let most = u32::from(self.allowance) + u32::from(cfg!(plant = "one-shadow-more"));
        if !row.has(other) && row.present.count_ones() >= most {
            return;
        }
        let clean = row.untouched_by(self.leading(other).written_pages());
        let furthest = row.furthest(slot, clean);
        self.rows[slot].fork(other, furthest);
    }

    /// Before the slot's leading shadow reads the page. The slot itself has its leading shadow and falls out so.
    fn account_before_read(&mut self, slot: usize, page: u32) {
        for other in slots_of(self.open & !self.rows[slot].present) {
            if self.leading(other).has_written(page) {
                self.account(slot, other);
            }
        }
    }

    /// After the slot's leading shadow has written the page.
    fn account_after_write(&mut self, slot: usize, page: u32) {
        for reader in slots_of(self.open & !bit(slot)) {
            let row = &self.rows[reader];
            let guessed = row.has(slot) && (cfg!(plant = "no-second-fork") || !row.shadows[slot].has_read(page));
            if !guessed && self.leading(reader).has_read(page) {
                self.account(reader, slot);
            }
        }
    }

    fn allow(&mut self, allowance: u32) -> Result<[usize; 0], Refusal> {
        if allowance == 0 || allowance as usize > SLOTS {
            return Err(Refusal::BadAllowance(allowance));
        }
        if let Some(lowest) = slots_of(self.open).next() {
            return Err(Refusal::SlotsOpen(lowest as u32));
        }
        self.allowance = if cfg!(plant = "seven-for-eight") { allowance.min(7) as u8 } else { allowance as u8 };
        Ok([])
    }

    fn open(&mut self, number: u32, bytes: &[u8]) -> Result<[usize; 0], Refusal> {
        let slot = slot_from(number)?;
        if self.is_open(slot) {
            return Err(Refusal::AlreadyOpen(number));
        }
        let row = &mut self.rows[slot];
        row.script = Script::decode(bytes)?;
        row.fork(slot, None);
        self.open |= bit(slot);
        Ok([])
    }

    fn take_turn(&mut self, number: u32, other: u32, pages: &Pages, flags: bool) -> Result<[usize; 1], Refusal> {
        let (slot, other) = self.find_shadow(number, other)?;
        match self.standing(slot, other) {
            AT_END => return Ok([ENDED]),
            HALTED => return Ok([WAITING]),
            _ => {}
        }
        let row = &self.rows[slot];
        let shadow = &row.shadows[other];
        let step = row.script.steps[usize::from(shadow.step)];
        let effect = shadow.effect(step, pages, flags);
        let off_pages = |page| Refusal::OffPages { slot: number, step: u32::from(shadow.step), page };
        let effect = effect.map_err(off_pages)?;
        let leads = slot == other;
        if cfg!(plant = "forks-after-read") {
            self.rows[slot].shadows[other].take(step, effect);
        }
        match effect {
            Effect::StoreRead { page, .. } if leads => self.account_before_read(slot, page),
            _ => {}
        }
        if !cfg!(plant = "forks-after-read") {
            self.rows[slot].shadows[other].take(step, effect);
        }
        match effect {
            Effect::Write { page } if leads => self.account_after_write(slot, page),
            _ => {}
        }
        Ok([MOVED])
    }

    fn commit_slot(&mut self, number: u32, pages: &mut Pages) -> Result<([usize; 2], Spoils), Refusal> {
        let slot = self.find_open(number)?;
        let leading = self.leading(slot);
        if leading.step < self.rows[slot].script.length {
            return Err(Refusal::NotEnded(u32::from(leading.step)));
        }
        let size = pages.size();
        if let Some(&page) = leading.written_pages().iter().find(|&&page| page >= size) {
            return Err(Refusal::Unwritable { slot: number, page });
        }
        for (page, word) in leading.writes() {
            pages.put(page, word);
        }
        let answer = [leading.registers[0] as usize, usize::from(leading.write_count)];
        let spoils = self.renew_others(slot);
        self.close(slot);
        Ok((answer, spoils))
    }

    fn renew_others(&mut self, slot: usize) -> Spoils {
        let mut spoils = Spoils::default();
        // One shadow is copied, since the rows beside it change while its list is read.
        let leading = *self.leading(slot);
        let replaced = leading.written_pages();
        for reader in slots_of(self.open & !bit(slot)) {
            spoils += self.rows[reader].renew(reader, replaced);
        }
        spoils
    }

    /// Closes the slot. Its shadows go, and every shadow for it.
    fn close(&mut self, slot: usize) {
        self.open &= !bit(slot);
        self.rows[slot].present = 0;
        for row in &mut self.rows {
            row.present &= !bit(slot);
        }
    }

    fn abort_slot(&mut self, number: u32) -> Result<[usize; 0], Refusal> {
        let slot = self.find_open(number)?;
        self.close(slot);
        Ok([])
    }

    fn tell_stand(&self, slot: u32, other: u32) -> Result<[usize; 2], Refusal> {
        let (slot, other) = self.find_shadow(slot, other)?;
        let step = self.rows[slot].shadows[other].step;
        Ok([usize::from(step), self.standing(slot, other)])
    }

    fn tell_read(&self, slot: u32, other: u32, index: usize) -> Result<Option<[usize; 2]>, Refusal> {
        let (slot, other) = self.find_shadow(slot, other)?;
        let shadow = &self.rows[slot].shadows[other];
        let page = shadow.read_pages().get(index);
        Ok(page.map(|&page| [usize::from(shadow.read_steps[index]), page as usize]))
    }

    /// The answer to stand, for a plan that only looks.
    pub fn look(&self, slot: u32, other: u32) -> Answer {
        answered(self.tell_stand(slot, other))
    }

    /// A commit that also tells what became of the other slots.
    pub fn commit_telling(&mut self, slot: u32, words: &mut [u32], log: bool) -> (Answer, Spoils) {
        match self.commit_slot(slot, &mut Pages::over(words, log)) {
            Ok((values, spoils)) => (Answer::new(0, values), spoils),
            Err(refusal) => (refusal.into(), Spoils::default()),
        }
    }
}

/// Nothing here is inlined into a host, so that both engines are called alike.
impl Interface for Engine {
    #[inline(never)]
    fn fresh() -> Self {
        Engine { allowance: 2, open: 0, rows: [Row::CLOSED; SLOTS] }
    }

    #[inline(never)]
    fn set_allowance(&mut self, allowance: u32) -> Answer {
        answered(self.allow(allowance))
    }

    #[inline(never)]
    fn begin(&mut self, slot: u32, script: &[u8]) -> Answer {
        answered(self.open(slot, script))
    }

    #[inline(never)]
    fn turn(&mut self, slot: u32, other: u32, words: &mut [u32], log: bool, flags: bool) -> Answer {
        answered(self.take_turn(slot, other, &Pages::over(words, log), flags))
    }

    #[inline(never)]
    fn commit(&mut self, slot: u32, words: &mut [u32], log: bool) -> Answer {
        self.commit_telling(slot, words, log).0
    }

    #[inline(never)]
    fn abort(&mut self, slot: u32) -> Answer {
        answered(self.abort_slot(slot))
    }

    #[inline(never)]
    fn stand(&mut self, slot: u32, other: u32) -> Answer {
        self.look(slot, other)
    }

    #[inline(never)]
    fn read_entry(&mut self, slot: u32, other: u32, index: usize) -> Answer {
        match self.tell_read(slot, other, index) {
            Ok(Some(values)) => Answer::new(0, values),
            Ok(None) => Answer::new(0, []),
            Err(refusal) => refusal.into(),
        }
    }

    #[inline(never)]
    fn size(words: &mut [u32], log: bool) -> u32 {
        Pages::over(words, log).size()
    }

    #[inline(never)]
    fn read(words: &mut [u32], log: bool, page: u32, word: &mut u32, missing: &mut u32) -> bool {
        let found = Pages::over(words, log).read(page);
        match found {
            Some(found) => *word = found,
            None => *missing = page,
        }
        found.is_some()
    }

    #[inline(never)]
    fn put(words: &mut [u32], log: bool, page: u32, word: u32, missing: &mut u32) -> bool {
        let there = Pages::over(words, log).put(page, word);
        if !there {
            *missing = if cfg!(plant = "put-tells-word") { word } else { page };
        }
        there
    }
}

#[cfg(test)]
mod tests {
    use super::*;

    /// Adds 5 to page 0; adds pages 1 and 0 and puts the sum to page 2 (docs/PROGRAM.md).
    const A: &str = "04 00 44 51 20 00000000 00000005 00000000 00000000";
    const B: &str = "04 00 04 51 20 00000001 00000000 00000000 00000002";

    fn bytes(text: &str) -> Vec<u8> {
        let digits: String = text.split_whitespace().collect();
        (0..digits.len()).step_by(2).map(|at| u8::from_str_radix(&digits[at..at + 2], 16).unwrap()).collect()
    }

    fn accepted<const N: usize>(values: [usize; N]) -> Answer {
        Answer::new(0, values)
    }

    fn decoded(text: &str) -> Answer {
        Engine::fresh().begin(0, &bytes(text))
    }

    fn lead(engine: &mut Engine, slot: u32, words: &mut [u32], turns: usize) {
        for _ in 0..turns {
            assert_eq!(engine.turn(slot, slot, words, false, false), accepted([MOVED]));
        }
    }

    #[test]
    fn a_shadow_takes_over() {
        let mut engine = Engine::fresh();
        let mut words = [10, 20, 30];
        assert_eq!(engine.begin(0, &bytes(A)), accepted([]));
        assert_eq!(engine.begin(1, &bytes(B)), accepted([]));
        lead(&mut engine, 0, &mut words, 4);
        lead(&mut engine, 1, &mut words, 3);
        assert_eq!(engine.stand(1, 0), accepted([1, HALTED]));
        assert_eq!(engine.turn(1, 0, &mut words, false, false), accepted([WAITING]));
        let (answer, spoils) = engine.commit_telling(0, &mut words, false);
        assert_eq!(answer, accepted([15, 1]));
        assert_eq!((spoils.spoiled, spoils.taken_over), (1, 1));
        assert_eq!(engine.stand(1, 1), accepted([1, READY]));
        assert_eq!(engine.read_entry(1, 1, 0), accepted([0, 1]));
        assert_eq!(engine.read_entry(1, 1, 1), accepted([]));
        assert_eq!(engine.stand(1, 0), Answer::new(8, [0]));
        lead(&mut engine, 1, &mut words, 3);
        assert_eq!(engine.turn(1, 1, &mut words, false, false), accepted([ENDED]));
        assert_eq!(engine.commit(1, &mut words, false), accepted([35, 1]));
        assert_eq!(words, [15, 20, 35]);
    }

    #[test]
    fn the_other_history_is_as_good() {
        let mut engine = Engine::fresh();
        let mut words = [10, 20, 30];
        engine.begin(0, &bytes(A));
        engine.begin(1, &bytes(B));
        lead(&mut engine, 0, &mut words, 4);
        lead(&mut engine, 1, &mut words, 4);
        assert_eq!(engine.commit(1, &mut words, false), accepted([30, 1]));
        assert_eq!(engine.commit(0, &mut words, false), accepted([15, 1]));
        assert_eq!(words, [15, 20, 30]);
    }

    #[test]
    fn without_room_a_transaction_starts_over() {
        let mut engine = Engine::fresh();
        let mut words = [10, 20, 30];
        assert_eq!(engine.set_allowance(1), accepted([]));
        engine.begin(0, &bytes(A));
        engine.begin(1, &bytes(B));
        lead(&mut engine, 0, &mut words, 4);
        lead(&mut engine, 1, &mut words, 4);
        assert_eq!(engine.stand(1, 0), Answer::new(8, [0]));
        let (_, spoils) = engine.commit_telling(0, &mut words, false);
        assert_eq!((spoils.spoiled, spoils.taken_over), (1, 0));
        assert_eq!(engine.stand(1, 1), accepted([0, READY]));
    }

    #[test]
    fn a_write_calls_for_accounting() {
        let mut engine = Engine::fresh();
        let mut words = [10, 20, 30];
        engine.begin(0, &bytes(A));
        engine.begin(1, &bytes(B));
        lead(&mut engine, 1, &mut words, 2);
        lead(&mut engine, 0, &mut words, 3);
        assert_eq!(engine.stand(1, 0), Answer::new(8, [0]));
        lead(&mut engine, 0, &mut words, 1);
        assert_eq!(engine.stand(1, 0), accepted([0, READY]));
        assert_eq!(engine.turn(1, 0, &mut words, false, false), accepted([MOVED]));
        assert_eq!(engine.stand(1, 0), accepted([1, HALTED]));
    }

    #[test]
    fn refusals_go_down_the_table() {
        let mut engine = Engine::fresh();
        let mut words = [7];
        assert_eq!(engine.set_allowance(9), Answer::new(2, [9]));
        assert_eq!(engine.begin(8, &[]), Answer::new(1, [8]));
        assert_eq!(engine.turn(3, 9, &mut words, false, false), Answer::new(1, [9]));
        assert_eq!(engine.turn(3, 4, &mut words, false, false), Answer::new(NOT_OPEN, [3]));
        engine.begin(3, &bytes(A));
        assert_eq!(engine.begin(3, &[]), Answer::new(4, [3]));
        assert_eq!(engine.set_allowance(4), Answer::new(3, [3]));
        assert_eq!(engine.set_allowance(0), Answer::new(2, [0]));
        assert_eq!(engine.turn(3, 4, &mut words, false, false), Answer::new(8, [4]));
        assert_eq!(engine.turn(3, 3, &mut [], false, false), Answer::new(OFF_PAGES, [3, 0, 0]));
        assert_eq!(engine.commit(3, &mut words, false), Answer::new(10, [0]));
        lead(&mut engine, 3, &mut words, 4);
        assert_eq!(engine.commit(3, &mut [], false), Answer::new(UNWRITABLE, [3, 0]));
        assert_eq!(engine.abort(3), accepted([]));
        assert_eq!(engine.abort(3), Answer::new(NOT_OPEN, [3]));
    }

    #[test]
    fn scripts_are_decoded() {
        let mut seventeen_sets = vec![17];
        seventeen_sets.extend([0x40; 17]);
        seventeen_sets.extend([0; 68]);
        assert_eq!(Engine::fresh().begin(0, &seventeen_sets), Answer::new(5, [86]));
        assert_eq!(decoded(""), Answer::new(5, [0]));
        assert_eq!(decoded("01 60 00000001"), Answer::new(6, [0]));
        assert_eq!(decoded("02 60 40 00000001 00000000"), accepted([]));
        assert_eq!(decoded("02 60 40 00000002 00000000"), Answer::new(6, [0]));
        assert_eq!(decoded("02 40 60 00000000 00000000"), Answer::new(6, [1]));
        assert_eq!(decoded("01 41 00000000"), Answer::new(6, [0]));
        assert_eq!(decoded("01 50 00000003"), Answer::new(6, [0]));
        assert_eq!(decoded("01 7F 00000000"), Answer::new(6, [0]));
        assert_eq!(decoded("01 0C FFFFFFFF"), accepted([]));
    }

    #[test]
    fn the_log_is_carried_when_full() {
        let mut words = [1, 1, 1, 5, 0, 9];
        let (mut word, mut missing) = (0, 5);
        assert!(Engine::read(&mut words, true, 0, &mut word, &mut missing));
        assert_eq!((word, missing), (9, 5));
        assert!(Engine::put(&mut words, true, 0, 7, &mut missing));
        assert_eq!((words, missing), ([1, 1, 1, 9, 0, 7], 5));
        assert!(!Engine::put(&mut words, true, 1, 7, &mut missing));
        assert_eq!((words, missing), ([1, 1, 1, 9, 0, 7], 1));
    }

    #[test]
    fn unsound_words_are_no_pages() {
        let unsound: [&[u32]; 8] = [
            &[],
            &[0, 1],
            &[4097, 1, 0],
            &[1, 0, 0, 5],
            &[1, 1, 2, 5, 0, 9],
            &[1, 1, 1, 5, 1, 9],
            &[1, 1, 1, 5, 0, 9, 0],
            &[u32::MAX, u32::MAX, 0, 5],
        ];
        for words in unsound {
            assert_eq!(Engine::size(&mut words.to_vec(), true), 0, "{words:?}");
        }
        assert_eq!(Engine::size(&mut [1, 1, 0, 5, 1, 9], true), 1);
        assert_eq!(Engine::size(&mut [0; 4096], false), 4096);
        assert_eq!(Engine::size(&mut [0; 4097], false), 0);
    }

    #[test]
    fn arithmetics_keep_the_order_of_words() {
        assert_eq!(combine(false, 1, 0, 1), u32::MAX);
        assert_eq!(combine(false, 1, 1, 0), 1);
        assert_eq!(combine(false, 0, u32::MAX, 2), 1);
        assert_eq!(combine(false, 2, 3, 7), 7);
        assert_eq!([0, 1, 2].map(|operation| combine(true, operation, 12, 10)), [8, 14, 6]);
    }
}
