//! A seeded generator, and what is drawn with it: scripts and stores, most of them fit and some damaged in known ways.

use crate::calls::Store;
use crate::engine::MAX_PAGES;

/// Splitmix64: a few lines, and the same numbers on every machine.
pub struct Random(u64);

impl Random {
    /// The generator for one list of a run. Each list has its own, so that none depends on those before it.
    pub fn for_list(seed: u64, list: u64) -> Self {
        let mut random = Random(seed);
        let start = random.next();
        Random(start ^ list.wrapping_mul(0xD1B5_4A32_D192_ED03))
    }

    fn next(&mut self) -> u64 {
        self.0 = self.0.wrapping_add(0x9E37_79B9_7F4A_7C15);
        let mixed = (self.0 ^ self.0 >> 30).wrapping_mul(0xBF58_476D_1CE4_E5B9);
        let mixed = (mixed ^ mixed >> 27).wrapping_mul(0x94D0_49BB_1331_11EB);
        mixed ^ mixed >> 31
    }

    pub fn any(&mut self) -> u32 {
        (self.next() >> 32) as u32
    }

    /// A number below a bound that is not 0.
    pub fn below(&mut self, bound: u32) -> u32 {
        ((u64::from(self.any()) * u64::from(bound)) >> 32) as u32
    }

    /// A number from low to high, both included.
    pub fn between(&mut self, low: u32, high: u32) -> u32 {
        low + self.below(high - low + 1)
    }

    pub fn chance(&mut self, percent: u32) -> bool {
        self.below(100) < percent
    }

    pub fn pick<T: Copy>(&mut self, choices: &[T]) -> T {
        choices[self.below(choices.len() as u32) as usize]
    }

    /// One of the choices, each as often as its weight says.
    pub fn weighted<T: Copy>(&mut self, choices: &[(u32, T)]) -> T {
        let mut left = self.below(choices.iter().map(|(weight, _)| weight).sum());
        for &(weight, choice) in choices {
            if left < weight {
                return choice;
            }
            left -= weight;
        }
        unreachable!("a number below the sum of the weights falls to one of them")
    }

    /// Mostly a small word, so that registers meet as equals and serve as indexes.
    pub fn word(&mut self) -> u32 {
        match self.below(10) {
            0 => self.any(),
            1 => u32::MAX - self.below(3),
            _ => self.below(8),
        }
    }
}

/// The actions of docs/SCRIPTS.md.
pub const READ: u8 = 0;
pub const READ_INDEXED: u8 = 1;
pub const WRITE: u8 = 2;
pub const WRITE_INDEXED: u8 = 3;
pub const SET: u8 = 4;
pub const COMBINE: u8 = 5;
pub const SKIP: u8 = 6;

/// A step as its code byte and its operand.
pub type CodedStep = (u8, u32);

pub fn step(action: u8, a: usize, b: usize, operand: u32) -> CodedStep {
    (action << 4 | (a as u8) << 2 | b as u8, operand)
}

pub fn encode(steps: &[CodedStep]) -> Vec<u8> {
    let mut bytes = vec![steps.len() as u8];
    bytes.extend(steps.iter().map(|&(code, _)| code));
    bytes.extend(steps.iter().flat_map(|&(_, operand)| operand.to_be_bytes()));
    bytes
}

/// The pages that scripts are drawn for: `hot` ones, on which they meet, of `size`.
#[derive(Clone, Copy)]
pub struct Ground {
    pub hot: u32,
    pub size: u32,
}

/// Draws the steps of one script.
struct Drafter<'a> {
    random: &'a mut Random,
    ground: Ground,
    /// Whether the script names pages now and then that are not there.
    strays: bool,
    /// How many steps are still to keep off the hot pages. A shadow that starts over has these to run before it comes
    /// to a page that is disputed.
    quiet: u32,
    /// What each register holds, where a set has just said so. An indexed step can then be aimed at a page.
    known: [Option<u32>; 4],
}

impl Drafter<'_> {
    fn register(&mut self) -> usize {
        self.random.below(4) as usize
    }

    fn page(&mut self) -> u32 {
        let Ground { hot, size } = self.ground;
        if self.strays && self.random.chance(20) {
            return self.random.pick(&[size, size + 1, MAX_PAGES as u32, u32::MAX]);
        }
        if self.quiet > 0 && hot < size {
            return self.random.between(hot, size - 1);
        }
        let bound = if self.random.chance(93) { hot.min(size) } else { size };
        self.random.below(bound.max(1))
    }

    /// A register and an operand that together come to a page: surely where the register is known, else by luck.
    fn index(&mut self) -> (usize, u32) {
        let drawn = self.register();
        let aimed = (0..4).map(|turn| (drawn + turn) % 4).find(|&register| self.known[register].is_some());
        let register = aimed.filter(|_| self.random.chance(60)).unwrap_or(drawn);
        match self.known[register] {
            Some(word) => (register, self.page().wrapping_sub(word)),
            None => (register, self.random.below(2)),
        }
    }

    /// A last step that writes shows what a register holds.
    fn action(&mut self, left: u32) -> u8 {
        const QUIET: [(u32, u8); 5] = [(10, READ), (5, READ_INDEXED), (2, SET), (4, COMBINE), (1, SKIP)];
        const ANY: [(u32, u8); 7] =
            [(24, READ), (9, READ_INDEXED), (20, WRITE), (8, WRITE_INDEXED), (14, SET), (17, COMBINE), (8, SKIP)];
        if self.quiet > 0 {
            self.random.weighted(&QUIET)
        } else if left == 0 && self.random.chance(50) {
            WRITE
        } else {
            self.random.weighted(&ANY)
        }
    }

    fn step(&mut self, left: u32) -> CodedStep {
        let (a, b) = (self.register(), self.register());
        let action = self.action(left);
        let drawn = match action {
            READ | WRITE => step(action, a, 0, self.page()),
            READ_INDEXED | WRITE_INDEXED => {
                let (b, operand) = self.index();
                step(action, a, b, operand)
            }
            COMBINE => step(COMBINE, a, b, self.random.below(3)),
            SKIP if left > 0 => {
                let most = if self.random.chance(80) { left.min(4) } else { left };
                step(SKIP, a, b, self.random.between(1, most))
            }
            _ => step(SET, a, 0, self.random.word()),
        };
        self.learn(a, drawn);
        drawn
    }

    /// Takes note of what register a holds after a step.
    fn learn(&mut self, a: usize, (code, operand): CodedStep) {
        match code >> 4 {
            READ | READ_INDEXED | COMBINE => self.known[a] = None,
            SET => self.known[a] = Some(operand),
            _ => {}
        }
        self.quiet = self.quiet.saturating_sub(1);
    }
}

fn fit_steps(random: &mut Random, ground: Ground, strays: bool) -> Vec<CodedStep> {
    let count = match random.below(10) {
        0 => random.pick(&[1, 15, 16]),
        1..=3 => random.between(6, 12),
        _ => random.between(2, 7),
    };
    let quiet = if random.chance(50) { random.between(1, 4).min(count - 1) } else { 0 };
    let mut drafter = Drafter { random, ground, strays, quiet, known: [Some(0); 4] };
    (1..=count).map(|number| drafter.step(count - number)).collect()
}

pub fn fit_script(random: &mut Random, ground: Ground, strays: bool) -> Vec<u8> {
    if random.chance(3) {
        return full_script(random, ground);
    }
    encode(&fit_steps(random, ground, strays))
}

/// Sixteen reads, or sixteen writes, of as many pages as there are: what a shadow has room for.
fn full_script(random: &mut Random, ground: Ground) -> Vec<u8> {
    let code = random.pick(&[READ, WRITE]);
    let steps: Vec<CodedStep> = (0..16).map(|number| step(code, number as usize % 4, 0, number % ground.size.max(1))).collect();
    encode(&steps)
}

/// Some steps off the hot pages, a read of a hot one, and a write of what they came to.
pub fn reading_script(random: &mut Random, ground: Ground) -> Vec<u8> {
    let quiet = random.between(1, 5);
    let mut drafter = Drafter { random, ground, strays: false, quiet, known: [Some(0); 4] };
    let mut steps: Vec<CodedStep> = (1..=quiet).map(|number| drafter.step(quiet - number)).collect();
    steps.push(step(READ, 3, 0, drafter.page()));
    steps.extend([0, 1, 2].map(|register| step(WRITE, register, 0, drafter.page())));
    encode(&steps)
}

/// Writes a page or two, soon.
pub fn writing_script(random: &mut Random, ground: Ground) -> Vec<u8> {
    let mut steps = vec![step(SET, 0, 0, random.word())];
    for _ in 0..random.between(1, 2) {
        let bound = if random.chance(70) { ground.hot.min(ground.size) } else { ground.size };
        steps.push(step(WRITE, 0, 0, random.below(bound.max(1))));
    }
    encode(&steps)
}

/// Bytes that are no script.
pub fn damaged_script(random: &mut Random, ground: Ground) -> Vec<u8> {
    let mut steps = fit_steps(random, ground, false);
    match random.below(10) {
        0 => Vec::new(),
        1 => encode(&[step(SET, 0, 0, 0); 17]),
        2 => {
            let mut bytes = encode(&steps);
            let longer = bytes.len() + random.between(1, 6) as usize;
            bytes.resize(longer, 0);
            bytes
        }
        3 => {
            let mut bytes = encode(&steps);
            bytes.truncate(random.between(1, bytes.len() as u32 - 1) as usize);
            bytes
        }
        4 => {
            let mut bytes = encode(&steps);
            let count = bytes[0];
            bytes[0] = random.pick(&[0, 17, 255, count - 1, count + 1, count + 16]);
            bytes
        }
        // Two bad steps, now and then, so that it counts which is the first.
        kind => {
            for _ in 0..if kind > 7 { 2 } else { 1 } {
                let place = random.below(steps.len() as u32) as usize;
                steps[place] = undefined_step(random, (steps.len() - 1 - place) as u32);
            }
            encode(&steps)
        }
    }
}

/// A step that is not defined. Some operands look fit to one who keeps only their low bits.
fn undefined_step(random: &mut Random, left: u32) -> CodedStep {
    let (a, b) = (random.below(4) as usize, random.below(4) as usize);
    match random.below(5) {
        0 => step(random.pick(&[READ, WRITE, SET]), a, random.between(1, 3) as usize, random.below(8)),
        1 => step(random.between(7, 15) as u8, a, b, random.below(8)),
        2 => step(COMBINE, a, b, random.pick(&[3, 4, 256, 0x0001_0001, u32::MAX])),
        3 => step(SKIP, a, b, random.pick(&[0, 16, 256, 257, 0x8000_0001, u32::MAX])),
        _ => step(SKIP, a, b, left + 1),
    }
}

/// Words for a store of some kind: mostly a few pages and sound.
pub fn store(random: &mut Random) -> Store {
    match random.below(100) {
        0..=49 => flat_store(random),
        50..=91 => Store { words: sound_log(random), log: true },
        _ => Store { words: damaged_log(random), log: true },
    }
}

fn some_words(random: &mut Random, count: u32) -> Vec<u32> {
    (0..count).map(|_| random.word()).collect()
}

fn few_pages(random: &mut Random) -> u32 {
    match random.below(20) {
        0 => random.below(2),
        1..=3 => random.between(9, 12),
        4 => random.between(16, 20),
        _ => random.between(2, 8),
    }
}

const MOST_PAGES: u32 = MAX_PAGES as u32;

fn flat_store(random: &mut Random) -> Store {
    let few = few_pages(random);
    let size = random.weighted(&[(97, few), (2, MOST_PAGES), (1, MOST_PAGES + 1)]);
    Store { words: some_words(random, size), log: false }
}

/// A layout of so many pages and entries; of those used some are likely to name the same page. What lies past them is
/// anything.
fn log_layout(random: &mut Random, size: u32, capacity: u32, used: u32) -> Vec<u32> {
    let mut words = vec![size, capacity, used];
    words.extend(some_words(random, size));
    words.extend((0..used).map(|_| random.below(size.max(1))));
    words.extend(some_words(random, capacity - used));
    words.extend(some_words(random, capacity));
    words
}

fn sound_log(random: &mut Random) -> Vec<u32> {
    let (few, entries) = (few_pages(random), random.between(1, 9));
    let (size, capacity) =
        random.weighted(&[(980, (few, entries)), (18, (MOST_PAGES, entries)), (2, (MOST_PAGES, MOST_PAGES))]);
    let some = random.between(0, capacity);
    let used = random.pick(&[0, capacity, some, some]);
    log_layout(random, size, capacity, if size == 0 { 0 } else { used })
}

/// A layout that breaks just one of the rules of docs/PAGES.md, where that can be.
fn damaged_log(random: &mut Random) -> Vec<u32> {
    let (size, capacity) = (random.between(1, 8), random.between(1, 6));
    let used = random.between(1, capacity);
    let mut words = log_layout(random, size, capacity, used);
    match random.below(16) {
        0 => return log_layout(random, MOST_PAGES + 1, capacity, used),
        1 => return log_layout(random, size, MOST_PAGES + 1, used),
        2 | 3 => words[0] = random.pick(&[size + 1, size - 1, MOST_PAGES + 1, u32::MAX, 0x8000_0000 | size]),
        4 | 5 => return log_layout(random, size, 0, 0),
        6 | 7 => words[2] = random.pick(&[capacity + 1, u32::MAX, 0x8000_0000 | used]),
        8..=10 => {
            let entry = random.below(used);
            words[(3 + size + entry) as usize] = random.pick(&[size, size + 1, u32::MAX]);
        }
        11 => words.push(0),
        12 => words.truncate(words.len() - 1),
        13 => words[1] = random.pick(&[capacity + 1, capacity - 1, u32::MAX]),
        _ => words.truncate(random.below(3) as usize),
    }
    words
}
