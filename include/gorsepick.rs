//! Gorsepick for a host in Rust: the functions of include/gorsepick.h, with wrappers that hand a slice over as its pointer
//! and length. A slice is never null, no other pointer leads to its memory during the call, and a bool is true or false; so
//! safe code that keeps to these wrappers keeps to all that the header asks of a host, once `check_version` has passed.
#![allow(dead_code)]

/// GORSEPICK_ENGINE_WORDS of the header.
const ENGINE_WORDS: usize = 2514;

/// An engine's memory: eight slots with their scripts and shadows. A plain value, and so is a copy of it.
#[repr(C)]
#[derive(Clone, Copy)]
pub struct Engine {
    words: [u64; ENGINE_WORDS],
}

/// The engine of the header: where it lies.
#[repr(C)]
struct Handle {
    at: *mut Engine,
}

/// What a call answers: 0 or the number of a refusal, and how many of the values count.
#[repr(C)]
#[derive(Clone, Copy, Debug, Default, PartialEq, Eq)]
pub struct Answer {
    pub refusal: u32,
    pub count: u32,
    pub values: [usize; 3],
}

mod library {
    use super::{Answer, Handle};

    extern "C" {
        pub fn gorsepick_engine_size() -> usize;
        pub fn gorsepick_fresh(engine: Handle);
        pub fn gorsepick_set_allowance(engine: *mut Handle, allowance: u32) -> Answer;
        pub fn gorsepick_begin(engine: *mut Handle, slot: u32, script: *const u8, length: usize) -> Answer;
        pub fn gorsepick_turn(
            engine: *mut Handle,
            slot: u32,
            other: u32,
            words: *mut u32,
            length: usize,
            log: bool,
            flags: bool,
        ) -> Answer;
        pub fn gorsepick_commit(engine: *mut Handle, slot: u32, words: *mut u32, length: usize, log: bool) -> Answer;
        pub fn gorsepick_abort(engine: *mut Handle, slot: u32) -> Answer;
        pub fn gorsepick_stand(engine: *mut Handle, slot: u32, other: u32) -> Answer;
        pub fn gorsepick_read_entry(engine: *mut Handle, slot: u32, other: u32, index: usize) -> Answer;
        pub fn gorsepick_size(words: *mut u32, length: usize, log: bool) -> u32;
        pub fn gorsepick_read(
            words: *mut u32,
            length: usize,
            log: bool,
            page: u32,
            word: *mut u32,
            missing: *mut u32,
        ) -> bool;
        pub fn gorsepick_put(
            words: *mut u32,
            length: usize,
            log: bool,
            page: u32,
            word: u32,
            missing: *mut u32,
        ) -> bool;
    }
}

/// Whether the library's engine has the size that this file makes room for. To be called before any other: an engine of
/// another size would be written past its end.
pub fn check_version() -> Result<(), String> {
    let library = unsafe { library::gorsepick_engine_size() };
    if library == size_of::<Engine>() {
        return Ok(());
    }
    Err(format!(
        "an engine of the library has {library} bytes, but there is room for {}: they are not of one version",
        size_of::<Engine>()
    ))
}

impl Engine {
    pub fn fresh() -> Engine {
        // What lies there is of no account.
        let mut engine = Engine { words: [0xA5A5_A5A5_A5A5_A5A5; ENGINE_WORDS] };
        unsafe { library::gorsepick_fresh(engine.handle()) };
        engine
    }

    #[inline(always)]
    fn handle(&mut self) -> Handle {
        Handle { at: self }
    }

    pub fn set_allowance(&mut self, allowance: u32) -> Answer {
        unsafe { library::gorsepick_set_allowance(&mut self.handle(), allowance) }
    }

    pub fn begin(&mut self, slot: u32, script: &[u8]) -> Answer {
        unsafe { library::gorsepick_begin(&mut self.handle(), slot, script.as_ptr(), script.len()) }
    }

    pub fn turn(&mut self, slot: u32, other: u32, words: &mut [u32], log: bool, flags: bool) -> Answer {
        unsafe { library::gorsepick_turn(&mut self.handle(), slot, other, words.as_mut_ptr(), words.len(), log, flags) }
    }

    pub fn commit(&mut self, slot: u32, words: &mut [u32], log: bool) -> Answer {
        unsafe { library::gorsepick_commit(&mut self.handle(), slot, words.as_mut_ptr(), words.len(), log) }
    }

    pub fn abort(&mut self, slot: u32) -> Answer {
        unsafe { library::gorsepick_abort(&mut self.handle(), slot) }
    }

    pub fn stand(&mut self, slot: u32, other: u32) -> Answer {
        unsafe { library::gorsepick_stand(&mut self.handle(), slot, other) }
    }

    pub fn read_entry(&mut self, slot: u32, other: u32, index: usize) -> Answer {
        unsafe { library::gorsepick_read_entry(&mut self.handle(), slot, other, index) }
    }
}

/// The number of pages of a store in these words.
pub fn size(words: &mut [u32], log: bool) -> u32 {
    unsafe { library::gorsepick_size(words.as_mut_ptr(), words.len(), log) }
}

/// Reads a page into `word` and says true, or tells in `missing` the page that is not there and says false. What is not
/// written stays.
pub fn read(words: &mut [u32], log: bool, page: u32, word: &mut u32, missing: &mut u32) -> bool {
    unsafe { library::gorsepick_read(words.as_mut_ptr(), words.len(), log, page, word, missing) }
}

/// Puts a word to a page and says true, or tells in `missing` the page that is not there and says false. What is not
/// written stays.
pub fn put(words: &mut [u32], log: bool, page: u32, word: u32, missing: &mut u32) -> bool {
    unsafe { library::gorsepick_put(words.as_mut_ptr(), words.len(), log, page, word, missing) }
}
