//! The proved engine, linked from the static library, behind the interface that both engines have.

use crate::engine::{Answer, Interface};
use crate::gorsepick;
pub use crate::gorsepick::Engine as Linked;

impl Interface for Linked {
    fn fresh() -> Self {
        Linked::fresh()
    }

    fn set_allowance(&mut self, allowance: u32) -> Answer {
        Linked::set_allowance(self, allowance)
    }

    fn begin(&mut self, slot: u32, script: &[u8]) -> Answer {
        Linked::begin(self, slot, script)
    }

    fn turn(&mut self, slot: u32, other: u32, words: &mut [u32], log: bool, flags: bool) -> Answer {
        Linked::turn(self, slot, other, words, log, flags)
    }

    fn commit(&mut self, slot: u32, words: &mut [u32], log: bool) -> Answer {
        Linked::commit(self, slot, words, log)
    }

    fn abort(&mut self, slot: u32) -> Answer {
        Linked::abort(self, slot)
    }

    fn stand(&mut self, slot: u32, other: u32) -> Answer {
        Linked::stand(self, slot, other)
    }

    fn read_entry(&mut self, slot: u32, other: u32, index: usize) -> Answer {
        Linked::read_entry(self, slot, other, index)
    }

    fn size(words: &mut [u32], log: bool) -> u32 {
        gorsepick::size(words, log)
    }

    fn read(words: &mut [u32], log: bool, page: u32, word: &mut u32, missing: &mut u32) -> bool {
        gorsepick::read(words, log, page, word, missing)
    }

    fn put(words: &mut [u32], log: bool, page: u32, word: u32, missing: &mut u32) -> bool {
        gorsepick::put(words, log, page, word, missing)
    }
}
