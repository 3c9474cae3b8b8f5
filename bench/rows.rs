//! The unobservable relation, read from the table for the states that are asked for, a block of them at a time. It is worked out for one event and not
//! kept: the table is what an implementation gets.

use crate::automata::Automaton;

/// The blocks that are measured. Few states want a small one, many a large one.
pub const BLOCKS: [usize; 6] = [2, 4, 8, 16, 32, 64];

#[inline(always)]
pub fn members(mut set: u64) -> impl Iterator<Item = usize> {
    std::iter::from_fn(move || {
        if set == 0 {
            return None;
        }
        let q = set.trailing_zeros() as usize;
        set &= set - 1;
        Some(q)
    })
}

/// Where an event leads to from each state.
#[inline(always)]
pub fn event_rows(automaton: &Automaton, event: u8) -> &[u64; 64] {
    automaton.table[64 * event as usize..][..64].try_into().unwrap()
}

pub struct Rows<const BLOCK: usize> {
    /// The states whose rows were read.
    pub known: u64,
    pub row: [u64; 64],
}

impl<const BLOCK: usize> Rows<BLOCK> {
    pub fn new() -> Self {
        Rows { known: 0, row: [0; 64] }
    }

    #[inline(always)]
    pub fn know(&mut self, automaton: &Automaton, states: u64) {
        while states & !self.known != 0 {
            self.read(automaton, (states & !self.known).trailing_zeros() as usize / BLOCK * BLOCK);
        }
    }

    /// Reads a block. The sums stay in registers while the events go by, which is why this is a function of its own.
    #[inline(never)]
    fn read(&mut self, automaton: &Automaton, first: usize) {
        let mut sum = [0u64; BLOCK];
        for event in members(!automaton.observable as u64) {
            let words = &automaton.table[64 * event + first..][..BLOCK];
            for i in 0..BLOCK {
                sum[i] |= words[i];
            }
        }
        self.row[first..first + BLOCK].copy_from_slice(&sum);
        self.known |= !0 >> (64 - BLOCK) << first;
    }
}
