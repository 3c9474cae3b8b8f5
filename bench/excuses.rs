//! (d) The same two jobs without looking back. For each state that runs can be in, it carries forward the steps back that some compatible run ending
//! there excuses: weakly, if the run has a position so many events back that is not secret; strongly, if it has no secret one since. An event makes
//! each step one more, transitions hand them on from state to state, and the verdict is the least step that no state excuses. The estimate size is the
//! number of the states that runs can be in.
//!
//! This state serves one secret: another one needs excuses of its own. It holds neither the last events nor the older estimates.

use crate::automata::Automaton;
use crate::plain::{refuse_unobservable, Judgement, Verifier, NONE};
use crate::rows::{event_rows, members, Rows};

/// A set of steps back: bit l of the low half for a weak excuse of step l, bit l of the high half for a strong one.
type Excuses = u32;
const WEAK: Excuses = 0xffff;
const NEWEST: Excuses = 1 << 16 | 1;

/// The bytes of a state: the number of events it looks back, the set of possible states, and the excuses of each. One notion needs half of those.
pub const BOTH_BYTES: usize = 1 + 8 + 64 * 4;
pub const WEAK_BYTES: usize = 1 + 8 + 64 * 2;

pub struct Excused<const STRONG: bool, const BLOCK: usize> {
    /// The events so far, at most K.
    count: usize,
    /// Where runs can be.
    possible: u64,
    /// 0 for the other states.
    excuses: [Excuses; 64],
}

impl<const STRONG: bool, const BLOCK: usize> Excused<STRONG, BLOCK> {
    /// The steps 0 to `count`, of the notions that are worked out.
    #[inline(always)]
    fn steps(count: usize) -> Excuses {
        let weak = (2 << count) - 1;
        if STRONG { weak << 16 | weak } else { weak }
    }

    /// What a run that ends in a state may excuse, and what it excuses by ending there: in a secret state nothing strongly, and nothing by that.
    #[inline(always)]
    fn limits(automaton: &Automaton, all: Excuses, state: usize) -> (Excuses, Excuses) {
        if automaton.secret >> state & 1 == 0 { (all, NEWEST & all) } else { (all & WEAK, 0) }
    }

    /// Hands excuses on along the event's transitions. A state that excuses every older step is passed over.
    #[inline(always)]
    fn step(&mut self, words: &[u64; 64]) {
        let older = Self::steps(self.count) & !NEWEST;
        let before = std::mem::replace(&mut self.excuses, [0; 64]);
        let mut full = 0;
        for q in members(self.possible) {
            let moved = before[q] << 1 & older;
            for t in members(words[q] & !full) {
                self.excuses[t] |= moved;
            }
            full |= if moved == older { words[q] } else { 0 };
        }
    }

    /// Adds the newest step in the states right after the event, and closes under unobservable transitions. The result is what any run excuses: the
    /// closure adds no more to it than the newest step, weakly.
    #[inline(always)]
    fn settle(&mut self, automaton: &Automaton, entry: u64) -> Excuses {
        let all = Self::steps(self.count);
        let (mut any, mut full) = (0, 0);
        for q in members(entry) {
            let (most, newest) = Self::limits(automaton, all, q);
            let excuses = self.excuses[q] & most | newest;
            self.excuses[q] = excuses;
            any |= excuses;
            full |= ((excuses == most) as u64) << q;
        }
        self.possible = self.close(automaton, entry, full);
        any | (self.possible & !automaton.secret != 0) as Excuses
    }

    /// Hands excuses on along unobservable transitions until nothing changes. The result is the states that are reached. `full` are those that excuse
    /// all they may: when all 64 do, nothing is left to hand on.
    #[inline(always)]
    fn close(&mut self, automaton: &Automaton, entry: u64, mut full: u64) -> u64 {
        let all = Self::steps(self.count);
        let mut rows = Rows::<BLOCK>::new();
        let mut reached = entry;
        let mut changed = entry;
        while changed != 0 && full != !0 {
            let q = changed.trailing_zeros() as usize;
            changed &= changed - 1;
            rows.know(automaton, 1 << q);
            let handed = self.excuses[q];
            for t in members(rows.row[q] & !full) {
                let (most, newest) = Self::limits(automaton, all, t);
                let before = self.excuses[t];
                let after = before | handed & most | newest & WEAK;
                self.excuses[t] = after;
                changed |= ((after != before) as u64 | !reached >> t & 1) << t;
                full |= ((after == most) as u64) << t;
                reached |= 1 << t;
            }
        }
        reached
    }

    /// The least step without an excuse, for each notion, and how many states are possible.
    #[inline(always)]
    fn judge(&self, any: Excuses) -> Judgement {
        let least = |excuses: Excuses| {
            let l = excuses.trailing_ones() as usize;
            if l <= self.count { l as u8 } else { NONE }
        };
        [least(any & WEAK), if STRONG { least(any >> 16) } else { NONE }, self.possible.count_ones() as u8]
    }
}

impl<const STRONG: bool, const BLOCK: usize> Verifier for Excused<STRONG, BLOCK> {
    fn fresh(automaton: &Automaton) -> (Self, Judgement) {
        let mut made = Excused { count: 0, possible: 0, excuses: [0; 64] };
        let any = made.settle(automaton, 1 << automaton.initial);
        let judgement = made.judge(any);
        (made, judgement)
    }

    fn accept(&mut self, automaton: &Automaton, event: u8) -> Result<Judgement, u8> {
        refuse_unobservable(automaton, event)?;
        let words = event_rows(automaton, event);
        let entry = members(self.possible).fold(0, |set, q| set | words[q]);
        if entry == 0 {
            return Err(7);
        }
        self.count = (self.count + 1).min(automaton.k as usize);
        self.step(words);
        let any = self.settle(automaton, entry);
        Ok(self.judge(any))
    }
}
