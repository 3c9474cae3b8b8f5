//! (b) The same two jobs without proofs, written for speed. It gets what (a) gets, the table and the header's fields, and keeps a state of its own
//! from event to event and nothing of the automaton. Where it differs from the proved code:
//!   - the unobservable relation is worked out for the states that matter alone, in blocks of any size, and turned round as a bit matrix;
//!   - a state holds each estimate closed under unobservable transitions, so that a look back closes nothing forward, and the estimate size is a
//!     count of the newest;
//!   - the look back stays inside the estimates: a state that no run can be in is never visited;
//!   - both notions share one look back, and an enforcer looks back for its own notion alone;
//!   - closures go wave by wave, and stop when all that is allowed is reached;
//!   - images and preimages read the table where it is, without a copy of the event's rows.

use crate::automata::Automaton;
use crate::plain::{refuse_unobservable, Judgement, Queue, Release, Verifier, NONE};
use crate::rows::{event_rows, members, Rows};

const STEPS: usize = 16;
/// Up to this many states are turned round bit by bit; the matrix costs the same whatever it holds.
const FEW: u32 = 16;

/// The unobservable relation on the states that were asked for, turned round once a look back wants it.
pub struct Silent<const BLOCK: usize> {
    rows: Rows<BLOCK>,
    turned: bool,
    back: [u64; 64],
}

impl<const BLOCK: usize> Silent<BLOCK> {
    pub fn new() -> Self {
        Silent { rows: Rows::new(), turned: false, back: [0; 64] }
    }

    /// All of it, to be kept.
    pub fn whole(automaton: &Automaton) -> Self {
        let mut silent = Silent::new();
        silent.rows.know(automaton, !0);
        silent.turn();
        silent
    }

    #[inline]
    fn turn(&mut self) {
        if self.turned {
            return;
        }
        if self.rows.known.count_ones() <= FEW {
            turn_bits(self.rows.known, &self.rows.row, &mut self.back);
        } else {
            self.back = transpose(&self.rows.row);
        }
        self.turned = true;
    }

    /// The unobservable reach of a set.
    fn reach(&mut self, automaton: &Automaton, from: u64) -> u64 {
        let mut done = from;
        let mut wave = from;
        while wave != 0 {
            self.rows.know(automaton, wave);
            let next = members(wave).fold(0, |set, q| set | self.rows.row[q]);
            wave = next & !done;
            done |= wave;
            if done == !0 {
                break;
            }
        }
        done
    }
}

#[inline(always)]
fn turn_bits(known: u64, rows: &[u64; 64], back: &mut [u64; 64]) {
    for p in members(known) {
        for q in members(rows[p]) {
            back[q] |= 1 << p;
        }
    }
}

/// Swaps the blocks of J by J bits that lie across the diagonal.
#[inline(always)]
fn swap_blocks<const J: usize>(m: &mut [u64; 64], mask: u64) {
    for pair in m.chunks_exact_mut(2 * J) {
        let (low, high) = pair.split_at_mut(J);
        for i in 0..J {
            let t = (low[i] >> J ^ high[i]) & mask;
            low[i] ^= t << J;
            high[i] ^= t;
        }
    }
}

fn transpose(rows: &[u64; 64]) -> [u64; 64] {
    let mut m = *rows;
    swap_blocks::<32>(&mut m, 0x0000_0000_ffff_ffff);
    swap_blocks::<16>(&mut m, 0x0000_ffff_0000_ffff);
    swap_blocks::<8>(&mut m, 0x00ff_00ff_00ff_00ff);
    swap_blocks::<4>(&mut m, 0x0f0f_0f0f_0f0f_0f0f);
    swap_blocks::<2>(&mut m, 0x3333_3333_3333_3333);
    swap_blocks::<1>(&mut m, 0x5555_5555_5555_5555);
    m
}

/// The states of `allowed` that lead into a set of them, through allowed states alone.
fn closure(back: &[u64; 64], allowed: u64, from: u64) -> u64 {
    let mut done = from & allowed;
    let mut wave = done;
    while wave != 0 && done != allowed {
        let next = members(wave).fold(0, |set, q| set | back[q]);
        wave = next & allowed & !done;
        done |= wave;
    }
    done
}

/// The states of `among` that the event leads into either set.
fn preimages(words: &[u64; 64], among: u64, weak: u64, strong: u64) -> (u64, u64) {
    let (mut w, mut s) = (0, 0);
    // Most of 64 states are tested faster without looking for the next one.
    if 48 < among.count_ones() {
        for (q, word) in words.iter().enumerate() {
            w |= ((word & weak != 0) as u64) << q;
            s |= ((word & strong != 0) as u64) << q;
        }
        return (w & among, s & among);
    }
    for q in members(among) {
        w |= ((words[q] & weak != 0) as u64) << q;
        s |= ((words[q] & strong != 0) as u64) << q;
    }
    (w, s)
}

/// The last events and estimates, in rings.
#[derive(Clone)]
pub struct Estimator<const STRONG: bool, const BLOCK: usize> {
    count: usize,
    newest: usize,
    events: [u8; STEPS],
    entries: [u64; STEPS],
    estimates: [u64; STEPS],
}

impl<const STRONG: bool, const BLOCK: usize> Estimator<STRONG, BLOCK> {
    fn push(&mut self, automaton: &Automaton, silent: &mut Silent<BLOCK>, event: u8) -> Result<(), u8> {
        refuse_unobservable(automaton, event)?;
        let words = event_rows(automaton, event);
        let entry = members(self.estimates[self.newest]).fold(0, |set, q| set | words[q]);
        if entry == 0 {
            return Err(7);
        }
        self.newest = (self.newest + 1) % STEPS;
        self.count = (self.count + 1).min(automaton.k as usize);
        self.events[self.newest] = event;
        self.entries[self.newest] = entry;
        self.estimates[self.newest] = silent.reach(automaton, entry);
        Ok(())
    }

    /// The weak verdict and, if wanted, the strong one. A weak leak is a strong one too, so the look back may stop at it.
    fn look_back(&self, automaton: &Automaton, silent: &mut Silent<BLOCK>) -> [u8; 2] {
        let clear = !automaton.secret;
        let mut at = self.newest;
        let mut weak = self.estimates[at];
        let mut strong = if STRONG { weak & clear } else { 0 };
        let mut strong_verdict = NONE;
        for l in 0..=self.count {
            if STRONG && strong_verdict == NONE && self.entries[at] & strong == 0 {
                strong_verdict = l as u8;
                strong = 0;
            }
            if weak & clear == 0 {
                return [l as u8, strong_verdict];
            }
            if l == self.count {
                break;
            }
            if l == 0 {
                silent.rows.know(automaton, (0..=self.count).fold(0, |set, l| set | self.estimates[(at + STEPS - l) % STEPS]));
                silent.turn();
            }
            let words = event_rows(automaton, self.events[at]);
            at = (at + STEPS - 1) % STEPS;
            let estimate = self.estimates[at];
            let (w, s) = preimages(words, estimate, weak, strong);
            weak = closure(&silent.back, estimate, w);
            if STRONG {
                strong = closure(&silent.back, estimate & clear, s);
            }
        }
        [NONE, strong_verdict]
    }

    fn judge(&self, automaton: &Automaton, silent: &mut Silent<BLOCK>) -> Judgement {
        let [weak, strong] = self.look_back(automaton, silent);
        [weak, strong, self.estimates[self.newest].count_ones() as u8]
    }

    /// `accept` with the unobservable relation kept from before: what 1 KB for each automaton would bring.
    pub fn accept_with(&mut self, automaton: &Automaton, silent: &mut Silent<BLOCK>, event: u8) -> Result<Judgement, u8> {
        self.push(automaton, silent, event)?;
        Ok(self.judge(automaton, silent))
    }
}

impl<const STRONG: bool, const BLOCK: usize> Verifier for Estimator<STRONG, BLOCK> {
    fn fresh(automaton: &Automaton) -> (Self, Judgement) {
        let entry = 1 << automaton.initial;
        let mut silent = Silent::new();
        let mut made = Estimator { count: 0, newest: 0, events: [0; STEPS], entries: [0; STEPS], estimates: [0; STEPS] };
        made.entries[0] = entry;
        made.estimates[0] = silent.reach(automaton, entry);
        let judgement = made.judge(automaton, &mut silent);
        (made, judgement)
    }

    fn accept(&mut self, automaton: &Automaton, event: u8) -> Result<Judgement, u8> {
        self.accept_with(automaton, &mut Silent::new(), event)
    }
}

/// `offer` of a weak enforcer with the unobservable relation kept.
pub fn offer_with<'a, const BLOCK: usize>(
    estimator: &mut Estimator<false, BLOCK>, queue: &'a mut Queue, automaton: &Automaton, silent: &mut Silent<BLOCK>, event: u8,
) -> Result<Release<'a>, u8> {
    let [weak, _, size] = estimator.accept_with(automaton, silent, event)?;
    Ok((queue.push(automaton.k, event, weak), size))
}
