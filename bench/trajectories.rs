//! (c) The K-delay trajectory estimator of source 000, on the fly: Definition 7's sets of trajectories, (K + 1)-tuples of states with K Booleans,
//! updated by Obs(event) and the shift operator. Obs is worked out once for each automaton, and its time does not count.
//!
//! The weak verdict is Proposition 4's. For the strong one Proposition 5 filters redundant trajectories first, comparing them in pairs, and its leak 0
//! looks at the last state alone, where the requirements ask for every run (their automaton Q tells the two apart). Both are mended in a way that
//! costs less than the filter: beside the trajectories the set of the states right after each event is kept, and a trajectory excuses l steps if it
//! was in such a state l events back, not a secret one, and all Booleans since are true. Without Booleans (`BOOLEANS` false) the sets are smaller,
//! enough for the weak verdict alone (the source's footnote 7): that is what the enforcer job runs.

use crate::automata::Automaton;
use crate::plain::NONE;
use std::collections::HashSet;
use std::hash::{BuildHasherDefault, Hasher};

/// A trajectory: 6 bits a state, the newest lowest, up to bit 96; above it the Booleans, the newest lowest.
type Trajectory = u128;
const BOOLEANS_AT: usize = 96;

/// A quick hash of one number; the standard one would slow the textbook down.
#[derive(Default)]
pub struct Mix(u64);

impl Hasher for Mix {
    fn finish(&self) -> u64 {
        self.0
    }
    fn write(&mut self, _: &[u8]) {
        unreachable!("only numbers of 128 bits are hashed");
    }
    fn write_u128(&mut self, x: u128) {
        let h = (x as u64 ^ ((x >> 64) as u64).wrapping_mul(0x9e37_79b9_7f4a_7c15)).wrapping_mul(0xbf58_476d_1ce4_e5b9);
        self.0 = h ^ h >> 32;
    }
}

pub struct TooMany;

pub struct Trajectories<const BOOLEANS: bool> {
    /// For each event and state: the states that one more observation may lead to, each with whether some way there avoids the secret, and
    /// whether some way does not.
    obs: Vec<Vec<(u8, bool)>>,
    secret: u64,
    k: usize,
    count: usize,
    set: Vec<Trajectory>,
    distinct: HashSet<Trajectory, BuildHasherDefault<Mix>>,
    /// The states right after each of the last events, the newest first.
    entries: [u64; 16],
    event_rows: Vec<u64>,
    initial: Vec<Trajectory>,
    first_entry: u64,
    cap: usize,
}

impl<const BOOLEANS: bool> Trajectories<BOOLEANS> {
    pub fn new(automaton: &Automaton, cap: usize) -> Self {
        let k = automaton.k as usize;
        let secret = automaton.secret;
        let first_entry = 1u64 << automaton.initial;
        let mut made = Trajectories {
            obs: vec![Vec::new(); 2048], secret, k, count: 0, set: Vec::new(), distinct: HashSet::default(), entries: [0; 16],
            event_rows: automaton.table.to_vec(), initial: Vec::new(), first_entry, cap,
        };
        for event in (0..32).filter(|e| automaton.observable >> e & 1 == 1) {
            for from in 0..64 {
                made.obs[64 * event + from] = observations::<BOOLEANS>(automaton, event, from);
            }
        }
        // The initial trajectories stand still in each state that is reached before the first event.
        for q in (0..64).filter(|q| reached(automaton, first_entry, |_| true) >> q & 1 == 1) {
            let mut t: Trajectory = 0;
            for _ in 0..=k {
                t = t << 6 | q as u128;
            }
            if BOOLEANS && secret >> q & 1 == 0 {
                t |= ((1 << k) - 1) << BOOLEANS_AT;
            }
            made.initial.push(t);
        }
        made
    }

    pub fn fresh(&mut self) {
        self.set.clone_from(&self.initial);
        self.count = 0;
        self.entries = [0; 16];
        self.entries[0] = self.first_entry;
    }

    /// The number of trajectories.
    pub fn size(&self) -> usize {
        self.set.len()
    }

    /// The shift by one event.
    pub fn push(&mut self, event: u8) -> Result<(), TooMany> {
        let states_mask: u128 = (1 << (6 * (self.k + 1))) - 1;
        let booleans_mask: u128 = (1 << self.k) - 1;
        let event = event as usize;
        self.distinct.clear();
        let mut next = Vec::with_capacity(self.set.len());
        let mut current: u64 = 0;
        for &t in &self.set {
            let last = (t & 63) as usize;
            current |= 1 << last;
            let states = t << 6 & states_mask;
            let booleans = if BOOLEANS { (t >> BOOLEANS_AT) << 1 & booleans_mask } else { 0 };
            for &(to, free) in &self.obs[64 * event + last] {
                let newest = if BOOLEANS { (free as u128) & booleans_mask } else { 0 };
                let shifted = states | to as u128 | (booleans | newest) << BOOLEANS_AT;
                if self.distinct.insert(shifted) {
                    next.push(shifted);
                    if self.cap < next.len() {
                        return Err(TooMany);
                    }
                }
            }
        }
        self.set = next;
        self.count += 1;
        self.entries.copy_within(0..15, 1);
        self.entries[0] = (0..64).filter(|q| current >> q & 1 == 1).fold(0, |set, q| set | self.event_rows[64 * event + q]);
        Ok(())
    }

    /// The estimate size: in how many different states a trajectory ends.
    pub fn estimate_size(&self) -> u8 {
        self.set.iter().fold(0u64, |ends, t| ends | 1 << (t & 63)).count_ones() as u8
    }

    /// Proposition 4: the least step back at which every trajectory was in a secret state.
    pub fn weak(&self) -> u8 {
        let mut clear = [false; 16];
        for &t in &self.set {
            for (l, found) in clear.iter_mut().enumerate().take(self.k + 1) {
                *found |= self.secret >> (t >> (6 * l) & 63) & 1 == 0;
            }
        }
        (0..=self.k.min(self.count)).find(|&l| !clear[l]).map_or(NONE, |l| l as u8)
    }

    /// The least step back for which no trajectory is an excuse.
    pub fn strong(&self) -> u8 {
        let mut excused = [false; 16];
        for &t in &self.set {
            for (l, found) in excused.iter_mut().enumerate().take(self.k + 1) {
                *found |= (self.entries[l] & !self.secret) >> (t >> (6 * l) & 63) & 1 == 1;
                if t >> (BOOLEANS_AT + l) & 1 == 0 {
                    break;
                }
            }
        }
        (0..=self.k.min(self.count)).find(|&l| !excused[l]).map_or(NONE, |l| l as u8)
    }
}

/// What unobservable transitions reach from a set, through allowed states alone.
fn reached(automaton: &Automaton, from: u64, allowed: impl Fn(usize) -> bool) -> u64 {
    let mut set = (0..64).filter(|&q| from >> q & 1 == 1 && allowed(q)).fold(0u64, |set, q| set | 1 << q);
    loop {
        let before = set;
        for event in (0..32).filter(|e| automaton.observable >> e & 1 == 0) {
            for q in (0..64).filter(|q| before >> q & 1 == 1) {
                set |= automaton.table[64 * event + q];
            }
        }
        set = (0..64).filter(|&q| set >> q & 1 == 1 && allowed(q)).fold(0, |set, q| set | 1 << q);
        if set == before {
            return set;
        }
    }
}

/// Obs(event) from one state: through unobservable transitions, the event, and unobservable transitions.
fn observations<const BOOLEANS: bool>(automaton: &Automaton, event: usize, from: usize) -> Vec<(u8, bool)> {
    let after = |set: u64| (0..64).filter(|q| set >> q & 1 == 1).fold(0u64, |to, q| to | automaton.table[64 * event + q]);
    let clear = |q: usize| automaton.secret >> q & 1 == 0;
    let any = reached(automaton, after(reached(automaton, 1 << from, |_| true)), |_| true);
    let all = (0..64).filter(|q| any >> q & 1 == 1);
    if !BOOLEANS {
        return all.map(|q| (q as u8, true)).collect();
    }
    let free = reached(automaton, after(reached(automaton, 1 << from, clear)), clear);
    let crossing = crossing(automaton, event, from);
    let mut list = Vec::new();
    for q in all {
        if free >> q & 1 == 1 {
            list.push((q as u8, true));
        }
        if crossing >> q & 1 == 1 {
            list.push((q as u8, false));
        }
    }
    list
}

/// The states that a way with a secret state on it leads to: the states of the search are doubled by whether one was crossed.
fn crossing(automaton: &Automaton, event: usize, from: usize) -> u64 {
    let secret = automaton.secret;
    // (not crossed, crossed), before and after the event
    let enter = |clean: u64, crossed: u64| (clean & !secret, crossed | clean & secret);
    let close = |clean: u64, crossed: u64| {
        let clean_all = reached(automaton, clean, |q| secret >> q & 1 == 0);
        // one step from a clean state into a secret one, then anywhere
        let mut into = crossed;
        for e in (0..32).filter(|e| automaton.observable >> e & 1 == 0) {
            for q in (0..64).filter(|q| clean_all >> q & 1 == 1) {
                into |= automaton.table[64 * e + q] & secret;
            }
        }
        (clean_all, reached(automaton, into, |_| true))
    };
    let step = |set: u64| (0..64).filter(|q| set >> q & 1 == 1).fold(0u64, |to, q| to | automaton.table[64 * event + q]);
    let (clean, crossed) = enter(1 << from, 0);
    let (clean, crossed) = close(clean, crossed);
    let (clean, crossed) = enter(step(clean), step(crossed));
    close(clean, crossed).1
}
