//! An exploration without proofs, from the definitions: a breadth-first search over traces, which goes on from the first one that leads to each
//! configuration. All of them are in a hash set. Verdicts are those of (b), on each secret alone.

use crate::automata::{Automaton, Secret};
use crate::native::Estimator;
use crate::plain::{self, Judgement, Verifier};
use std::collections::{HashSet, VecDeque};

/// The number of configurations, the largest weak wait and the largest strong one; or the number of the refusal.
pub type Exploration = Result<(usize, u8, u8), u8>;

pub const BUDGET_SPENT: u8 = 15;
/// A larger budget counts as this one.
pub const MOST: u32 = 256;

/// The last symbols, as many as the largest K, and where runs can be right after each and after the one before them; the newest first.
#[derive(Clone, PartialEq, Eq, Hash)]
struct Configuration {
    symbols: Vec<u8>,
    entries: Vec<u64>,
}

impl Configuration {
    /// None if no run is compatible with the symbol.
    fn after(&self, automaton: &Automaton, largest: usize, symbol: u8) -> Option<Self> {
        let entry = automaton.image(symbol as usize, automaton.silent(self.entries[0]));
        if entry == 0 {
            return None;
        }
        let symbols = std::iter::once(symbol).chain(self.symbols.iter().copied()).take(largest).collect();
        let entries = std::iter::once(entry).chain(self.entries.iter().copied()).take(largest + 1).collect();
        Some(Configuration { symbols, entries })
    }
}

/// The largest waits so far, weak and strong.
struct Waits([u8; 2]);

impl Waits {
    fn count(&mut self, k: u8, judgement: Judgement) {
        for notion in 0..2 {
            self.0[notion] = self.0[notion].max(plain::wait(k, judgement[notion]));
        }
    }
}

pub fn explore(automaton: &Automaton, further: &[Secret], budget: u32) -> Exploration {
    let own = Secret { states: automaton.secret, k: automaton.k };
    let alone: Vec<Automaton> = std::iter::once(&own).chain(further).map(|&secret| automaton.with_secret(secret)).collect();
    let largest = alone.iter().map(|automaton| automaton.k as usize).max().unwrap();
    let most = budget.min(MOST) as usize;
    let mut waits = Waits([0; 2]);
    let opening = Configuration { symbols: vec![], entries: vec![1 << automaton.initial] };
    let mut verifiers = Vec::new();
    for automaton in &alone {
        let (verifier, judgement) = Estimator::<true, 16>::fresh(automaton);
        waits.count(automaton.k, judgement);
        verifiers.push(verifier);
    }
    let mut found = HashSet::from([opening.clone()]);
    let mut waiting = VecDeque::from([(opening, verifiers)]);
    while let Some((configuration, verifiers)) = waiting.pop_front() {
        if most < found.len() {
            return Err(BUDGET_SPENT);
        }
        for symbol in (0..32).filter(|symbol| automaton.observable >> symbol & 1 == 1) {
            let Some(next) = configuration.after(automaton, largest, symbol) else { continue };
            let mut verifiers = verifiers.clone();
            for (automaton, verifier) in alone.iter().zip(&mut verifiers) {
                waits.count(automaton.k, verifier.accept(automaton, symbol).expect("a symbol that a run is compatible with"));
            }
            if found.insert(next.clone()) {
                waiting.push_back((next, verifiers));
            }
        }
    }
    Ok((found.len(), waits.0[0], waits.0[1]))
}
