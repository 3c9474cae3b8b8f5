//! The first leak of offered bytes without proofs: (b) on each secret alone, byte by byte.

use crate::automata::{Automaton, Secret};
use crate::native::Estimator;
use crate::plain::{Verifier, NONE};
use crate::random::Random;

/// The place of the first accepted byte whose verdict by the notion is a leak of any secret, from 1, and how many bytes are offered up to it.
pub fn first_leak(automaton: &Automaton, further: &[Secret], notion: usize, bytes: &[u8]) -> Option<(u64, usize)> {
    let own = Secret { states: automaton.secret, k: automaton.k };
    let alone = std::iter::once(&own).chain(further).map(|&secret| automaton.with_secret(secret));
    let mut verifiers: Vec<_> = alone.map(|automaton| (Estimator::<true, 16>::fresh(&automaton).0, automaton)).collect();
    let mut accepted = 0;
    for (i, &byte) in bytes.iter().enumerate() {
        let told: Vec<_> = verifiers.iter_mut().map(|(verifier, automaton)| verifier.accept(automaton, byte)).collect();
        accepted += told[0].is_ok() as u64;
        if told.iter().flatten().any(|judgement| judgement[notion] != NONE) {
            return Some((accepted, i + 1));
        }
    }
    None
}

/// Bytes to be offered: most are events of the automaton, and some of these are refused, and one of four is any byte. Up to so many accepted ones, none
/// leaks the own secret, so that first leaks come late.
pub fn offered(automaton: &Automaton, calm: usize, length: usize, seed: u64) -> Vec<u8> {
    let mut random = Random(seed);
    let mut verifier = Estimator::<true, 16>::fresh(automaton).0;
    let mut accepted = 0;
    let mut bytes = Vec::new();
    for _ in 0..length {
        let among = if random.below(4) == 0 { 256 } else { automaton.events };
        let byte = random.below(among) as u8;
        let mut next = verifier.clone();
        let told = next.accept(automaton, byte);
        if told.is_ok_and(|judgement| judgement[..2] != [NONE; 2]) && accepted < calm {
            continue;
        }
        if told.is_ok() {
            verifier = next;
            accepted += 1;
        }
        bytes.push(byte);
    }
    bytes
}

/// So many symbols that are accepted and of which none leaks, under strong and so under weak; each is drawn from those that can follow.
pub fn without_leak(automaton: &Automaton, length: usize, seed: u64) -> Vec<u8> {
    let mut random = Random(seed);
    let mut verifier = Estimator::<true, 16>::fresh(automaton).0;
    let mut symbols = Vec::with_capacity(length);
    let mut refused = 0;
    while symbols.len() < length {
        let symbol = random.below(automaton.events) as u8;
        let mut next = verifier.clone();
        match next.accept(automaton, symbol) {
            Ok([NONE, NONE, _]) => {
                (verifier, refused) = (next, 0);
                symbols.push(symbol);
            }
            _ => refused += 1,
        }
        assert!(refused < 10_000, "every symbol leaks, or no run goes on");
    }
    symbols
}
