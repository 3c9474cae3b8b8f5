//! Witnesses without proofs, from the definition: the shortest is searched forward, state by state, and one is checked step by step.

use crate::automata::Automaton;
use crate::library::{STRONG, WEAK};
use std::collections::VecDeque;

/// The least output that is taken, and the most pairs that are written.
pub const OUTPUT: usize = 2172;
pub const MOST: usize = 1086;
pub const NO_WITNESS: u8 = 16;
pub const TOO_FAR: u8 = 17;

/// The state that a run starts in, and its pairs.
pub type Run = (u8, Vec<u8>);

/// What is asked for: a run from these states that shows the last symbols and excuses the system of a secret.
pub struct Asked<'a> {
    pub automaton: &'a Automaton,
    pub notion: u8,
    pub secret: u64,
    pub entry: u64,
    pub last: &'a [u8],
}

fn has(set: u64, state: usize) -> bool {
    state < 64 && set >> state & 1 == 1
}

/// Where runs can be right after each symbol of a trace, and at first.
pub fn entries(automaton: &Automaton, trace: &[u8]) -> Vec<u64> {
    let mut entries = vec![1 << automaton.initial];
    for &symbol in trace {
        entries.push(automaton.image(symbol as usize, automaton.silent(entries[entries.len() - 1])));
    }
    entries
}

impl Asked<'_> {
    /// The symbol of an event, if it is observable.
    fn symbol(&self, event: usize) -> Option<u8> {
        let (_, observable, symbols) = self.automaton.lent();
        (observable >> event & 1 == 1).then(|| symbols.map_or(event as u8, |symbols| symbols[event]))
    }

    /// Under strong no state may be secret; under weak any.
    fn allowed(&self, state: usize) -> bool {
        self.notion == WEAK || !has(self.secret, state)
    }

    /// How many symbols are shown after an event; none if it shows another than the next.
    fn shown_after(&self, event: usize, shown: usize) -> Option<usize> {
        match self.symbol(event) {
            None => Some(shown),
            Some(symbol) => (self.last.get(shown) == Some(&symbol)).then_some(shown + 1),
        }
    }

    /// A shortest run. A node is a number of symbols shown, a state, and whether a position before the first of them was not secret.
    pub fn search(&self) -> Option<Run> {
        let (table, ..) = self.automaton.lent();
        let node = |shown: usize, state: usize, clear: bool| (shown * 64 + state) * 2 + clear as usize;
        let mut from: Vec<Option<(usize, u8)>> = vec![None; (self.last.len() + 1) * 128];
        let mut seen = vec![false; from.len()];
        let mut queue = VecDeque::new();
        for state in (0..64).filter(|&q| has(self.entry, q) && self.allowed(q)) {
            let first = node(0, state, !has(self.secret, state));
            seen[first] = true;
            queue.push_back(first);
        }
        while let Some(at) = queue.pop_front() {
            let (shown, state, clear) = (at / 128, at / 2 % 64, at % 2 == 1);
            if shown == self.last.len() && clear {
                return Some(path(at, &from));
            }
            for event in 0..32 {
                let Some(then) = self.shown_after(event, shown) else { continue };
                if then != 0 && !clear {
                    continue;
                }
                for to in (0..64).filter(|&to| has(table[64 * event + state], to) && self.allowed(to)) {
                    let next = node(then, to, clear || !has(self.secret, to));
                    if !seen[next] {
                        (seen[next], from[next]) = (true, Some((at, event as u8)));
                        queue.push_back(next);
                    }
                }
            }
        }
        None
    }

    /// Whether a start and bytes are such a run.
    pub fn check(&self, start: u8, pairs: &[u8]) -> bool {
        let (table, ..) = self.automaton.lent();
        let mut state = start as usize;
        if pairs.len() % 2 == 1 || !has(self.entry, state) || !self.allowed(state) {
            return false;
        }
        let (mut shown, mut clear) = (0, !has(self.secret, state));
        for pair in pairs.chunks_exact(2) {
            let (event, to) = (pair[0] as usize, pair[1] as usize);
            if 31 < event || !has(table[64 * event + state], to) || !self.allowed(to) {
                return false;
            }
            let Some(then) = self.shown_after(event, shown) else { return false };
            (shown, state) = (then, to);
            clear |= shown == 0 && !has(self.secret, to);
        }
        clear && shown == self.last.len()
    }
}

/// The run that led to a node.
fn path(mut at: usize, from: &[Option<(usize, u8)>]) -> Run {
    let mut pairs = Vec::new();
    while let Some((before, event)) = from[at] {
        pairs.extend([(at / 2 % 64) as u8, event]);
        at = before;
    }
    pairs.reverse();
    ((at / 2 % 64) as u8, pairs)
}

/// Every notion with every step up to the K.
pub fn steps(k: u8) -> impl Iterator<Item = (u8, u8)> {
    [WEAK, STRONG].into_iter().flat_map(move |notion| (0..=k).map(move |step| (notion, step)))
}
