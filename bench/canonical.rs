//! The canonical form of an automaton without proofs, from the definition: its transitions sorted, and symbols only where an observable event has another
//! than its own number. And other encodings of the same automaton, of which it is the form.

use crate::automata::Automaton;
use crate::random::Random;

/// The longest form.
pub const MOST: usize = 2210;
pub const OUTPUT_TOO_SMALL: u8 = 10;

/// The symbol of each event; 0 of one that is not observable.
fn symbols(automaton: &Automaton) -> [u8; 32] {
    let (_, observable, symbols) = automaton.lent();
    std::array::from_fn(|event| if observable >> event & 1 == 0 { 0 } else { symbols.map_or(event as u8, |symbols| symbols[event]) })
}

pub fn form(automaton: &Automaton) -> Vec<u8> {
    let mut transitions = automaton.transitions();
    transitions.sort();
    let (observable, symbols) = (automaton.lent().1, symbols(automaton));
    let renamed = (0..32).any(|event| observable >> event & 1 == 1 && symbols[event] as usize != event);
    automaton.encode_as(&transitions, renamed.then_some(&symbols))
}

/// An encoding that lists the transitions in any order, and symbols for all events, those of unobservable ones any, if it is to or the automaton has them.
pub fn shuffled(automaton: &Automaton, listed: bool, seed: u64) -> Vec<u8> {
    let mut random = Random(seed);
    let mut transitions = automaton.transitions();
    for i in (1..transitions.len()).rev() {
        transitions.swap(i, random.below(i + 1));
    }
    let mut symbols = symbols(automaton);
    for event in (0..32).filter(|event| automaton.lent().1 >> event & 1 == 0) {
        symbols[event] = random.below(32) as u8;
    }
    automaton.encode_as(&transitions, (listed || automaton.shared.is_some()).then_some(&symbols))
}
