//! What is compared and measured: automata with a trace each.

use crate::automata::{self, Automaton, Secret};
use crate::random::Random;

pub const EVENTS: usize = 1_000;

pub struct Case {
    pub name: &'static str,
    pub automaton: Automaton,
    pub trace: Vec<u8>,
    pub large: bool,
    /// Given to (a) where it is compared and measured with several secrets.
    pub further: Vec<Secret>,
}

impl Case {
    fn new(name: &'static str, automaton: Automaton, large: bool) -> Self {
        Case { name, trace: automaton.trace(EVENTS, 1), large, further: automaton.further(1).to_vec(), automaton }
    }
}

pub fn cases() -> Vec<Case> {
    let chain = Case::new("chain", automata::chain(), true);
    vec![
        Case::new("P", automata::p(), false),
        // Drawn traces of P soon stay in state 3; this one goes on leaking.
        Case { trace: [1, 2].repeat(EVENTS / 2), ..Case::new("P, 1 2 1 2 ..", automata::p(), false) },
        Case::new("mid", automata::mid(), false),
        Case::new("large", automata::large(64), true),
        // Its own secret again, thrice: other states cannot be avoided, and the looks back would not go all the way.
        Case { further: vec![Secret { states: chain.automaton.secret, k: chain.automaton.k }; 3], ..chain },
        Case::new("dense", automata::dense(), true),
    ]
}

/// What witnesses are measured on beside these: the one with the longest.
pub fn around() -> Case {
    Case::new("around", automata::around(), true)
}

/// Automata of which one number grows, with their names.
pub fn growing() -> Vec<Case> {
    let mut list = Vec::new();
    for (k, name) in [(0, "large, K 0"), (1, "large, K 1"), (3, "large, K 3"), (7, "large, K 7"), (15, "large, K 15")] {
        list.push(Case::new(name, automata::large(64).with_k(k), false));
    }
    for (states, name) in [(8, "K 15, 8 states"), (16, "K 15, 16 states"), (32, "K 15, 32 states"), (64, "K 15, 64 states")] {
        list.push(Case::new(name, automata::large(states), false));
    }
    for (symbols, name) in [(1, "large, 1 symbol"), (4, "large, 4 symbols"), (14, "large, 14 symbols")] {
        list.push(Case::new(name, automata::large(64).sharing(symbols), false));
    }
    list
}

/// Small automata that differ in everything, to be compared alone; of every second one events share symbols. Each has one to three further secrets,
/// with any K.
pub fn small() -> Vec<Case> {
    (0..4_000)
        .map(|number| {
            let automaton = automata::small(number);
            let automaton = if number % 2 == 0 { automaton } else { automaton.sharing(1 + number as usize / 2 % 3) };
            let mut random = Random(number);
            let further = automaton.further(number).into_iter().take(1 + random.below(3));
            let further = further.map(|secret| Secret { k: random.below(16) as u8, ..secret }).collect();
            Case { name: "small", trace: automaton.trace(40, number), automaton, large: false, further }
        })
        .collect()
}

/// What is explored with a budget of 256: an automaton with 256 configurations, or with more.
pub struct ToExplore {
    pub name: &'static str,
    pub automaton: Automaton,
    /// With the K of its own, so that there are as many configurations.
    pub further: Vec<Secret>,
    pub spent: bool,
}

impl ToExplore {
    fn new(name: &'static str, automaton: Automaton, further: [u64; 3], spent: bool) -> Self {
        let further = further.map(|states| Secret { states, k: automaton.k }).to_vec();
        ToExplore { name, automaton, further, spent }
    }

    /// Some secrets leak, and some do not: with these every look back goes all the way.
    fn rings(name: &'static str, chain: usize, symbols: usize) -> Self {
        let tail = !0 << (chain + 31);
        let further = [automata::phase(chain, &automata::TWO, 100), automata::phase(chain, &automata::TWO, 200), tail];
        ToExplore::new(name, automata::rings(chain, symbols), further, 1 < chain)
    }

    fn waves(name: &'static str, chain: usize, symbols: usize) -> Self {
        let tail = !0 << (chain + 24);
        let further = [automata::phase(chain, &automata::THREE, 100), automata::phase(chain, &automata::THREE, 200) | tail, 1 << 50];
        ToExplore::new(name, automata::waves(chain, symbols), further, 1 < chain)
    }

    fn hops(name: &'static str, chain: usize) -> Self {
        let tail = !0 << (chain + 8);
        ToExplore::new(name, automata::hops(chain), [1 << chain | tail, 3 << (chain + 1), 1 << 50], 7 < chain)
    }
}

pub fn to_explore() -> Vec<ToExplore> {
    let large = automata::large(64);
    let further = large.further(1).map(|secret| secret.states);
    vec![
        ToExplore::rings("rings, 1 symbol", 1, 1),
        ToExplore::rings("rings", 1, 31),
        ToExplore::waves("waves", 1, 31),
        ToExplore::hops("hops", 7),
        // One configuration more, which the first two come upon last; and many more.
        ToExplore::rings("rings, 257", 2, 31),
        ToExplore::waves("waves, 257", 2, 31),
        ToExplore::hops("hops, 257", 8),
        ToExplore::new("large", large, further, true),
    ]
}

/// Small ones, with K 0 to 4 for all secrets of most of them: with larger ones fewer are explored wholly. Of every third one the initial state is in the
/// own secret, and of every third in the further ones: the opening may leak.
pub fn small_to_explore() -> Vec<Case> {
    let all = small().into_iter().take(800).enumerate();
    all.map(|(number, case)| {
        let k = |k: u8| if number % 8 == 0 { k } else { k % 5 };
        let with = |secret: &Secret, initial: bool| Secret { states: secret.states | initial as u64, k: k(secret.k) };
        let own = Secret { states: case.automaton.secret, k: case.automaton.k };
        let further = case.further.iter().map(|secret| with(secret, number % 3 == 2)).collect();
        Case { automaton: case.automaton.with_secret(with(&own, number % 3 == 1)), further, ..case }
    })
    .collect()
}
