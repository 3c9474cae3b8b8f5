//! The automata that are measured, their encodings, and traces that they can show.

use crate::random::Random;
use std::collections::BTreeSet;

/// A further secret: a set of states, and its own K.
#[derive(Clone, Copy)]
pub struct Secret {
    pub states: u64,
    pub k: u8,
}

pub struct Automaton {
    pub states: usize,
    pub events: usize,
    pub k: u8,
    pub initial: u8,
    pub secret: u64,
    pub observable: u32,
    /// Bit `to` of word 64 * event + from.
    pub table: Box<[u64; 2048]>,
    /// What (a) gets in place of the table and the observable set, if events share symbols.
    pub shared: Option<Shared>,
}

/// An automaton in which several observable events have one symbol: the number of the first of them. A reader does not tell it from the automaton
/// that has one event for each symbol, with all their transitions, which is what (b), (c) and (d) get.
#[derive(Clone)]
pub struct Shared {
    pub table: Box<[u64; 2048]>,
    pub observable: u32,
    pub symbols: [u8; 32],
}

impl Automaton {
    pub fn new(states: usize, events: usize, k: u8, secret: u64, observable: u32, transitions: &[(usize, usize, usize)]) -> Self {
        let mut table = Box::new([0; 2048]);
        for &(from, event, to) in transitions {
            table[64 * event + from] |= 1 << to;
        }
        Automaton { states, events, k, initial: 0, secret, observable, table, shared: None }
    }

    pub fn with_k(&self, k: u8) -> Self {
        self.with_secret(Secret { states: self.secret, k })
    }

    /// With another secret, and its K, in place of its own.
    pub fn with_secret(&self, secret: Secret) -> Self {
        Automaton { k: secret.k, secret: secret.states, table: self.table.clone(), shared: self.shared.clone(), ..*self }
    }

    /// Three further secrets, each with as many states as its own and with its K. The initial state is in none, so that every enforcer starts.
    pub fn further(&self, seed: u64) -> [Secret; 3] {
        let mut random = Random(seed);
        [(); 3].map(|()| {
            let mut states: u64 = 0;
            while states.count_ones() < self.secret.count_ones() {
                states |= 1 << (1 + random.below(self.states - 1));
            }
            Secret { states, k: self.k }
        })
    }

    /// With so many symbols, shared by the observable events in turn.
    pub fn sharing(self, symbols: usize) -> Self {
        let mut shared = Shared { table: self.table.clone(), observable: self.observable, symbols: [0; 32] };
        let mut joined = Automaton { table: Box::new(*self.table), observable: 0, ..self };
        let observable: Vec<usize> = (0..32).filter(|e| shared.observable >> e & 1 == 1).collect();
        for (i, &event) in observable.iter().enumerate() {
            let symbol = observable[i % symbols];
            shared.symbols[event] = symbol as u8;
            joined.observable |= 1 << symbol;
            for q in (0..64).filter(|_| symbol != event) {
                joined.table[64 * symbol + q] |= shared.table[64 * event + q];
                joined.table[64 * event + q] = 0;
            }
        }
        joined.shared = Some(shared);
        joined
    }

    /// The table, the observable set and, where events share them, the symbols, as (a) gets them.
    pub fn lent(&self) -> (&[u64; 2048], u32, Option<&[u8; 32]>) {
        match &self.shared {
            Some(shared) => (&shared.table, shared.observable, Some(&shared.symbols)),
            None => (&self.table, self.observable, None),
        }
    }

    /// Those that (a) gets.
    pub fn transitions(&self) -> Vec<(usize, usize, usize)> {
        let mut list = Vec::new();
        for (word, &targets) in self.lent().0.iter().enumerate() {
            list.extend((0..64).filter(|to| targets >> to & 1 == 1).map(|to| (word % 64, word / 64, to)));
        }
        list
    }

    /// The packed encoding, if it has no more transitions than one can list.
    pub fn encode(&self) -> Option<Vec<u8>> {
        let transitions = self.transitions();
        (transitions.len() <= 1023).then(|| self.encode_as(&transitions, self.lent().2))
    }

    /// With these transitions as they stand, and with these symbols, if any.
    pub fn encode_as(&self, transitions: &[(usize, usize, usize)], symbols: Option<&[u8; 32]>) -> Vec<u8> {
        let mut bits = Vec::new();
        let mut field = |value: usize, width: usize| bits.extend((0..width).rev().map(|i| (value >> i & 1) as u8));
        field(self.states - 1, 6);
        field(self.events - 1, 5);
        field(self.k as usize, 4);
        field(self.initial as usize, 6);
        field(transitions.len(), 10);
        let observable = self.lent().1;
        field(symbols.is_some() as usize, 1);
        (0..self.states).for_each(|q| field((self.secret >> q & 1) as usize, 1));
        (0..self.events).for_each(|e| field((observable >> e & 1) as usize, 1));
        symbols.into_iter().for_each(|symbols| (0..self.events).for_each(|e| field(symbols[e] as usize, 5)));
        for &(from, event, to) in transitions {
            field(from, 6);
            field(event, 5);
            field(to, 6);
        }
        bits.resize(bits.len().div_ceil(8) * 8, 0);
        bits.chunks(8).map(|byte| byte.iter().fold(0, |number, bit| 2 * number + bit)).collect()
    }

    /// Where unobservable transitions lead from a set.
    pub fn silent(&self, set: u64) -> u64 {
        let mut reached = set;
        loop {
            let before = reached;
            for event in (0..32).filter(|e| self.observable >> e & 1 == 0) {
                reached |= self.image(event, reached);
            }
            if reached == before {
                return reached;
            }
        }
    }

    /// Where an event leads from a set.
    pub fn image(&self, event: usize, set: u64) -> u64 {
        (0..64).filter(|q| set >> q & 1 == 1).fold(0, |to, q| to | self.table[64 * event + q])
    }

    /// Where runs can be before the first event.
    pub fn first(&self) -> u64 {
        self.silent(1 << self.initial)
    }

    /// Where runs can be after one more event; none if no run is compatible with it.
    pub fn after(&self, estimate: u64, event: usize) -> u64 {
        if 31 < event || self.observable >> event & 1 == 0 { 0 } else { self.silent(self.image(event, estimate)) }
    }

    /// A trace that the automaton can show: each event is drawn from those that some run can go on with.
    pub fn trace(&self, length: usize, seed: u64) -> Vec<u8> {
        let mut random = Random(seed);
        let mut estimate = self.first();
        let mut trace = Vec::with_capacity(length);
        while trace.len() < length {
            let next: Vec<usize> = (0..32).filter(|&e| self.observable >> e & 1 == 1 && self.image(e, estimate) != 0).collect();
            assert!(!next.is_empty(), "the trace ends: no run goes on");
            let event = next[random.below(next.len())];
            estimate = self.after(estimate, event);
            trace.push(event as u8);
        }
        trace
    }
}

/// P of the requirements.
pub fn p() -> Automaton {
    Automaton::new(4, 3, 2, 0b10, 0b110, &[(0, 0, 2), (0, 1, 1), (1, 2, 0), (2, 1, 3), (3, 1, 3)])
}

/// What is drawn at random. The first events are the unobservable ones.
pub struct Drawn {
    pub states: usize,
    pub events: usize,
    pub k: u8,
    pub secret: usize,
    pub unobservable: usize,
    /// Transitions by unobservable events, and by all.
    pub silent: usize,
    pub transitions: usize,
}

/// An automaton with such numbers. The initial state is not secret, so that every enforcer starts.
pub fn drawn(numbers: Drawn, seed: u64) -> Automaton {
    let Drawn { states, events, k, secret: secrets, unobservable, silent, transitions } = numbers;
    let mut random = Random(seed);
    let mut set = BTreeSet::new();
    while set.len() < silent {
        set.insert((random.below(states), random.below(unobservable), random.below(states)));
    }
    // Each state has an observable transition, so that no trace ends.
    for from in 0..states {
        set.insert((from, unobservable + random.below(events - unobservable), random.below(states)));
    }
    while set.len() < transitions {
        set.insert((random.below(states), unobservable + random.below(events - unobservable), random.below(states)));
    }
    let mut secret: u64 = 0;
    while (secret.count_ones() as usize) < secrets {
        secret |= 1 << (1 + random.below(states - 1));
    }
    let all = (1u64 << events) - 1;
    let observable = (all >> unobservable << unobservable) as u32;
    Automaton::new(states, events, k, secret, observable, &set.into_iter().collect::<Vec<_>>())
}

pub fn mid() -> Automaton {
    drawn(Drawn { states: 16, events: 8, k: 4, secret: 4, unobservable: 2, silent: 16, transitions: 96 }, 2)
}

/// Of 64 states the largest that an encoding can list; of fewer, a part of it as dense.
pub fn large(states: usize) -> Automaton {
    drawn(Drawn { states, events: 32, k: 15, secret: states.div_ceil(16), unobservable: 4, silent: states, transitions: (16 * states).min(1023) }, 3)
}

/// A small one that differs with its number in everything.
pub fn small(number: u64) -> Automaton {
    let mut random = Random(number);
    let states = 2 + random.below(6);
    let events = 2 + random.below(4);
    let unobservable = 1 + random.below(events - 1);
    let silent = random.below(states + 1);
    let transitions = silent + states + random.below(states + 1);
    drawn(Drawn { states, events, k: random.below(16) as u8, secret: random.below(states), unobservable, silent, transitions }, number)
}

/// 64 unobservable transitions in a ring, left by the observable ones from near its end to its start: a closure goes through the states one by one.
/// The secret state can be avoided, so that both looks back go all the way.
pub fn chain() -> Automaton {
    let mut transitions: Vec<_> = (0..64).map(|q| (q, 0, (q + 1) % 64)).collect();
    transitions.extend([(62, 1, 0), (61, 2, 0)]);
    Automaton::new(64, 3, 15, 1 << 63, 0b110, &transitions)
}

/// The same ring with one state that is not secret, behind the one that the observable transition leaves: what excuses the system goes around twice at
/// first, and then once for each symbol.
pub fn around() -> Automaton {
    let mut transitions: Vec<_> = (0..64).map(|q| (q, 0, (q + 1) % 64)).collect();
    transitions.push((62, 1, 0));
    Automaton::new(64, 2, 15, !(1 << 63), 0b10, &transitions)
}

/// Every transition there is; all events but the last are unobservable. No encoding can list them: a caller may lend any table.
pub fn dense() -> Automaton {
    let mut automaton = Automaton::new(64, 32, 15, 0xffff_ffff_0000_0000, 1 << 31, &[]);
    automaton.table.fill(!0);
    automaton
}

/// An automaton to explore: 64 states, and so many observable events, which are the first ones; the one behind them is unobservable.
fn to_explore(k: u8, symbols: usize, secret: u64, transitions: &[(usize, usize, usize)]) -> Automaton {
    Automaton::new(64, symbols + 1, k, secret, ((1u64 << symbols) - 1) as u32, transitions)
}

/// The rings of `rings` and of `waves`: how many states each has. In both a run is where it was after 240 events, and not before.
pub const TWO: [usize; 2] = [16, 15];
pub const THREE: [usize; 3] = [16, 5, 3];

/// A chain of states, and rings behind it, one after the other; event 0 leads along the chain, from its end into every ring, and around.
fn chain_and_rings(chain: usize, rings: &[usize]) -> Vec<(usize, usize, usize)> {
    let mut transitions: Vec<_> = (1..chain).map(|i| (i - 1, 0, i)).collect();
    let mut first = chain;
    for length in rings {
        transitions.push((chain - 1, 0, first));
        transitions.extend((0..*length).map(|i| (first + i, 0, first + (i + 1) % length)));
        first += length;
    }
    transitions
}

/// The states of the rings in which runs are when so many symbols have followed the chain and its last event.
pub fn phase(chain: usize, rings: &[usize], after: usize) -> u64 {
    let mut first = chain;
    rings.iter().fold(0, |set, length| {
        first += length;
        set | 1 << (first - length + after % length)
    })
}

/// There is one trace of each length, and there are K + chain + 240 configurations, K being 15. The first states have one of the tail beside them each,
/// which a run may go to unobserved and does not leave.
pub fn rings(chain: usize, symbols: usize) -> Automaton {
    let mut transitions = chain_and_rings(chain, &TWO);
    let tail = chain + 31;
    transitions.extend((tail..64).map(|to| (to - tail, symbols, to)));
    to_explore(15, symbols, phase(chain, &TWO, 7), &transitions)
}

/// As many configurations. Every state leads unobserved into a tail that is crossed state by state, and begun again by event 0 from its end: as on
/// `chain` a closure goes through the states one by one, at each step back.
pub fn waves(chain: usize, symbols: usize) -> Automaton {
    let mut transitions = chain_and_rings(chain, &THREE);
    let tail = chain + 24;
    transitions.extend((0..tail).map(|from| (from, symbols, tail)));
    transitions.extend((tail..63).map(|from| (from, symbols, from + 1)));
    transitions.push((63, 0, tail));
    to_explore(15, symbols, phase(chain, &THREE, 7), &transitions)
}

/// Eight states behind a chain, each of which 31 events leave for one of the eight, with K 1: in nearly every one of the 1 + chain + 248 configurations
/// every symbol is accepted. From the eight a tail as in `waves` is crossed, which all events begin again.
pub fn hops(chain: usize) -> Automaton {
    let (symbols, tail) = (31, chain + 8);
    let mut transitions: Vec<_> = (0..chain).map(|i| (i, 0, i + 1)).collect();
    for i in 0..8 {
        transitions.extend((0..symbols).map(|event| (chain + i, event, chain + (i + event) % 8)));
        transitions.push((chain + i, symbols, tail));
    }
    transitions.extend((tail..63).map(|from| (from, symbols, from + 1)));
    transitions.extend((0..symbols).map(|event| (63, event, tail)));
    transitions.push((chain - 1, 0, tail));
    to_explore(1, symbols, 1 << (chain + 5), &transitions)
}
