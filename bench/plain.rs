//! What (b) and (d) have in common: a verifier keeps a state of its own from event to event, and an enforcer has a queue behind a verifier.

use crate::automata::Automaton;

/// The verdict "no leak".
pub const NONE: u8 = 255;

/// The weak verdict, the strong one, and the estimate size; the strong verdict is `NONE` where it is not worked out.
pub type Judgement = [u8; 3];

/// The released events, and the estimate size: that of all accepted events, pending ones among them.
pub type Release<'a> = (&'a [u8], u8);

pub trait Verifier: Sized {
    /// The state of the empty trace, and its judgement.
    fn fresh(automaton: &Automaton) -> (Self, Judgement);
    /// The judgement, or the number of the refusal.
    fn accept(&mut self, automaton: &Automaton, event: u8) -> Result<Judgement, u8>;
}

/// The refusal of a byte that is not an observable event.
#[inline(always)]
pub fn refuse_unobservable(automaton: &Automaton, event: u8) -> Result<(), u8> {
    if 31 < event || automaton.observable >> event & 1 == 0 { Err(6) } else { Ok(()) }
}

/// How many further events make a trace with this verdict safe.
#[inline(always)]
pub fn wait(k: u8, verdict: u8) -> u8 {
    if verdict == NONE { 0 } else { k + 1 - verdict }
}

/// Pending events in a ring, each with the number of accepted events at which its wait is over.
pub struct Queue {
    accepted: u64,
    first: usize,
    count: usize,
    pending: [u8; 32],
    due: [u64; 32],
    output: [u8; 17],
}

impl Queue {
    pub fn new() -> Self {
        Queue { accepted: 0, first: 0, count: 0, pending: [0; 32], due: [0; 32], output: [0; 17] }
    }

    /// Takes in an event with its verdict, and gives the released ones.
    #[inline(always)]
    pub fn push(&mut self, k: u8, event: u8, verdict: u8) -> &[u8] {
        self.push_waiting(event, wait(k, verdict))
    }

    /// Takes in an event that waits for so many further ones, and gives the released ones.
    #[inline(always)]
    pub fn push_waiting(&mut self, event: u8, wait: u8) -> &[u8] {
        self.accepted += 1;
        let last = (self.first + self.count) % 32;
        self.pending[last] = event;
        self.due[last] = self.accepted + wait as u64;
        self.count += 1;
        self.release()
    }

    #[inline(always)]
    fn release(&mut self) -> &[u8] {
        let mut released = 0;
        while 0 < self.count && self.due[self.first] <= self.accepted {
            self.output[released] = self.pending[self.first];
            released += 1;
            self.first = (self.first + 1) % 32;
            self.count -= 1;
        }
        &self.output[..released]
    }
}

/// An enforcer, weak or strong.
pub struct Enforcer<V, const STRONG: bool> {
    verifier: V,
    queue: Queue,
}

impl<V: Verifier, const STRONG: bool> Enforcer<V, STRONG> {
    pub fn start(automaton: &Automaton) -> Self {
        Enforcer { verifier: V::fresh(automaton).0, queue: Queue::new() }
    }

    /// The released events and the estimate size, or the number of the refusal.
    pub fn offer(&mut self, automaton: &Automaton, event: u8) -> Result<Release<'_>, u8> {
        let judgement = self.verifier.accept(automaton, event)?;
        Ok((self.queue.push(automaton.k, event, judgement[STRONG as usize]), judgement[2]))
    }
}
