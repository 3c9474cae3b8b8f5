//! Nanoseconds an event.

use crate::automata::Automaton;
use crate::canonical;
use crate::cases::{Case, EVENTS};
use crate::clock;
use crate::compare::{CAP, TIME};
use crate::excuses::Excused;
use crate::exploration::MOST;
use crate::library::{self, Library};
use crate::native::{self, Estimator, Silent};
use crate::plain::{Enforcer, Queue, Verifier};
use crate::rows::BLOCKS;
use crate::trajectories::Trajectories;
use crate::witness::{self, Asked};
use std::hint::black_box;
use std::time::Instant;

/// The best of ROUNDS * REPETITIONS passes over a trace counts. A round goes through everything that is measured, so that a busy minute of the
/// machine does not hit all passes over one automaton.
pub const ROUNDS: usize = 20;
pub const REPETITIONS: usize = 3;

#[derive(Clone, Copy, PartialEq)]
pub enum Job {
    /// Both verdicts and the estimate size for each event.
    Accept,
    /// The events that a weak enforcer releases, and the estimate size.
    Offer,
}

impl Job {
    pub fn name(self) -> &'static str {
        match self {
            Job::Accept => "accept",
            Job::Offer => "offer",
        }
    }
}

/// A pass of (b) or (d) over a trace, on a state that is made anew.
type Pass = fn(&Automaton, &[u8]);

fn accept_all<V: Verifier>(automaton: &Automaton, trace: &[u8]) {
    let (mut verifier, _) = V::fresh(automaton);
    for &event in trace {
        let _ = black_box(verifier.accept(black_box(automaton), black_box(event)));
    }
}

fn offer_all<V: Verifier>(automaton: &Automaton, trace: &[u8]) {
    let mut enforcer = Enforcer::<V, false>::start(automaton);
    for &event in trace {
        let _ = black_box(enforcer.offer(black_box(automaton), black_box(event)));
    }
}

/// One pass for each of BLOCKS.
macro_rules! each_block {
    ($all:ident, $verifier:ident, $strong:literal) => {
        [
            $all::<$verifier<$strong, 2>>, $all::<$verifier<$strong, 4>>, $all::<$verifier<$strong, 8>>, $all::<$verifier<$strong, 16>>,
            $all::<$verifier<$strong, 32>>, $all::<$verifier<$strong, 64>>,
        ]
    };
}

fn native_passes(job: Job) -> [Pass; BLOCKS.len()] {
    match job {
        Job::Accept => each_block!(accept_all, Estimator, true),
        Job::Offer => each_block!(offer_all, Estimator, false),
    }
}

fn excuses_passes(job: Job) -> [Pass; BLOCKS.len()] {
    match job {
        Job::Accept => each_block!(accept_all, Excused, true),
        Job::Offer => each_block!(offer_all, Excused, false),
    }
}

/// (a) over some events of a trace.
fn library_events(job: Job, library: &mut Library, events: &[u8]) {
    match job {
        Job::Accept => {
            for &event in events {
                let _ = black_box(library.accept(black_box(event)));
            }
        }
        Job::Offer => {
            for &event in events {
                let _ = black_box(library.offer(black_box(event)));
            }
        }
    }
}

/// (a) over a trace.
fn library_pass(job: Job, library: &mut Library, trace: &[u8]) {
    match job {
        Job::Accept => {
            library.fresh();
        }
        Job::Offer => library.start(library::WEAK),
    }
    library_events(job, library, trace);
}

/// (b') over a trace. All is known from the start, so that the block does not matter.
fn kept_pass(job: Job, automaton: &Automaton, kept: &mut Silent<16>, trace: &[u8]) {
    match job {
        Job::Accept => {
            let (mut estimator, _) = Estimator::<true, 16>::fresh(automaton);
            for &event in trace {
                let _ = black_box(estimator.accept_with(automaton, black_box(kept), black_box(event)));
            }
        }
        Job::Offer => {
            let (mut estimator, _) = Estimator::<false, 16>::fresh(automaton);
            let mut queue = Queue::new();
            for &event in trace {
                let _ = black_box(native::offer_with(&mut estimator, &mut queue, automaton, black_box(kept), black_box(event)));
            }
        }
    }
}

/// The least time so far.
#[derive(Clone, Copy)]
pub struct Least(pub f64);

impl Least {
    pub const NEW: Least = Least(f64::INFINITY);

    fn time(&mut self, events: usize, pass: impl FnOnce()) {
        let begun = clock::now();
        pass();
        self.0 = self.0.min((clock::now() - begun).as_nanos() as f64 / events as f64);
    }
}

/// The least times of one job on one case, of (a) also with the further secrets, of (b) and (d) with each block.
#[derive(Clone, Copy)]
pub struct Times {
    pub library: Least,
    pub several: Least,
    pub native: [Least; BLOCKS.len()],
    pub kept: Least,
    pub excuses: [Least; BLOCKS.len()],
}

impl Times {
    pub const NEW: Times =
        Times { library: Least::NEW, several: Least::NEW, native: [Least::NEW; BLOCKS.len()], kept: Least::NEW, excuses: [Least::NEW; BLOCKS.len()] };

    /// The implementations take turns, so that a disturbance hits all of them.
    pub fn measure(&mut self, job: Job, case: &Case) {
        let (automaton, trace) = (&case.automaton, &case.trace[..]);
        let mut library = Library::new(automaton);
        let mut several = Library::with(automaton, &case.further);
        let mut kept = Silent::whole(automaton);
        for _ in 0..REPETITIONS {
            self.library.time(trace.len(), || library_pass(job, &mut library, trace));
            self.several.time(trace.len(), || library_pass(job, &mut several, trace));
            self.kept.time(trace.len(), || kept_pass(job, automaton, &mut kept, trace));
            for (least, pass) in self.native.iter_mut().zip(native_passes(job)) {
                least.time(trace.len(), || pass(automaton, trace));
            }
            for (least, pass) in self.excuses.iter_mut().zip(excuses_passes(job)) {
                least.time(trace.len(), || pass(automaton, trace));
            }
        }
    }
}

/// The time with the best block, and that block.
pub fn best(times: &[Least; BLOCKS.len()]) -> (f64, usize) {
    let (time, block) = times.iter().zip(BLOCKS).min_by(|x, y| x.0 .0.total_cmp(&y.0 .0)).unwrap();
    (time.0, block)
}

/// (a) alone.
pub fn measure_library(job: Job, case: &Case, least: &mut Least) {
    let mut library = Library::new(&case.automaton);
    for _ in 0..REPETITIONS {
        least.time(case.trace.len(), || library_pass(job, &mut library, &case.trace));
    }
}

/// Nanoseconds in which (a) decodes an automaton.
pub fn measure_decoding(automaton: &Automaton, encoding: &[u8]) -> Least {
    let mut library = Library::new(automaton);
    let mut least = Least::NEW;
    for _ in 0..ROUNDS * REPETITIONS {
        least.time(1, || assert_eq!(black_box(&mut library).call_decode(&library::PROVED, black_box(encoding)), 0, "decode"));
    }
    least
}

/// Nanoseconds in which (a) writes the canonical form of an encoding.
pub fn measure_canonical(automaton: &Automaton, encoding: &[u8]) -> Least {
    let mut library = Library::new(automaton);
    let mut least = Least::NEW;
    for _ in 0..ROUNDS * REPETITIONS {
        least.time(1, || assert_eq!(black_box(&mut library).call_canonical(&library::PROVED, black_box(encoding), canonical::MOST), 0, "canonical"));
    }
    least
}

/// Of the witnesses of the own secret after a trace, by both notions and for every step: how many there are, and the pairs of the longest; the
/// nanoseconds that the slowest takes (a) to write, to check, and the plain search to find, one that does not exist among them; and for all together.
pub struct Witnessed {
    pub written: usize,
    pub most: usize,
    pub slowest: [f64; 3],
    pub all: [f64; 3],
}

pub fn measure_witnesses(case: &Case) -> Witnessed {
    let (automaton, trace) = (&case.automaton, &case.trace[..]);
    let entries = witness::entries(automaton, trace);
    let mut library = Library::new(automaton);
    library_pass(Job::Accept, &mut library, trace);
    let mut measured = Witnessed { written: 0, most: 0, slowest: [0.0; 3], all: [0.0; 3] };
    for (notion, k) in witness::steps(automaton.k) {
        let from = trace.len() - k as usize;
        let asked = Asked { automaton, notion, secret: automaton.secret, entry: entries[from], last: &trace[from..] };
        let run = library.witness(notion, 0, k);
        let (start, pairs) = run.clone().unwrap_or_default();
        let mut least = [Least::NEW; 3];
        for _ in 0..ROUNDS * REPETITIONS {
            least[0].time(1, || {
                let _ = black_box(black_box(&mut library).call_witness(&library::PROVED, notion, 0, black_box(k)));
            });
            least[1].time(1, || {
                let _ = black_box(black_box(&mut library).call_check_witness(&library::PROVED, notion, 0, k, start, black_box(&pairs)));
            });
            least[2].time(1, || drop(black_box(black_box(&asked).search())));
        }
        measured.written += run.is_ok() as usize;
        measured.most = measured.most.max(pairs.len() / 2);
        for (i, least) in least.into_iter().enumerate() {
            measured.slowest[i] = measured.slowest[i].max(least.0);
            measured.all[i] += least.0;
        }
    }
    measured
}

/// Nanoseconds in which (a) explores an automaton with the largest budget.
pub fn measure_exploration(library: &mut Library) -> Least {
    let mut least = Least::NEW;
    for _ in 0..ROUNDS * REPETITIONS {
        least.time(1, || {
            let _ = black_box(black_box(&mut *library).explore(black_box(MOST)));
        });
    }
    least
}

/// Nanoseconds a symbol of a long list in which nothing leaks: an accept, and the first leak by each notion.
pub fn measure_leaks(automaton: &Automaton, symbols: &[u8]) -> [Least; 3] {
    let mut library = Library::new(automaton);
    let mut least = [Least::NEW; 3];
    for _ in 0..REPETITIONS {
        least[0].time(symbols.len(), || library_pass(Job::Accept, &mut library, symbols));
        for notion in [library::WEAK, library::STRONG] {
            least[1 + notion as usize].time(symbols.len(), || assert_eq!(black_box(&mut library).first_leak(notion, black_box(symbols)), None));
        }
    }
    least
}

/// (a) alone, accept and offer, on a trace that is too long to be passed undisturbed: the best of each piece of it is kept, and their mean counts.
pub struct Long {
    pub trace: Vec<u8>,
    least: Vec<[Least; 2]>,
}

impl Long {
    pub fn new(automaton: &Automaton, length: usize) -> Self {
        Long { trace: automaton.trace(length, 1), least: vec![[Least::NEW; 2]; length / EVENTS] }
    }

    pub fn pass(&mut self, library: &mut Library) {
        library.fresh();
        library.start(library::WEAK);
        for (piece, [accept, offer]) in self.trace.chunks_exact(EVENTS).zip(&mut self.least) {
            accept.time(EVENTS, || library_events(Job::Accept, library, piece));
            offer.time(EVENTS, || library_events(Job::Offer, library, piece));
        }
    }

    pub fn means(&self) -> [f64; 2] {
        [0, 1].map(|job| self.least.iter().map(|piece| piece[job].0).sum::<f64>() / self.least.len() as f64)
    }
}

/// What (c) costs: the mean of the events that it got through in the time, or, beyond the cap, the time of the event that it gave up in.
pub enum Cost {
    Mean { nanoseconds: f64, events: usize, most: usize },
    Above { nanoseconds: f64, event: usize },
}

pub fn measure_textbook(job: Job, case: &Case) -> Cost {
    match job {
        Job::Accept => textbook::<true>(&case.automaton, &case.trace),
        Job::Offer => textbook::<false>(&case.automaton, &case.trace),
    }
}

fn textbook<const BOOLEANS: bool>(automaton: &Automaton, trace: &[u8]) -> Cost {
    let mut c = Trajectories::<BOOLEANS>::new(automaton, CAP);
    let begun = Instant::now();
    let mut cost = Cost::Mean { nanoseconds: f64::INFINITY, events: 0, most: 0 };
    while begun.elapsed() < TIME / 2 {
        c.fresh();
        let mut done = 0;
        let mut most = 0;
        let start = clock::now();
        for &event in trace {
            if c.push(event).is_err() {
                return gave_up(&mut c, trace, done);
            }
            black_box(c.weak());
            if BOOLEANS {
                black_box(c.strong());
            }
            black_box(c.estimate_size());
            done += 1;
            most = most.max(c.size());
            // The clock is not looked at while the sets are small: it would cost more than they do.
            if 1_000 < c.size() && TIME < begun.elapsed() {
                break;
            }
        }
        let mean = (clock::now() - start).as_nanos() as f64 / done as f64;
        match cost {
            Cost::Mean { nanoseconds, events, .. } if events < done || mean < nanoseconds => cost = Cost::Mean { nanoseconds: mean, events: done, most },
            _ => {}
        }
    }
    cost
}

/// The best time of the event that leads beyond the cap.
fn gave_up<const BOOLEANS: bool>(c: &mut Trajectories<BOOLEANS>, trace: &[u8], done: usize) -> Cost {
    let mut least = Least::NEW;
    for _ in 0..8 {
        c.fresh();
        for &event in &trace[..done] {
            let _ = c.push(event);
        }
        least.time(1, || drop(c.push(trace[done])));
    }
    Cost::Above { nanoseconds: least.0, event: done + 1 }
}

impl Cost {
    pub fn nanoseconds(&self) -> f64 {
        match self {
            Cost::Mean { nanoseconds, .. } | Cost::Above { nanoseconds, .. } => *nanoseconds,
        }
    }

    pub fn sign(&self) -> &'static str {
        match self {
            Cost::Mean { .. } => "",
            Cost::Above { .. } => "> ",
        }
    }

    pub fn remark(&self) -> String {
        match self {
            Cost::Mean { events, most, .. } => format!("up to {most} trajectories, {events} events"),
            Cost::Above { event, .. } => format!("over {CAP} trajectories at event {event}"),
        }
    }
}
