//! Compares (b) and (d), with every block, and (c) with (a), event by event; and (a) with further secrets with (b) on each of them. A difference ends
//! the run with status 1.

use crate::automata::{Automaton, Secret};
use crate::canonical;
use crate::cases::Case;
use crate::excuses::Excused;
use crate::exploration::{self, Exploration, BUDGET_SPENT, MOST};
use crate::first_leak;
use crate::library::{self, Library};
use crate::native::Estimator;
use crate::plain::{self, Enforcer, Judgement, Queue, Release, Verifier, NONE};
use crate::random::Random;
use crate::rows::BLOCKS;
use crate::trajectories::Trajectories;
use crate::witness::{self, Asked, Run};
use std::fmt::Debug;
use std::time::{Duration, Instant};

/// (c) is stopped beyond this many trajectories, or after this time.
pub const CAP: usize = 300_000;
pub const TIME: Duration = Duration::from_millis(1000);

/// The released events and the estimate size, or the number of the refusal.
type Released = Result<(Vec<u8>, u8), u8>;

fn kept(release: Result<Release, u8>) -> Released {
    release.map(|(events, size)| (events.to_vec(), size))
}

/// The answers to one byte, each with the number of the refusal: both verdicts and the estimate size, and what a weak and a strong enforcer
/// release, with the estimate size.
#[derive(Debug, PartialEq)]
struct Answers {
    accept: Result<Judgement, u8>,
    weak: Released,
    /// None where the start is a strong leak.
    strong: Option<Released>,
}

impl Answers {
    /// Whether each gives this estimate size, or, where it is 0, refuses.
    fn agree(&self, size: u32) -> bool {
        let same = |given: Result<u8, u8>| given.map_or(0, u32::from) == size;
        let released = |release: &Released| same(release.as_ref().map(|(_, size)| *size).map_err(|&refusal| refusal));
        same(self.accept.map(|judgement| judgement[2])) && released(&self.weak) && self.strong.iter().all(released)
    }
}

trait Implementation {
    fn opening(&self) -> Judgement;
    fn answers(&mut self, byte: u8) -> Answers;
}

/// (a): its verifier and its weak enforcer, and its strong one.
struct Proved {
    opening: Judgement,
    weak: Library,
    strong: Option<Library>,
}

impl Proved {
    fn new(automaton: &Automaton) -> Self {
        let mut weak = Library::new(automaton);
        let opening = weak.fresh();
        weak.start(library::WEAK);
        let strong = (opening[1] == NONE).then(|| {
            let mut strong = Library::new(automaton);
            strong.start(library::STRONG);
            strong
        });
        Proved { opening, weak, strong }
    }
}

impl Implementation for Proved {
    fn opening(&self) -> Judgement {
        self.opening
    }

    fn answers(&mut self, byte: u8) -> Answers {
        Answers {
            accept: self.weak.accept(byte),
            weak: kept(self.weak.offer(byte)),
            strong: self.strong.as_mut().map(|strong| kept(strong.offer(byte))),
        }
    }
}

/// (b) or (d): V works out both verdicts, W the weak one alone.
struct Plain<'a, V, W> {
    automaton: &'a Automaton,
    opening: Judgement,
    verifier: V,
    weak: Enforcer<W, false>,
    strong: Option<Enforcer<V, true>>,
}

impl<'a, V: Verifier + 'a, W: Verifier + 'a> Plain<'a, V, W> {
    fn boxed(automaton: &'a Automaton) -> Box<dyn Implementation + 'a> {
        let (verifier, opening) = V::fresh(automaton);
        let strong = (opening[1] == NONE).then(|| Enforcer::start(automaton));
        Box::new(Plain { automaton, opening, verifier, weak: Enforcer::<W, false>::start(automaton), strong })
    }
}

impl<V: Verifier, W: Verifier> Implementation for Plain<'_, V, W> {
    fn opening(&self) -> Judgement {
        self.opening
    }

    fn answers(&mut self, byte: u8) -> Answers {
        let automaton = self.automaton;
        Answers {
            accept: self.verifier.accept(automaton, byte),
            weak: kept(self.weak.offer(automaton, byte)),
            strong: self.strong.as_mut().map(|strong| kept(strong.offer(automaton, byte))),
        }
    }
}

type Named<'a> = (&'static str, Box<dyn Implementation + 'a>);

fn others(automaton: &Automaton) -> Vec<Named<'_>> {
    fn both<const BLOCK: usize>(automaton: &Automaton) -> [Named<'_>; 2] {
        [
            ("(b)", Plain::<Estimator<true, BLOCK>, Estimator<false, BLOCK>>::boxed(automaton)),
            ("(d)", Plain::<Excused<true, BLOCK>, Excused<false, BLOCK>>::boxed(automaton)),
        ]
    }
    let blocks: [fn(&Automaton) -> [Named<'_>; 2]; BLOCKS.len()] = [both::<2>, both::<4>, both::<8>, both::<16>, both::<32>, both::<64>];
    blocks.into_iter().flat_map(|both| both(automaton)).collect()
}

fn differ(case: &Case, other: &str, event: usize, expected: impl Debug, got: impl Debug) -> ! {
    println!("MISMATCH on {}, event {event}: (a) {expected:?}, {other} {got:?}", case.name);
    std::process::exit(1);
}

/// How much was compared.
#[derive(Default)]
pub struct Compared {
    events: usize,
    refusals: usize,
    /// Events with a leak, weak and strong.
    weak: usize,
    strong: usize,
    /// Released by the weak and by the strong enforcer.
    releases: usize,
    strong_releases: usize,
    /// Events after which (c) was compared too.
    textbook: usize,
    /// Events after which (a) was compared with further secrets too, and leaks of these, weak and strong.
    several: usize,
    further_leaks: usize,
}

impl Compared {
    fn count(&mut self, answers: &Answers) {
        let [weak, strong, _] = answers.accept.unwrap_or([NONE; 3]);
        self.events += answers.accept.is_ok() as usize;
        self.refusals += answers.accept.is_err() as usize;
        self.weak += (weak != NONE) as usize;
        self.strong += (strong != NONE) as usize;
        self.releases += answers.weak.as_ref().map_or(0, |(events, _)| events.len());
        self.strong_releases += answers.strong.iter().flatten().map(|(events, _)| events.len()).sum::<usize>();
    }

    pub fn print_head() {
        println!(
            "{:<14} {:>8} {:>10} {:>12} {:>10} {:>10} {:>10} {:>12} {:>16} {:>14}",
            "automaton", "events", "weak leaks", "strong leaks", "released", "strongly", "refusals", "(c) events", "several secrets", "further leaks"
        );
    }

    pub fn print(&self, name: &str) {
        println!(
            "{name:<14} {:>8} {:>10} {:>12} {:>10} {:>10} {:>10} {:>12} {:>16} {:>14}",
            self.events, self.weak, self.strong, self.releases, self.strong_releases, self.refusals, self.textbook, self.several, self.further_leaks
        );
    }
}

/// Compares (b) and (d) with (a) on the whole trace, with a byte that is to be refused before each event; the estimate sizes of (a), and whether it
/// refuses, also with the estimates by which traces are drawn.
pub fn compare(case: &Case, compared: &mut Compared) {
    let automaton = &case.automaton;
    let mut a = Proved::new(automaton);
    let mut others = others(automaton);
    for (name, other) in &others {
        if a.opening() != other.opening() {
            differ(case, name, 0, a.opening(), other.opening());
        }
    }
    let mut estimate = automaton.first();
    if a.opening()[2] as u32 != estimate.count_ones() {
        differ(case, "estimate", 0, a.opening(), estimate);
    }
    for (i, &event) in case.trace.iter().enumerate() {
        let stray = (i % 256) as u8;
        let refused = (automaton.after(estimate, stray as usize) == 0).then_some(stray);
        for byte in refused.into_iter().chain([event]) {
            let expected = a.answers(byte);
            let after = automaton.after(estimate, byte as usize);
            if !expected.agree(after.count_ones()) {
                differ(case, "estimate", i, expected, (byte, after));
            }
            for (name, other) in &mut others {
                let got = other.answers(byte);
                if got != expected {
                    differ(case, name, i, expected, got);
                }
            }
            compared.count(&expected);
        }
        estimate = automaton.after(estimate, event as usize);
    }
}

/// (b) on each secret alone, with an enforcer for all of them: an event waits for the longest of its waits.
struct Several {
    alone: Vec<(Automaton, Estimator<true, 16>)>,
    /// Weak, and strong where no secret opens as a leak.
    queues: [Option<Queue>; 2],
}

impl Several {
    /// With what is told of the opening, secret by secret.
    fn new(case: &Case) -> (Self, Vec<Judgement>) {
        let own = Secret { states: case.automaton.secret, k: case.automaton.k };
        let automata = std::iter::once(&own).chain(&case.further).map(|&secret| case.automaton.with_secret(secret));
        let (alone, opening): (Vec<_>, Vec<_>) = automata
            .map(|automaton| {
                let (verifier, opening) = Estimator::fresh(&automaton);
                ((automaton, verifier), opening)
            })
            .unzip();
        let queues = [0, 1].map(|notion| opening.iter().all(|judgement| judgement[notion] == NONE).then(Queue::new));
        (Several { alone, queues }, opening)
    }

    /// What is told of each secret, and what each enforcer releases.
    fn answers(&mut self, byte: u8) -> Result<(Vec<Judgement>, [Option<Vec<u8>>; 2]), u8> {
        let told: Result<Vec<_>, u8> = self.alone.iter_mut().map(|(automaton, verifier)| verifier.accept(automaton, byte)).collect();
        let told = told?;
        let waits = [0, 1].map(|notion| self.alone.iter().zip(&told).map(|((automaton, _), judgement)| plain::wait(automaton.k, judgement[notion])).max());
        let mut notions = self.queues.iter_mut().zip(waits);
        let released = [(); 2].map(|()| notions.next().and_then(|(queue, wait)| Some(queue.as_mut()?.push_waiting(byte, wait?).to_vec())));
        Ok((told, released))
    }
}

/// Compares (a) with further secrets with (b) on each secret alone, on the whole trace.
pub fn compare_several(case: &Case, compared: &mut Compared) {
    let (mut b, opening) = Several::new(case);
    let mut a = [0, 1].map(|_| Library::with(&case.automaton, &case.further));
    a[0].fresh();
    let told = |a: &Library| (0..opening.len()).map(|number| a.told(number)).collect::<Vec<_>>();
    if told(&a[0]) != opening {
        differ(case, "(b), several secrets", 0, told(&a[0]), &opening);
    }
    for (notion, a) in a.iter_mut().enumerate() {
        if b.queues[notion].is_some() {
            a.start(notion as u8);
        }
    }
    for (i, &event) in case.trace.iter().enumerate() {
        let stray = (i % 256) as u8;
        let refused = plain::refuse_unobservable(&case.automaton, stray).is_err().then_some(stray);
        for byte in refused.into_iter().chain([event]) {
            let expected = a[0].accept(byte).map(|_| told(&a[0]));
            let released = [0, 1].map(|notion| b.queues[notion].is_some().then(|| kept(a[notion].offer(byte))));
            let got = b.answers(byte);
            let same = match (&expected, &got) {
                (Ok(expected), Ok((told, queues))) => {
                    compared.several += 1;
                    compared.further_leaks += told[1..].iter().flat_map(|judgement| &judgement[..2]).filter(|&&verdict| verdict != NONE).count();
                    let size = told[0][2];
                    let as_queued = |(given, queue): (&Option<Released>, &Option<Vec<u8>>)| *given == queue.clone().map(|events| Ok((events, size)));
                    expected == told && released.iter().zip(queues).all(as_queued)
                }
                (Err(expected), Err(got)) => expected == got && released.iter().flatten().all(|given| given.as_ref() == Err(got)),
                _ => false,
            };
            if !same {
                differ(case, "(b), several secrets", i, (expected, released), got);
            }
        }
    }
}

/// Compares what (a) gives for an event, and as the estimate size of an offer, with (c), with and without Booleans.
fn compare_trajectories(
    case: &Case, event: usize, accepted: Result<Judgement, u8>, offered: Result<u8, u8>, c: &Trajectories<true>, c_weak: &Trajectories<false>,
) {
    let got = [c.weak(), c.strong(), c.estimate_size()];
    if accepted != Ok(got) {
        differ(case, "(c)", event, accepted, got);
    }
    let weak = [c_weak.weak(), c_weak.estimate_size()];
    if weak != [got[0], got[2]] || offered != Ok(weak[1]) {
        differ(case, "(c), weak", event, (accepted, offered), weak);
    }
}

/// Compares (c) with (a), as far as it gets. It has no queue: of an offer the estimate size is compared.
pub fn compare_textbook(case: &Case, compared: &mut Compared) {
    let mut a = Library::new(&case.automaton);
    let opening = a.fresh();
    a.start(library::WEAK);
    let mut c = Trajectories::<true>::new(&case.automaton, CAP);
    c.fresh();
    let mut c_weak = Trajectories::<false>::new(&case.automaton, CAP);
    c_weak.fresh();
    compare_trajectories(case, 0, Ok(opening), Ok(opening[2]), &c, &c_weak);
    let begun = Instant::now();
    for (i, &event) in case.trace.iter().enumerate() {
        if TIME <= begun.elapsed() || c.push(event).is_err() || c_weak.push(event).is_err() {
            return;
        }
        compare_trajectories(case, i, a.accept(event), a.offer(event).map(|(_, size)| size), &c, &c_weak);
        compared.textbook += 1;
    }
}

/// How many explorations were compared: whole ones, with the sum of their configurations, those of which some secret waits, and those that spent the
/// largest budget.
#[derive(Default)]
pub struct ComparedExplorations {
    pub whole: usize,
    pub configurations: usize,
    pub waiting: usize,
    pub spent: usize,
}

/// Compares explorations of (a) with plain ones, with the further secrets and without: with the largest budget, larger ones, none, and those around the
/// number of configurations.
pub fn compare_explorations(name: &str, automaton: &Automaton, further: &[Secret], compared: &mut ComparedExplorations) {
    for given in [&[], further] {
        let mut a = Library::with(automaton, given);
        let expected = exploration::explore(automaton, given, MOST);
        let number = expected.map_or(MOST, |(number, _, _)| number as u32);
        let within = |budget: u32| if budget < number { Err(BUDGET_SPENT) } else { expected };
        for budget in [MOST, MOST + 1, 65_536, u32::MAX, 0, 1, number - 1, number] {
            let got: Exploration = a.explore(budget);
            if got != within(budget) {
                println!("MISMATCH on {name}, budget {budget}, {} further secrets: (a) {got:?}, plain {:?}", given.len(), within(budget));
                std::process::exit(1);
            }
        }
        // The plain one counts for itself too, and not by what it found with the largest budget.
        assert_eq!(exploration::explore(automaton, given, number - 1), within(number - 1));
        compared.whole += expected.is_ok() as usize;
        compared.configurations += expected.map_or(0, |(number, _, _)| number);
        compared.waiting += expected.is_ok_and(|(_, weak, strong)| 0 < weak.max(strong)) as usize;
        compared.spent += expected.is_err() as usize;
    }
}

/// How many first leaks were looked for: those that were found, the sum of their places and of the refused bytes before them, and lists without.
#[derive(Default)]
pub struct ComparedLeaks {
    pub found: usize,
    pub places: u64,
    pub refused: u64,
    pub none: usize,
}

/// Compares first leaks of (a) with plain ones, by each notion, with the further secrets and without, on offered bytes of which some are refused: on all of
/// them, as far as the leak, with other bytes behind it, and up to the byte before it.
pub fn compare_leaks(case: &Case, calm: usize, length: usize, seed: u64, compared: &mut ComparedLeaks) {
    let bytes = first_leak::offered(&case.automaton, calm, length, seed);
    for (given, notion) in [(&[][..], 0), (&[], 1), (&case.further, 0), (&case.further, 1)] {
        let mut a = Library::with(&case.automaton, given);
        let mut same = |offered: &[u8], expected: Option<u64>| {
            let got = a.first_leak(notion, offered);
            if got != expected {
                differ(case, &format!("plain, first leak, notion {notion}, {} further secrets", given.len()), offered.len(), got, expected);
            }
        };
        match first_leak::first_leak(&case.automaton, given, notion as usize, &bytes) {
            Some((place, offered)) => {
                let behind: Vec<u8> = bytes[..offered].iter().chain(bytes.iter().rev()).copied().collect();
                [&bytes, &bytes[..offered], &behind].into_iter().for_each(|bytes| same(bytes, Some(place)));
                same(&bytes[..offered - 1], None);
                compared.found += 1;
                compared.places += place;
                compared.refused += offered as u64 - place;
            }
            None => {
                same(&bytes, None);
                compared.none += 1;
            }
        }
    }
}

/// How many encodings were written in their canonical form: with the sum of their bytes, those that were shorter, since they need no symbols, and those
/// that were the form already.
#[derive(Default)]
pub struct ComparedForms {
    pub written: usize,
    pub bytes: usize,
    pub shorter: usize,
    pub same: usize,
}

/// Compares the canonical form that (a) writes with the plain one, of encodings with the transitions in any order, with symbols and without: with the
/// largest space, with as many bytes as it has and with one fewer, and of the form itself.
pub fn compare_forms(case: &Case, seed: u64, compared: &mut ComparedForms) {
    let (automaton, expected) = (&case.automaton, canonical::form(&case.automaton));
    let mut a = Library::new(automaton);
    let mut same = |encoding: &[u8], space: usize, expected: Result<&[u8], u8>| {
        let got = a.canonical(encoding, space);
        if got != expected {
            differ(case, "plain, canonical form", space, got, expected);
        }
    };
    for listed in [false, true] {
        let encoding = canonical::shuffled(automaton, listed, seed);
        [canonical::MOST, expected.len()].into_iter().for_each(|space| same(&encoding, space, Ok(&expected)));
        same(&encoding, expected.len() - 1, Err(canonical::OUTPUT_TOO_SMALL));
        same(&expected, canonical::MOST, Ok(&expected));
        compared.written += 1;
        compared.bytes += expected.len();
        compared.shorter += (expected.len() < encoding.len()) as usize;
        compared.same += (expected == encoding) as usize;
    }
}

/// How many witnesses were compared.
#[derive(Default)]
pub struct ComparedWitnesses {
    pub written: usize,
    pub most: usize,
    pub none: usize,
    pub far: usize,
    pub altered: usize,
    pub still: usize,
}

/// Asks (a) for witnesses of every secret, one more than are given, by both notions, for each step up to 16, after some of the first symbols of a trace:
/// there is one exactly where the plain search finds one. What (a) writes passes the plain checker and its own; and of altered runs both say the same.
pub fn compare_witnesses(case: &Case, lengths: &[usize], seed: u64, compared: &mut ComparedWitnesses) {
    let automaton = &case.automaton;
    let entries = witness::entries(automaton, &case.trace);
    let mut a = Library::with(automaton, &case.further);
    let mut random = Random(seed);
    let mut n = 0;
    a.fresh();
    for &length in lengths {
        while n < length {
            assert!(a.accept(case.trace[n]).is_ok(), "accept");
            n += 1;
        }
        for number in 0..case.further.len() + 2 {
            let secret = if number == 0 { Some(Secret { states: automaton.secret, k: automaton.k }) } else { case.further.get(number - 1).copied() };
            for (notion, k) in witness::steps(16) {
                let got = a.witness(notion, number as u8, k);
                let back = k as usize;
                let Some(secret) = secret.filter(|secret| k <= secret.k && back <= n) else {
                    compared.far += 1;
                    if got != Err(witness::TOO_FAR) || a.check_witness(notion, number as u8, k, 0, &[]) {
                        differ(case, "too far, witness", n, got, (notion, number, k));
                    }
                    continue;
                };
                let asked = Asked { automaton, notion, secret: secret.states, entry: entries[n - back], last: &case.trace[n - back..n] };
                let plain = asked.search();
                match (&got, &plain) {
                    (Err(witness::NO_WITNESS), None) => compared.none += 1,
                    (Ok((start, pairs)), Some((first, others))) => {
                        let valid = asked.check(*start, pairs) && asked.check(*first, others);
                        if !valid || !a.check_witness(notion, number as u8, k, *start, pairs) || !a.check_witness(notion, number as u8, k, *first, others) {
                            differ(case, "plain, checked witness", n, &got, &plain);
                        }
                        compared.written += 1;
                        compared.most = compared.most.max(pairs.len() / 2);
                    }
                    _ => differ(case, "plain, witness", n, &got, &plain),
                }
                let (start, pairs) = altered(plain.or(got.ok()).unwrap_or_default(), &mut random);
                let valid = asked.check(start, &pairs);
                if a.check_witness(notion, number as u8, k, start, &pairs) != valid {
                    differ(case, "plain, check of an altered witness", n, !valid, (valid, start, pairs));
                }
                compared.altered += 1;
                compared.still += valid as usize;
            }
        }
    }
}

/// A run with another start, another byte, one more or one less, or a pair twice.
fn altered((start, mut pairs): Run, random: &mut Random) -> Run {
    let at = if pairs.is_empty() { 0 } else { random.below(pairs.len()) };
    match random.below(5) {
        0 => return (random.below(66) as u8, pairs),
        1 if !pairs.is_empty() => pairs[at] = random.below(66) as u8,
        2 if !pairs.is_empty() => drop(pairs.pop()),
        3 => pairs.extend([random.below(33) as u8, random.below(65) as u8]),
        _ if !pairs.is_empty() => {
            let pair = [pairs[at / 2 * 2], pairs[at / 2 * 2 + 1]];
            pairs.splice(at / 2 * 2..at / 2 * 2, pair);
        }
        _ => pairs.push(random.below(33) as u8),
    }
    (start, pairs)
}
