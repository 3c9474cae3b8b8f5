//! Measures four implementations of two jobs side by side: (a) the proved library, (b) plain Rust written for speed, (c) the textbook's trajectory
//! estimator, (d) plain Rust that carries excuses forward. The jobs: `accept`, both verdicts and the estimate size for each event, and `offer`, the
//! events that a weak enforcer releases and the estimate size. Each is done with one secret, and by (a) once more with three further ones. Every
//! verdict, release and estimate size is compared first, event by event. Explorations of (a) are compared with plain ones, and measured, and so are first
//! leaks, canonical forms and witnesses. A difference or a missed goal ends the run with status 1.

mod automata;
mod canonical;
mod cases;
mod clock;
mod compare;
mod excuses;
mod exploration;
mod first_leak;
mod library;
mod measure;
mod native;
mod plain;
mod random;
mod rows;
mod stack;
mod trajectories;
mod witness;

use automata::{Automaton, Secret};
use cases::{Case, ToExplore, EVENTS};
use compare::{Compared, ComparedExplorations, ComparedForms, ComparedLeaks, ComparedWitnesses};
use library::Library;
use measure::{Job, Least, Long, Times, Witnessed};
use rows::BLOCKS;
use std::hint::black_box;
use std::time::{Duration, Instant};

/// The goals. (a) takes at most so many times as long as (b) with its best block.
const TIMES_NATIVE: f64 = 1.5;
/// (c) takes at least so many times as long as (a), on the large automata.
const TIMES_TEXTBOOK: f64 = 20.0;
/// With three further secrets (a) takes less than so many times as long as with none.
const TIMES_SEVERAL: f64 = 3.0;
/// An event of the longest trace takes at most so many times as long as one of the shortest: no growth, but for the clock.
const TIMES_LONG: f64 = 1.2;
/// Bytes of stack of each function but `opacity_explore`.
const STACK: usize = 8 * 1024;
/// Milliseconds in which the longest encoding is decoded: it lists 1,023 transitions, and each is compared with all before it.
const DECODING: f64 = 20.0;
/// Milliseconds in which the canonical form of the longest encoding is written.
const CANONICAL: f64 = 20.0;
/// Milliseconds in which an automaton is explored with the largest budget, whether it is spent or not.
const EXPLORING: f64 = 100.0;
/// Milliseconds in which a witness is written.
const WITNESS: f64 = 1.0;
/// How many symbols a long log has in which the first leak is looked for.
const LOG: usize = 1_000_000;

const JOBS: [Job; 2] = [Job::Accept, Job::Offer];

/// The goals that were missed, in words.
type Missed = Vec<String>;

fn number(x: f64) -> String {
    if x < 10.0 { format!("{x:.1}") } else { format!("{x:.0}") }
}

/// Compares all on some automata, and (c) on the first of them alone: it takes longest.
fn compare_some(name: &str, cases: &[Case], with_textbook: usize) {
    let mut all = Compared::default();
    cases.iter().for_each(|case| compare::compare(case, &mut all));
    cases.iter().for_each(|case| compare::compare_several(case, &mut all));
    cases[..with_textbook].iter().for_each(|case| compare::compare_textbook(case, &mut all));
    all.print(name);
}

fn compare_all(cases: &[Case]) {
    println!("Compared event by event: verdicts, estimate sizes, releases and refusals of (a), (b) and (d) are the same, and the verdicts and estimate");
    println!("sizes of (c) as far as it gets. With further secrets: (a) tells of each what (b) tells of it alone, and releases what no secret keeps back.");
    Compared::print_head();
    cases.chunks(1).for_each(|case| compare_some(case[0].name, case, 1));
    compare_some("4000 small", &cases::small(), 400);
}

fn compare_explorations(cases: &[Case]) {
    println!("\nExplorations of (a) and plain ones compared, each with and without further secrets, and with eight budgets:");
    let explored = cases::to_explore();
    compare_explored("those measured", explored.iter().map(|case| (case.name, &case.automaton, &case.further[..])));
    compare_explored("those above", cases.iter().map(|case| (case.name, &case.automaton, &case.further[..])));
    let small = cases::small_to_explore();
    compare_explored("800 small", small.iter().map(|case| (case.name, &case.automaton, &case.further[..])));
}

fn compare_explored<'a>(name: &str, cases: impl Iterator<Item = (&'a str, &'a Automaton, &'a [Secret])>) {
    let mut compared = ComparedExplorations::default();
    cases.for_each(|(name, automaton, further)| compare::compare_explorations(name, automaton, further, &mut compared));
    let ComparedExplorations { whole, configurations, waiting, spent } = compared;
    println!("  {name:<14} {whole:>5} whole, with {configurations:>6} configurations, {waiting:>5} with waits; {spent:>5} beyond the largest budget");
}

fn compare_leaks(cases: &[Case]) {
    println!("\nFirst leaks of (a) and plain ones compared, by both notions, each with and without further secrets:");
    compare_leaks_on("those above", cases, 500);
    compare_leaks_on("4000 small", &cases::small(), 24);
    // The opening of some of these leaks.
    compare_leaks_on("800 small", &cases::small_to_explore(), 24);
}

/// On each twice: with bytes of which any may leak, and with such that the first accepted ones do not, fewer than so many.
fn compare_leaks_on(name: &str, cases: &[Case], calm: usize) {
    let mut compared = ComparedLeaks::default();
    for (i, case) in cases.iter().enumerate() {
        [0, 7 * i % calm].into_iter().for_each(|first| compare::compare_leaks(case, first, 3 * calm, i as u64, &mut compared));
    }
    let ComparedLeaks { found, places, refused, none } = compared;
    println!("  {name:<14} {found:>6} found, at places of {places:>6} in all, behind {refused:>6} refused bytes; {none:>6} without a leak");
}

fn compare_forms(cases: &[Case]) {
    println!("\nCanonical forms of (a) and plain ones compared, of transitions in any order, with symbols and without:");
    // Of dense there is no encoding.
    compare_forms_of("those above", cases.iter().filter(|case| case.automaton.encode().is_some()));
    compare_forms_of("4000 small", cases::small().iter());
}

fn compare_forms_of<'a>(name: &str, cases: impl Iterator<Item = &'a Case>) {
    let mut compared = ComparedForms::default();
    cases.enumerate().for_each(|(i, case)| compare::compare_forms(case, i as u64, &mut compared));
    let ComparedForms { written, bytes, shorter, same } = compared;
    println!("  {name:<14} {written:>6} written, of {bytes:>7} bytes in all; {shorter:>6} shorter than they were, {same:>6} as they were");
}

fn compare_witnesses(cases: &[Case]) {
    println!("\nWitnesses of (a) and plain ones compared, of each secret, by both notions and for each step, and altered ones checked by both:");
    let lengths = |last: usize| [0, 1, 2, 3, 7, 15, 16, last];
    compare_witnesses_on("those above", cases.iter().chain([&cases::around()]), &lengths(cases::EVENTS));
    compare_witnesses_on("4000 small", cases::small().iter(), &lengths(40));
}

fn compare_witnesses_on<'a>(name: &str, cases: impl Iterator<Item = &'a Case>, lengths: &[usize]) {
    let mut compared = ComparedWitnesses::default();
    cases.enumerate().for_each(|(i, case)| compare::compare_witnesses(case, lengths, 1 + i as u64, &mut compared));
    let ComparedWitnesses { written, most, none, far, altered, still } = compared;
    println!("  {name:<14} {written:>7} written, of {most:>4} pairs at most; {none:>7} without one, {far:>7} too far; {altered:>7} altered, {still:>6} valid");
}

/// All that is measured in rounds.
struct Measured {
    /// For each case, accept and offer.
    times: Vec<[Times; 2]>,
    growing: Vec<Case>,
    grown: Vec<[Least; 2]>,
    long: [Long; 3],
}

fn measure_all(cases: &[Case]) -> Measured {
    let growing = cases::growing();
    let mid = automata::mid();
    let mut library = Library::new(&mid);
    let long = [1_000, 10_000, 100_000].map(|length| Long::new(&mid, length));
    let mut all = Measured { times: vec![[Times::NEW; 2]; cases.len()], grown: vec![[Least::NEW; 2]; growing.len()], growing, long };
    for _ in 0..measure::ROUNDS {
        for (case, times) in cases.iter().zip(&mut all.times) {
            JOBS.iter().zip(times).for_each(|(&job, times)| times.measure(job, case));
        }
        for (case, least) in all.growing.iter().zip(&mut all.grown) {
            JOBS.iter().zip(least).for_each(|(&job, least)| measure::measure_library(job, case, least));
        }
        all.long.iter_mut().for_each(|long| long.pass(&mut library));
    }
    all
}

fn print_times(cases: &[Case], measured: &Measured, missed: &mut Missed) {
    let passes = measure::ROUNDS * measure::REPETITIONS;
    println!("\nNanoseconds an event, best of {passes} passes over {EVENTS} events. (b) and (d) with the best block of states; (b') is (b) with 1 KB kept");
    println!(
        "for each automaton. The state of (d) has {} bytes, for a weak enforcer {} would do.",
        excuses::BOTH_BYTES, excuses::WEAK_BYTES
    );
    println!(
        "{:<7} {:<14} {:>7} {:>7} {:>6} {:>7} {:>12} {:>7} {:>6} {:>8} {:>8} {:>8}",
        "job", "automaton", "(a)", "(b)", "block", "(b')", "(c)", "(d)", "block", "(a)/(b)", "(a)/(d)", "(c)/(a)"
    );
    for (i, job) in JOBS.into_iter().enumerate() {
        for (case, times) in cases.iter().zip(&measured.times) {
            print_row(job, case, &times[i], missed);
        }
    }
}

fn print_row(job: Job, case: &Case, times: &Times, missed: &mut Missed) {
    let a = times.library.0;
    let (b, b_block) = measure::best(&times.native);
    let (d, d_block) = measure::best(&times.excuses);
    let c = measure::measure_textbook(job, case);
    let times_textbook = c.nanoseconds() / a;
    println!(
        "{:<7} {:<14} {:>7} {:>7} {b_block:>6} {:>7} {:>12} {:>7} {d_block:>6} {:>8.2} {:>8.2} {:>8}   (c): {}",
        job.name(), case.name, number(a), number(b), number(times.kept.0), c.sign().to_string() + &number(c.nanoseconds()), number(d), a / b, a / d,
        c.sign().to_string() + &number(times_textbook), c.remark()
    );
    if TIMES_NATIVE * b < a {
        missed.push(format!("{} on {}: (a) takes {:.2} times (b)", job.name(), case.name, a / b));
    }
    if case.large && times_textbook < TIMES_TEXTBOOK {
        missed.push(format!("{} on {}: (c) takes {times_textbook:.1} times (a)", job.name(), case.name));
    }
}

fn print_several(cases: &[Case], measured: &Measured, missed: &mut Missed) {
    println!("\n(a) with the automaton's own secret alone, and with three further ones of the same K, nanoseconds an event");
    println!("{:<7} {:<14} {:>8} {:>8} {:>8}", "job", "automaton", "alone", "three", "times");
    for (i, job) in JOBS.into_iter().enumerate() {
        for (case, times) in cases.iter().zip(&measured.times) {
            let (alone, several) = (times[i].library.0, times[i].several.0);
            println!("{:<7} {:<14} {:>8} {:>8} {:>8.2}", job.name(), case.name, number(alone), number(several), several / alone);
            if TIMES_SEVERAL * alone <= several {
                missed.push(format!("{} on {}: three further secrets take {:.2} times as long as none", job.name(), case.name, several / alone));
            }
        }
    }
}

fn print_blocks(cases: &[Case], measured: &Measured) {
    println!("\n(b) and (d) with each block of states, nanoseconds an event");
    let heads = |name: &str| BLOCKS.map(|block| format!("{:>8}", format!("{name} {block}"))).join(" ");
    println!("{:<7} {:<14} {} {}", "job", "automaton", heads("(b)"), heads("(d)"));
    for (i, job) in JOBS.into_iter().enumerate() {
        for (case, times) in cases.iter().zip(&measured.times) {
            let row = |times: &[Least; BLOCKS.len()]| times.map(|time| format!("{:>8}", number(time.0))).join(" ");
            println!("{:<7} {:<14} {} {}", job.name(), case.name, row(&times[i].native), row(&times[i].excuses));
        }
    }
}

fn print_growth(measured: &Measured, missed: &mut Missed) {
    println!("\nHow (a) grows, nanoseconds an event: accept, offer");
    let print = |name: &str, accept: f64, offer: f64| println!("  {name:<22} {:>8} {:>8}", number(accept), number(offer));
    for (case, [accept, offer]) in measured.growing.iter().zip(&measured.grown) {
        print(case.name, accept.0, offer.0);
    }
    let means = measured.long.each_ref().map(Long::means);
    for (long, [accept, offer]) in measured.long.iter().zip(means) {
        print(&format!("mid, trace of {}", long.trace.len()), accept, offer);
    }
    for (i, job) in JOBS.into_iter().enumerate() {
        let growth = means[2][i] / means[0][i];
        if TIMES_LONG < growth {
            missed.push(format!("{} on mid: an event of the longest trace takes {growth:.2} times one of the shortest", job.name()));
        }
    }
}

fn print_stack(cases: &[Case], missed: &mut Missed) {
    println!("\nDeepest stack of each function, in bytes below its return address:");
    for case in cases {
        let depths = stack::depths(case);
        println!("  {:<14} {}", case.name, depths.map(|(name, depth)| format!("{name} {}", depth.map_or("-".into(), |bytes| bytes.to_string()))).join(", "));
        for (name, depth) in depths {
            if depth.is_some_and(|bytes| STACK <= bytes) {
                missed.push(format!("stack of {name} on {}: {} bytes", case.name, depth.unwrap()));
            }
        }
    }
    println!("and of opacity_explore, which is not for a gateway and has no goal:");
    println!("  {}", cases::to_explore().iter().map(|case| format!("{} {}", case.name, stack::exploring(case))).collect::<Vec<_>>().join("; "));
    print_witness_stack(cases, missed);
}

fn print_witness_stack(cases: &[Case], missed: &mut Missed) {
    println!("and of the functions of witnesses:");
    for case in cases.iter().chain([&cases::around()]) {
        let depths = stack::witnessing(case);
        println!("  {:<14} {}", case.name, depths.map(|(name, bytes)| format!("{name} {bytes}")).join(", "));
        for (name, bytes) in depths.into_iter().filter(|(_, bytes)| STACK <= *bytes) {
            missed.push(format!("stack of {name} on {}: {bytes} bytes", case.name));
        }
    }
}

/// The last has the longest encoding.
fn encoded() -> [(&'static str, Automaton); 4] {
    let symbols = automata::large(64).sharing(4);
    assert_eq!(symbols.encode().map(|encoding| encoding.len()), Some(canonical::MOST), "the longest encoding");
    [("P", automata::p()), ("mid", automata::mid()), ("large", automata::large(64)), ("large, symbols", symbols)]
}

fn print_decoding(missed: &mut Missed) {
    println!("\nDecoding, microseconds, best of {} passes:", measure::ROUNDS * measure::REPETITIONS);
    for (name, automaton) in encoded() {
        let encoding = automaton.encode().expect("an encoding");
        let milliseconds = measure::measure_decoding(&automaton, &encoding).0 / 1e6;
        println!("  {name:<14} {:>5} transitions {:>5} bytes {:>8}", automaton.transitions().len(), encoding.len(), number(milliseconds * 1e3));
        if DECODING <= milliseconds {
            missed.push(format!("decoding of {name}: {milliseconds:.1} milliseconds"));
        }
    }
}

fn print_canonical(missed: &mut Missed) {
    let passes = measure::ROUNDS * measure::REPETITIONS;
    println!("\nThe canonical form of an encoding with its transitions in any order, microseconds, best of {passes} passes:");
    for (name, automaton) in encoded() {
        let encoding = canonical::shuffled(&automaton, false, 1);
        let milliseconds = measure::measure_canonical(&automaton, &encoding).0 / 1e6;
        println!("  {name:<14} {:>5} transitions {:>5} bytes {:>8}", automaton.transitions().len(), encoding.len(), number(milliseconds * 1e3));
        if CANONICAL <= milliseconds {
            missed.push(format!("canonical form of {name}: {milliseconds:.1} milliseconds"));
        }
    }
}

fn print_explorations(missed: &mut Missed) {
    let passes = measure::ROUNDS * measure::REPETITIONS;
    println!("\nExploring with the largest budget, milliseconds, best of {passes} passes: the own secret alone, and three further ones");
    println!("{:<16} {:>3} {:>8} {:>16} {:>8} {:>16} {:>8}", "automaton", "K", "symbols", "found, alone", "alone", "found, three", "three");
    for case in cases::to_explore() {
        let mut row = format!("{:<16} {:>3} {:>8}", case.name, case.automaton.k, case.automaton.observable.count_ones());
        for given in [&[], &case.further[..]] {
            row += &explored_row(&case, given, missed);
        }
        println!("{row}");
    }
}

/// What is found, the number of configurations and the largest waits, or the refusal; and the milliseconds.
fn explored_row(case: &ToExplore, given: &[Secret], missed: &mut Missed) -> String {
    let mut library = Library::with(&case.automaton, given);
    let found = library.explore(exploration::MOST);
    assert_eq!(found.is_err(), case.spent, "{}: the budget", case.name);
    assert!(found.map_or(true, |(number, _, _)| number == 256), "{}: the number", case.name);
    let milliseconds = measure::measure_exploration(&mut library).0 / 1e6;
    if EXPLORING <= milliseconds {
        missed.push(format!("exploring {} with {} further secrets: {milliseconds:.1} milliseconds", case.name, given.len()));
    }
    let said = found.map_or_else(|refusal| format!("refused {refusal}"), |(number, weak, strong)| format!("{number} {weak} {strong}"));
    format!(" {said:>16} {milliseconds:>8.2}")
}

fn print_leaks() {
    println!("\nThe first leak of a log of {LOG} symbols in which nothing leaks, nanoseconds a symbol, best of {} passes", measure::REPETITIONS);
    println!("{:<14} {:>8} {:>8} {:>8} {:>8} {:>8}", "automaton", "accept", "weak", "times", "strong", "times");
    for (name, automaton) in [("P", automata::p()), ("mid", automata::mid()), ("large", automata::large(64))] {
        let symbols = first_leak::without_leak(&automaton, LOG, 1);
        let [accept, weak, strong] = measure::measure_leaks(&automaton, &symbols).map(|least| least.0);
        println!("{name:<14} {:>8} {:>8} {:>8.2} {:>8} {:>8.2}", number(accept), number(weak), weak / accept, number(strong), strong / accept);
    }
}

fn print_witnesses(cases: &[Case], missed: &mut Missed) {
    let passes = measure::ROUNDS * measure::REPETITIONS;
    println!("\nWitnesses of the own secret by both notions, for every step up to K, after {EVENTS} symbols, microseconds, best of {passes} passes: the");
    println!("slowest one and all together, of (a) to write them and to check them, and of the plain search");
    println!(
        "{:<14} {:>8} {:>6} {:>10} {:>8} {:>10} {:>8} {:>10} {:>8}",
        "automaton", "written", "pairs", "written", "all", "checked", "all", "searched", "all"
    );
    for case in cases.iter().chain([&cases::around()]) {
        let Witnessed { written, most, slowest, all } = measure::measure_witnesses(case);
        let times = (0..3).map(|i| format!(" {:>10} {:>8}", number(slowest[i] / 1e3), number(all[i] / 1e3))).collect::<String>();
        println!("{:<14} {:>8} {most:>6}{times}", case.name, format!("{written}/{}", 2 * (case.automaton.k as usize + 1)));
        if WITNESS <= slowest[0] / 1e6 {
            missed.push(format!("a witness on {}: {:.2} milliseconds", case.name, slowest[0] / 1e6));
        }
    }
}

/// (a) alone for some seconds, for a profiler.
fn only(job: &str, case: &Case, further: &[Secret]) {
    let mut library = Library::with(&case.automaton, further);
    let begun = Instant::now();
    while begun.elapsed() < Duration::from_secs(4) {
        library.fresh();
        library.start(library::WEAK);
        for &event in &case.trace {
            match job {
                "accept" => drop(black_box(library.accept(event))),
                _ => drop(black_box(library.offer(event)).is_ok()),
            }
        }
    }
}

/// Says which goals were missed, and ends with status 1 if any was.
fn conclude(goals: &str, missed: Missed) {
    println!("\nGoals: {goals}");
    for line in &missed {
        println!("  missed: {line}");
    }
    if !missed.is_empty() {
        std::process::exit(1);
    }
    println!("  met");
}

fn everything(cases: &[Case]) {
    let begun = Instant::now();
    let mut missed = Missed::new();
    compare_all(cases);
    compare_explorations(cases);
    compare_leaks(cases);
    compare_forms(cases);
    compare_witnesses(cases);
    let measured = measure_all(cases);
    print_times(cases, &measured, &mut missed);
    print_several(cases, &measured, &mut missed);
    print_blocks(cases, &measured);
    print_growth(&measured, &mut missed);
    print_stack(cases, &mut missed);
    print_decoding(&mut missed);
    print_canonical(&mut missed);
    print_explorations(&mut missed);
    print_leaks();
    print_witnesses(cases, &mut missed);
    println!("\n{:.0} s in all", begun.elapsed().as_secs_f64());
    let goals = format!(
        "(a) at most {TIMES_NATIVE} times (b) with its best block, on each; (c) at least {TIMES_TEXTBOOK} times (a) on large, chain and dense; with \
         three further secrets below {TIMES_SEVERAL} times; no growth with the trace (at most {TIMES_LONG} times); stack below {STACK} bytes, but of \
         opacity_explore; the longest encoding decoded in less than {DECODING} milliseconds, and its canonical form written in less than {CANONICAL}; an \
         exploration in less than {EXPLORING} milliseconds, and a witness in less than {WITNESS}."
    );
    conclude(&goals, missed);
}

fn main() {
    let cases = cases::cases();
    let words: Vec<String> = std::env::args().skip(1).collect();
    match &words.iter().map(String::as_str).collect::<Vec<_>>()[..] {
        [] => everything(&cases),
        ["stack"] => {
            let mut missed = Missed::new();
            print_stack(&cases, &mut missed);
            conclude(&format!("stack below {STACK} bytes, but of opacity_explore."), missed);
        }
        ["decoding"] => {
            let mut missed = Missed::new();
            print_decoding(&mut missed);
            conclude(&format!("the longest encoding in less than {DECODING} milliseconds."), missed);
        }
        ["canonical"] => {
            let mut missed = Missed::new();
            compare_forms(&cases);
            print_canonical(&mut missed);
            conclude(&format!("that of the longest encoding in less than {CANONICAL} milliseconds."), missed);
        }
        ["exploring"] => {
            let mut missed = Missed::new();
            compare_explorations(&cases);
            print_explorations(&mut missed);
            conclude(&format!("an exploration in less than {EXPLORING} milliseconds."), missed);
        }
        ["first-leak"] => {
            compare_leaks(&cases);
            print_leaks();
        }
        ["witness"] => {
            let mut missed = Missed::new();
            compare_witnesses(&cases);
            print_witnesses(&cases, &mut missed);
            conclude(&format!("a witness in less than {WITNESS} milliseconds."), missed);
        }
        ["only", job, name, several @ ..] if several.is_empty() || *several == ["several"] => {
            let case = cases.iter().find(|case| case.name == *name).expect("no such automaton");
            only(job, case, if several.is_empty() { &[] } else { &case.further });
        }
        _ => panic!("usage: bench/run [stack | decoding | canonical | exploring | first-leak | witness | only JOB AUTOMATON [several]]"),
    }
}
