//! How deep each function of the interface goes: it is called on a painted stack, and the deepest byte that lost its paint is looked for. The depth of
//! the same call of a function that does nothing is taken off, so that what is left is the function's own: below its return address.

use crate::canonical::{self, MOST as LONGEST};
use crate::cases::{Case, ToExplore};
use crate::exploration::{BUDGET_SPENT, MOST};
use crate::library::{self, Library};
use crate::witness;
use std::arch::asm;

const SIZE: usize = 64 * 1024;
const PAINT: u8 = 0xa5;

#[repr(align(64))]
struct Stack([u8; SIZE]);

/// The lent memory of a call, and the functions to call it with.
struct Call<'a> {
    library: &'a mut Library,
    functions: library::Functions,
    /// The encoding, offered symbols, or the pairs of a run.
    bytes: &'a [u8],
    /// The symbol, or the notion.
    byte: u8,
    /// The step of a witness, and the state that it starts in.
    step: u8,
    first: u8,
    answer: u8,
}

extern "C" fn decode(call: &mut Call) {
    call.answer = call.library.call_decode(&call.functions, call.bytes);
}

extern "C" fn fresh(call: &mut Call) {
    call.answer = call.library.call_fresh(&call.functions);
}

extern "C" fn accept(call: &mut Call) {
    call.answer = call.library.call_accept(&call.functions, call.byte);
}

extern "C" fn start(call: &mut Call) {
    call.answer = call.library.call_start(&call.functions, library::WEAK);
}

extern "C" fn offer(call: &mut Call) {
    call.answer = call.library.call_offer(&call.functions, call.byte);
}

extern "C" fn explore(call: &mut Call) {
    call.answer = call.library.call_explore(&call.functions, MOST);
}

extern "C" fn first_leak(call: &mut Call) {
    call.answer = call.library.call_first_leak(&call.functions, call.byte, call.bytes);
}

extern "C" fn write(call: &mut Call) {
    call.answer = call.library.call_canonical(&call.functions, call.bytes, LONGEST);
}

extern "C" fn excuse(call: &mut Call) {
    call.answer = call.library.call_witness(&call.functions, call.byte, 0, call.step);
}

extern "C" fn check(call: &mut Call) {
    call.answer = call.library.call_check_witness(&call.functions, call.byte, 0, call.step, call.first, call.bytes);
}

/// The bytes that lost their paint.
fn depth(stack: &mut Stack, job: extern "C" fn(&mut Call), call: &mut Call) -> usize {
    stack.0.fill(PAINT);
    let top = unsafe { stack.0.as_mut_ptr().add(SIZE) };
    unsafe {
        asm!(
            "mov r12, rsp",
            "mov rsp, {top}",
            "call {job}",
            "mov rsp, r12",
            top = in(reg) top,
            job = in(reg) job,
            in("rdi") call,
            out("r12") _,
            clobber_abi("C"),
        );
    }
    SIZE - stack.0.iter().position(|&byte| byte != PAINT).unwrap_or(SIZE)
}

/// The depth of one call, and its answer.
fn measure(stack: &mut Stack, library: &mut Library, job: extern "C" fn(&mut Call), bytes: &[u8], byte: u8) -> (usize, u8) {
    measure_call(stack, job, Call { library, functions: library::NOTHING, bytes, byte, step: 0, first: 0, answer: 0 })
}

fn measure_call(stack: &mut Stack, job: extern "C" fn(&mut Call), mut call: Call) -> (usize, u8) {
    let caller = depth(stack, job, &mut call);
    call.functions = library::PROVED;
    let all = depth(stack, job, &mut call);
    (all - caller, call.answer)
}

/// The depths of the two functions of witnesses after the trace: the deepest of all calls, by both notions and for every step.
pub fn witnessing(case: &Case) -> [(&'static str, usize); 2] {
    let mut stack = Box::new(Stack([0; SIZE]));
    let mut library = Library::new(&case.automaton);
    library.fresh();
    case.trace.iter().for_each(|&symbol| assert!(library.accept(symbol).is_ok(), "refused"));
    let mut deepest = [("opacity_witness", 0), ("opacity_check_witness", 0)];
    for (notion, step) in witness::steps(case.automaton.k) {
        let (first, pairs) = library.witness(notion, 0, step).unwrap_or_default();
        for (job, (_, most)) in [excuse as extern "C" fn(&mut Call), check].into_iter().zip(&mut deepest) {
            let call = Call { library: &mut library, functions: library::NOTHING, bytes: &pairs, byte: notion, step, first, answer: 0 };
            let (bytes, answer) = measure_call(&mut stack, job, call);
            assert!(answer == 0 || answer == witness::NO_WITNESS, "the answer");
            *most = bytes.max(*most);
        }
    }
    deepest
}

/// The depth of an exploration with the largest budget, with the further secrets.
pub fn exploring(case: &ToExplore) -> usize {
    let mut stack = Box::new(Stack([0; SIZE]));
    let (bytes, answer) = measure(&mut stack, &mut Library::with(&case.automaton, &case.further), explore, &[], 0);
    assert_eq!(answer, if case.spent { BUDGET_SPENT } else { 0 }, "the answer");
    bytes
}

/// The deepest of all calls on an automaton and its trace, with the further secrets, for each function but `opacity_explore`. A first leak is looked for
/// without them too, since then it goes further.
pub fn depths(case: &Case) -> [(&'static str, Option<usize>); 7] {
    let (automaton, trace) = (&case.automaton, &case.trace);
    let mut stack = Box::new(Stack([0; SIZE]));
    let mut library = Library::with(automaton, &case.further);
    let encoding = automaton.encode().unwrap_or_default();
    let mut measure = |library: &mut Library, job: extern "C" fn(&mut Call), bytes: &[u8], byte: u8| {
        let (bytes, answer) = measure(&mut stack, library, job, bytes, byte);
        assert_eq!(answer, 0, "refused");
        bytes
    };
    // An automaton that no encoding can list is not decoded, and has no form.
    let listed = !encoding.is_empty();
    let decoding = listed.then(|| measure(&mut library, decode, &encoding, 0));
    let writing = listed.then(|| measure(&mut library, write, &canonical::shuffled(automaton, true, 1), 0));
    let making = measure(&mut library, fresh, &[], 0);
    let starting = measure(&mut library, start, &[], 0);
    let accepting = trace.iter().map(|&event| measure(&mut library, accept, &[], event)).max();
    let offering = trace.iter().map(|&event| measure(&mut library, offer, &[], event)).max();
    let mut alone = Library::new(automaton);
    let finding = [library::WEAK, library::STRONG].map(|notion| [&mut library, &mut alone].map(|library| measure(library, first_leak, trace, notion)));
    [
        ("opacity_decode", decoding),
        ("opacity_fresh", Some(making)),
        ("opacity_accept", accepting),
        ("opacity_start", Some(starting)),
        ("opacity_offer", offering),
        ("opacity_first_leak", finding.into_iter().flatten().max()),
        ("opacity_canonical", writing),
    ]
}
