/*
 * Runtime verification and enforcement of K-step opacity, weak and strong: the C interface of the proved library.
 *
 * Link with target/staticlib/libgateway.a, which `c/library` writes (x86-64). Nothing is allocated and nothing is kept between calls:
 * the caller lends all memory, and a header or a saved state is bytes of a fixed layout that may be stored, sent and copied. The contracts of the
 * ten functions are `crates/gateway/specs/Interface.antt` (what each answers and leaves) and `crates/layout/specs` (the layouts); they are proved for
 * every content of the bytes and every length. Words of the requirements, where ours differ: docs/GLOSSARY.md.
 *
 * Slices. A slice passes as a pointer and the number of its elements. C asks three things, which no function can test:
 *   - a pointer is not null (also with length 0), is aligned for its type, and has at least as many elements as its length says;
 *   - a slice that a function writes (a pointer without `const`) overlaps no other slice of the same call;
 *   - nobody else writes to a slice, or reads one that is written, during the call.
 * Nothing else is asked: every length, byte and word gets an answer.
 *
 * Symbols. What a reader gets from an observable event is its observation symbol, 0 to 31 (02: lamp). Several events may share one, and the reader
 * does not tell these apart. What is offered, remembered, pending and released is a symbol. Where an encoding lists none, each observable event's
 * symbol is its own number.
 *
 * Secrets. The automaton's own secret states and its K are secret number 0. A fresh estimator, a started enforcer, an exploration or a first leak may
 * be given up to three further secrets (02: recipes), numbered 1 to 3 as they stand, each a set of states with its own K. They are kept in the saved
 * state: no later call is passed any, and every accepted symbol leaves them as they are. Each secret has its own verdicts, by its own K. "The largest
 * K" is that of all secrets that are given, the automaton's own among them: it says how many symbols are remembered, and how long one may be pending.
 *
 * In the gateway, before delivery, and afterwards. Five functions run in a gateway: `opacity_decode`, `opacity_fresh`, `opacity_accept`,
 * `opacity_start` and `opacity_offer`; they need at most 4,328 bytes of stack (docs/FIGURES.md). `opacity_explore` is run before delivery, on an
 * engineer's machine: it visits every configuration that an accepted list leads to, within a budget, and says how long an event can ever wait. It needs
 * 42 KB of stack (below). `opacity_first_leak` is for support: it says where the first leak of a log is, and needs 4,488 bytes. `opacity_canonical` is
 * for the files of engineers, so that those of one automaton compare equal: it writes the one encoding of an automaton, and needs 937 bytes.
 * `opacity_witness` and `opacity_check_witness` are for an engineer who sees none and asks why: the first writes a run that excuses the system, the
 * second judges any run; they need 2,312 and 360 bytes. A controller needs none of these other five: those of the gateway do not call them, and a
 * program that does not either and is linked with `-Wl,--gc-sections` does not contain them.
 *
 * Answers. Each function answers 0, or the number of a refusal, and after a refusal every slice is as it was before the call. Of several
 * refusals whose conditions hold, the answer is the one that the function's comment lists first. A slice of another length than its layout has gets
 * 9, and an output that lacks space 10.
 *
 *   No.  Constant                      When                                                          From
 *   1    OPACITY_TRUNCATED             the encoding ends before or inside a field                    decode, canonical
 *   3    OPACITY_STATE_OUT_OF_RANGE    an initial, source or target state is above the top state     decode, canonical
 *   4    OPACITY_EVENT_OUT_OF_RANGE    a transition's event is above the top event                   decode, canonical
 *   5    OPACITY_TRAILING_DATA         a padding bit is 1, or a byte follows                         decode, canonical
 *   6    OPACITY_NOT_OBSERVABLE        no observable event of the header has this symbol             accept, offer
 *   7    OPACITY_INCOMPATIBLE          no run of the automaton is compatible with the trace and the
 *                                      symbol behind it (of a state that did not grow from a fresh
 *                                      one on this automaton: perhaps)                               accept, offer
 *   8    OPACITY_INITIAL_LEAK          the empty trace already has leak 0 under the notion, for
 *                                      some secret that is given                                     start
 *   9    OPACITY_MALFORMED             a slice has another length than its layout, the header's K
 *                                      is above 15, its initial state above 63, an observable
 *                                      event's symbol above 31, the notion above 1, or a saved
 *                                      state is outside its limits                                   all
 *   10   OPACITY_OUTPUT_TOO_SMALL      the output has fewer than 17 bytes (offer), fewer than the
 *                                      bytes to be written (canonical), or fewer than 2,172
 *                                      (witness)                                                     offer, canonical, witness
 *   12   OPACITY_REPEATED_TRANSITION   a transition is listed a second time                          decode, canonical
 *   13   OPACITY_TOO_MANY_SECRETS      more than three further secrets                               fresh, start, explore,
 *                                                                                                    first_leak
 *   14   OPACITY_LOOK_BACK_TOO_LARGE   the K of a further secret that is given is above 15           fresh, start, explore,
 *                                                                                                    first_leak
 *   15   OPACITY_BUDGET_SPENT          there are more different configurations than the budget       explore
 *   16   OPACITY_NO_WITNESS            no run over the last k symbols excuses the system (of a
 *                                      state that did not grow from a fresh one on this automaton:
 *                                      perhaps)                                                      witness
 *   17   OPACITY_STEP_TOO_FAR          no secret with this number is given, or k is above its own
 *                                      K or above the number of accepted symbols (of a state that
 *                                      did not grow: above those that it remembers)                  witness
 *
 * Table: 2,048 words. Word 64 * event + state is the set of the states that the event may lead to; bit q, counted from the least significant, is
 * state q. Any 2,048 words are the transitions of an automaton of 64 states and 32 events.
 *
 * Header: 46 bytes. A number of several bytes has the least significant first.
 *   0        initial state, at most 63
 *   1        K, at most 15
 *   2..9     set of the secret states
 *   10..13   set of the observable events
 *   14..45   the symbol of each of the events 0 to 31: of an observable one at most 31; of an unobservable one any byte, which counts for nothing
 *            (a decoded header has 0 there)
 *
 * Further secrets: 28 bytes. All of them 0: none further.
 *   0        how many are given, at most 3
 *   1..8     the first, number 1: set of its states
 *   9        its K, at most 15
 *   10..18   the second, the same
 *   19..27   the third, the same
 * A place past the number that is given counts for nothing, whatever it holds; in the saved state that a fresh estimator or a start writes it is 0. A
 * set may be empty, and sets may overlap or be the same. (One further secret without states is not the same as none: it is number 1, its verdicts are
 * none, and its K counts for the largest.)
 *
 * Estimator: 172 bytes. Outside its limits if it has more than three further secrets, if the K of one that is given is above 15, if it remembers more
 * symbols than the largest K, or if one of those it remembers is above 31.
 *   0        number of remembered symbols
 *   1..15    those symbols, the newest first; unused places are 0
 *   16..143  16 sets of states, 8 bytes each: where runs can be right after the newest symbol, the one before it, and so on; unused ones are 0
 *   144..171 its further secrets
 *
 * Enforcer: 206 bytes. Outside its limits if its estimator is, if it has more than the largest K + 1 pending symbols, or if one of those is above 31.
 *   0..171   its estimator
 *   172      its notion, 0 weak or 1 strong
 *   173      number of pending symbols
 *   174..189 those symbols, the oldest first; unused places are 0
 *   190..205 for each, how many more accepted ones it waits for; unused places are 0
 *
 * Estimate size: the number of different states, 1 to 64, in which the automaton may be now as far as a reader of all accepted symbols can tell: those
 * in which some compatible run ends, unobservable transitions after its last observable event included. It says how narrow the reader's view is: at 1
 * the reader knows the state. By itself it says nothing about secrecy: one state that is not secret leaks nothing, and several leak if all of them are
 * secret; the verdicts say that. It is part of no saved state: each accepted symbol gets its own.
 *
 * Judgement: 9 bytes.
 *   0        the weak verdict of the automaton's own secret, number 0: the steps of a leak, 0 to its K, or 255 for none
 *   1        its strong verdict, the same
 *   2, 3     those of the further secret number 1, by its own K; 255 if it is not given
 *   4, 5     of number 2
 *   6, 7     of number 3
 *   8        the estimate size, 1 to 64
 *
 * Release: 2 bytes.
 *   0        how many symbols were released, 0 to the largest K + 2
 *   1        the estimate size, 1 to 64: of all accepted symbols, pending ones among them, and not of the released ones alone. So it says how narrow
 *            the view would be of one who had them all
 *
 * Output of an offer: at least 17 bytes. The released symbols stand at its front; what stands behind keeps its bytes.
 *
 * Configuration (02: situation): what a trace leads to. The last symbols, as many as the largest K or all if fewer; the sets of states in which runs
 * can be right after each of them, judged by the symbols up to it, before any further unobservable transition; and that set for the symbol before them
 * (with K 0: for the last symbol), or the initial state alone if there is none. It is what an estimator remembers, its bytes 0 to 143, and all on
 * which later verdicts depend.
 *
 * Wait: of a trace, by one secret, the secret's own K + 1 less the steps of a leak, and 0 for none.
 *
 * Exploration: 4 bytes.
 *   0, 1     the number of different configurations, 1 to 256, the least significant byte first
 *   2        the largest weak wait, 0 to the largest K + 1
 *   3        the largest strong wait, the same
 *
 * Place of a first leak: 8 bytes.
 *   0..7     the place, from 1, of an event among the accepted ones, the least significant byte first; 0 where no accepted one leaks
 *
 * Canonical form (02: S-9): of all encodings of one automaton the one whose transitions rise by from, event, to; that lists symbols only if some
 * observable event has another than its own number; and whose symbol of an unobservable event, where it lists any, is 0. docs/FORMATS.md has the bits.
 *
 * Size of a canonical form: 8 bytes.
 *   0..7     how many bytes were written, at most 2,210, the least significant byte first
 *
 * Witness (02: alibi): of a trace of n symbols, a notion, a secret and a step k, at most its own K and at most n, a run over the last k symbols that
 * excuses the system: because of it nobody can be sure of the secret k symbols back. It starts in a state in which runs can be right after the symbol
 * before these k, judged by the symbols up to it, or in the initial state if there is none. Its steps are transitions, and its observable events show
 * these k symbols in their order. Weak: some position before its first observable event, the start among them, is not secret. Strong: no position of it
 * is. So a verdict is none exactly where there is a witness for every k up to K and n, and leak l exactly where there is one for every k below l, and
 * none for l.
 *
 * Pairs of a run: 2 bytes for each step, the event and the state that it leads to. (Events and not symbols: two events of one symbol are two runs.)
 * Where there are several witnesses any of them may be written, so they are not to be compared byte by byte: `opacity_check_witness` says yes to each,
 * however long it is.
 *
 * Output of a witness: at least 2,172 bytes. The pairs stand at its front, 1,086 at most; what stands behind keeps its bytes.
 *
 * Run of a witness: 3 bytes.
 *   0        the state that it starts in
 *   1, 2     the number of its pairs, 0 to 1,086, the least significant byte first
 *
 * Valid: 1 byte.
 *   0        1 for yes, 0 for no
 */
#ifndef OPACITY_H
#define OPACITY_H

#include <stddef.h>
#include <stdint.h>

#define OPACITY_TABLE_WORDS 2048
#define OPACITY_HEADER_BYTES 46
#define OPACITY_FURTHER_BYTES 28
#define OPACITY_ESTIMATOR_BYTES 172
#define OPACITY_ENFORCER_BYTES 206
#define OPACITY_JUDGEMENT_BYTES 9
#define OPACITY_RELEASE_BYTES 2
#define OPACITY_OUTPUT_BYTES 17           /* of an offer the least; more is taken */
#define OPACITY_EXPLORATION_BYTES 4
#define OPACITY_PLACE_BYTES 8
#define OPACITY_SIZE_BYTES 8
#define OPACITY_ENCODING_MAX_BYTES 2210   /* the longest encoding, and the longest canonical form */
#define OPACITY_RUN_BYTES 3
#define OPACITY_VALID_BYTES 1
#define OPACITY_WITNESS_OUTPUT_BYTES 2172 /* of a witness the least; more is taken */
#define OPACITY_WITNESS_MAX_PAIRS 1086    /* the most pairs that are written */

#define OPACITY_HEADER_K 1                /* the place of K in a header */

#define OPACITY_FURTHER_MAX 3             /* the most further secrets */
#define OPACITY_FURTHER_COUNT 0           /* the places in further secrets, by the number of a secret, 1 to 3 */
#define OPACITY_FURTHER_STATES(number) (9 * (number) - 8)   /* 8 bytes */
#define OPACITY_FURTHER_K(number) (9 * (number))

#define OPACITY_ENFORCER_PENDING 173      /* the place of the number of pending symbols */

#define OPACITY_JUDGEMENT_WEAK(number) (2 * (number))       /* the places in a judgement, by the number of a secret, 0 to 3 */
#define OPACITY_JUDGEMENT_STRONG(number) (2 * (number) + 1)
#define OPACITY_JUDGEMENT_SIZE 8

#define OPACITY_RELEASE_COUNT 0           /* the places in a release */
#define OPACITY_RELEASE_SIZE 1

#define OPACITY_EXPLORATION_NUMBER 0      /* the places in an exploration; the number has 2 bytes */
#define OPACITY_EXPLORATION_WEAK 2
#define OPACITY_EXPLORATION_STRONG 3

#define OPACITY_RUN_START 0               /* the places in a run; the number of pairs has 2 bytes */
#define OPACITY_RUN_PAIRS 1

#define OPACITY_BUDGET_MAX 256            /* the largest budget; a larger one counts as this one */

#define OPACITY_WEAK 0
#define OPACITY_STRONG 1
#define OPACITY_NO_LEAK 255

#define OPACITY_OK 0
#define OPACITY_TRUNCATED 1
#define OPACITY_STATE_OUT_OF_RANGE 3
#define OPACITY_EVENT_OUT_OF_RANGE 4
#define OPACITY_TRAILING_DATA 5
#define OPACITY_NOT_OBSERVABLE 6
#define OPACITY_INCOMPATIBLE 7
#define OPACITY_INITIAL_LEAK 8
#define OPACITY_MALFORMED 9
#define OPACITY_OUTPUT_TOO_SMALL 10
#define OPACITY_REPEATED_TRANSITION 12
#define OPACITY_TOO_MANY_SECRETS 13
#define OPACITY_LOOK_BACK_TOO_LARGE 14
#define OPACITY_BUDGET_SPENT 15
#define OPACITY_NO_WITNESS 16
#define OPACITY_STEP_TOO_FAR 17

#ifdef __cplusplus
extern "C" {
#endif

/*
 * Decodes an encoded automaton (01: description).
 * Takes:   the encoding, a table of 2,048 words and a header of 46 bytes; what these two hold before does not matter.
 * Answers: 0: the table holds the transitions, 0 in every other bit, and the header the rest.
 *          9: the table has not 2,048 words or the header not 46 bytes.
 *          1, 3, 4, 5, 12: the first fault in the order of the layout, 5 last. A transition that was listed before gets 12 right after its own 3 and 4,
 *             before anything behind it is looked at. The time for n transitions grows with n * n (docs/FIGURES.md).
 */
uint8_t opacity_decode(const uint8_t *encoding, size_t encoding_length,
                       uint64_t *table, size_t table_length,
                       uint8_t *header, size_t header_length);

/*
 * Makes a fresh estimator.
 * Takes:   table and header of an automaton, the 28 bytes of the further secrets; 172 bytes for the estimator and 9 for the judgement, whatever they
 *          hold.
 * Answers: 0: the estimator of the empty trace, which keeps the further secrets, and the judgement of the empty trace: the verdicts of each secret and
 *             the estimate size.
 *          9: a slice of a wrong length, the header's K above 15, an initial state above 63, or an observable event's symbol above 31.
 *          13: more than three further secrets.
 *          14: the K of one that is given is above 15.
 */
uint8_t opacity_fresh(const uint64_t *table, size_t table_length,
                      const uint8_t *header, size_t header_length,
                      const uint8_t *further, size_t further_length,
                      uint8_t *estimator, size_t estimator_length,
                      uint8_t *judgement, size_t judgement_length);

/*
 * Accepts one symbol (the verifier's step).
 * Takes:   table and header as `opacity_fresh` got them, the symbol, the estimator as the last call left it, and 9 bytes for the judgement.
 * Answers: 0: the estimator with the symbol behind its trace, and the judgement of that trace. For each secret, with its own states as the secret ones
 *             and by its own K, weak: leak l if l is the least number, at most K and at most the length of the trace, such that in every compatible run
 *             every position l symbols back is secret. Strong: leak l if l is the least such that every compatible run has a secret position at most l
 *             symbols back. Else none. Estimate size: the number of different states in which a compatible run ends.
 *          9: a slice of a wrong length, K above 15, an initial state above 63, an observable event's symbol above 31, or an estimator outside its
 *             limits, by its further secrets too: 13 and 14 are not given here.
 *          6: no observable event of the header has this symbol.
 *          7: no run is compatible with the trace and the symbol behind it.
 * An estimator within its limits that no trace on this automaton leads to gets 6 on its condition, and else 7, or 0 with verdicts from 0 to each
 * secret's own K or none, some estimate size from 1 to 64, and an estimator within its limits, with the further secrets that it had.
 */
uint8_t opacity_accept(const uint64_t *table, size_t table_length,
                       const uint8_t *header, size_t header_length,
                       uint8_t symbol,
                       uint8_t *estimator, size_t estimator_length,
                       uint8_t *judgement, size_t judgement_length);

/*
 * Starts an enforcer under a notion.
 * Takes:   table and header of an automaton, the notion (OPACITY_WEAK or OPACITY_STRONG), the 28 bytes of the further secrets, and 206 bytes for the
 *          enforcer, whatever they hold.
 * Answers: 0: the enforcer of the empty trace, which keeps the further secrets, with nothing pending.
 *          9: a slice of a wrong length, a notion above 1, the header's K above 15, an initial state above 63, or an observable event's symbol above
 *             31.
 *          13: more than three further secrets.
 *          14: the K of one that is given is above 15.
 *          8: the empty trace has leak 0 under the notion for some secret, so that no enforcer can keep it back.
 */
uint8_t opacity_start(const uint64_t *table, size_t table_length,
                      const uint8_t *header, size_t header_length,
                      uint8_t notion,
                      const uint8_t *further, size_t further_length,
                      uint8_t *enforcer, size_t enforcer_length);

/*
 * Offers one symbol to an enforcer, which keeps it pending or releases it.
 * Takes:   table and header as `opacity_start` got them, the symbol, the enforcer as the last call left it, an output of 17 bytes or more, and 2 bytes
 *          for the release.
 * Answers: 0: the symbol is accepted. `release[0]` symbols, 0 to the largest K + 2, left the front of the pending ones (the new one is the last) and
 *             stand at the front of the output, in their order. Together with those released before they are the longest prefix of the accepted ones
 *             from which nobody can be sure, under the notion, of any secret: of a state of it at most its own K accepted symbols back. So a symbol is
 *             pending until at most the largest K + 1 more are accepted. `release[1]` is the estimate size of all accepted symbols, pending ones among
 *             them: what a verifier that accepted the same symbols gives.
 *          9: a slice of a wrong length (the output's excepted), K above 15, an initial state above 63, an observable event's symbol above 31, a
 *             saved notion above 1, or an enforcer outside its limits, by its further secrets too: 13 and 14 are not given here.
 *          10: the output has fewer than 17 bytes.
 *          6: no observable event of the header has this symbol.
 *          7: no run is compatible with the accepted symbols and this one behind them.
 * An enforcer within its limits that no list of offers on this automaton leads to gets 10 and 6 on their conditions, and else 7, or 0, releases some
 * prefix of its pending symbols and the new one, with some estimate size from 1 to 64, and stays within its limits, with the further secrets that it
 * had.
 */
uint8_t opacity_offer(const uint64_t *table, size_t table_length,
                      const uint8_t *header, size_t header_length,
                      uint8_t symbol,
                      uint8_t *enforcer, size_t enforcer_length,
                      uint8_t *output, size_t output_length,
                      uint8_t *release, size_t release_length);

/*
 * Explores an automaton before it is delivered (02: survey): how many different configurations it has, and how long it can make events wait.
 * Takes:   table and header of an automaton, the 28 bytes of the further secrets, the budget, and 4 bytes for the exploration, whatever they hold. The
 *          budget is how many different configurations there may be, 0 to 256; a larger one counts as 256.
 * Answers: 0: the exploration: the number of different configurations that some accepted list of symbols leads to, the empty one too, and for each
 *             notion the largest wait, over all of them and all secrets that are given. Where an enforcer starts under the notion with the same
 *             secrets, no event that it accepts waits for more further ones than that, and, unless it is 0, the last event of some accepted list is
 *             still held (pending) after any smaller number of further ones.
 *          9: a slice of a wrong length, the header's K above 15, an initial state above 63, or an observable event's symbol above 31.
 *          13: more than three further secrets.
 *          14: the K of one that is given is above 15.
 *          15: there are more different configurations than the budget. So a budget of 0 always gets it, after the others.
 * A leak of the opening, 8 of `opacity_start`, is not tested: where no enforcer starts the answer is the same, and the waits are those of the verdicts
 * alone.
 * Stack: 41,896 bytes below its return address, measured, for what it finds is kept there; even a refused call takes 38,488 of them. It is to be run
 * before delivery on an engineer's machine, and takes some milliseconds there (docs/FIGURES.md); on a controller with less stack it must not be called.
 * The stack of the other functions is what it was without it.
 */
uint8_t opacity_explore(const uint64_t *table, size_t table_length,
                        const uint8_t *header, size_t header_length,
                        const uint8_t *further, size_t further_length,
                        uint32_t budget,
                        uint8_t *exploration, size_t exploration_length);

/*
 * Finds the first leak of a long log (02: S-8): the place of the first accepted event whose verdict by one notion is a leak.
 * Takes:   table and header of an automaton, the notion (OPACITY_WEAK or OPACITY_STRONG), the 28 bytes of the further secrets, the offered event bytes,
 *          any number of them, and 8 bytes for the place, whatever they hold.
 * Answers: 0: the place of the first accepted symbol after which the verdict by the notion, as `opacity_accept` gives it, is a leak for some secret
 *             that is given; where there is none, the place 0. Places count accepted symbols, from 1: what `opacity_accept` would refuse by 6 or 7 is
 *             passed over and not counted. What is offered behind that symbol has no influence.
 *          9: a slice of a wrong length (the events' excepted), a notion above 1, the header's K above 15, an initial state above 63, or an
 *             observable event's symbol above 31.
 *          13: more than three further secrets.
 *          14: the K of one that is given is above 15.
 * The opening is no event: a leak of the empty trace, 8 of `opacity_start`, is not tested and never named, and a list without events has the place 0.
 * A log that is larger than the memory can be mapped into it and passed in one slice. One that comes piece by piece can be followed by `opacity_fresh`,
 * whose judgement of the opening does not count, and `opacity_accept`: the first leak is where a judgement has another verdict by the notion than
 * OPACITY_NO_LEAK, of any secret. (It works out the verdicts by both notions, and takes longer: docs/FIGURES.md. The library in Rattle has a form for
 * blocks, `leaks::Search`, and the programs `first_leak`, weak, and `first_strong_leak`, strong, read a log from standard input: docs/FORMATS.md.)
 */
uint8_t opacity_first_leak(const uint64_t *table, size_t table_length,
                           const uint8_t *header, size_t header_length,
                           uint8_t notion,
                           const uint8_t *further, size_t further_length,
                           const uint8_t *events, size_t events_length,
                           uint8_t *place, size_t place_length);

/*
 * Writes an encoded automaton in its canonical form (02: S-9: one description for one plan).
 * Takes:   the encoding, an output that does not overlap it, and 8 bytes for the size, whatever these two hold. An output as long as the encoding has
 *          space for its form, and one of 2,210 bytes for every form.
 * Answers: 0: the form stands at the front of the output, and what stands behind keeps its bytes; the size is the number of its bytes. Two encodings
 *             that are accepted give equal bytes exactly where their top states, top events, K, initial states, secret states, observable events, the
 *             symbols of observable events and, in whatever order, the transitions are equal. `opacity_decode` reads from the form the table and the
 *             header that it reads from the encoding, and the form's own form is itself.
 *          9: the size has not 8 bytes.
 *          1, 3, 4, 5, 12: what `opacity_decode` answers to the encoding.
 *          10: the output has fewer bytes than the form. How many these are is not said: 2,210 are always enough.
 * It needs no table. The longest encoding takes a millisecond or two (docs/FIGURES.md).
 */
uint8_t opacity_canonical(const uint8_t *encoding, size_t encoding_length,
                          uint8_t *output, size_t output_length,
                          uint8_t *size, size_t size_length);

/*
 * Writes a witness: a run over the last k symbols that excuses the system (02: S-10).
 * Takes:   table and header as `opacity_fresh` got them, the notion (OPACITY_WEAK or OPACITY_STRONG), the number of a secret, 0 for the automaton's own,
 *          the step k, the estimator as the last call of `opacity_fresh` or `opacity_accept` left it, an output of 2,172 bytes or more, and 3 bytes for
 *          the run.
 * Answers: 0: the pairs stand at the front of the output, 1,086 at most, and the run holds the start and the number of pairs. Which of several
 *             witnesses it is, is not said.
 *          9: a slice of a wrong length (the output's excepted), a notion above 1, K above 15, an initial state above 63, an observable event's symbol
 *             above 31, or an estimator outside its limits, by its further secrets too.
 *          17: no secret with this number is given, or k is above its own K or above the number of accepted symbols.
 *          10: the output has fewer than 2,172 bytes.
 *          16: there is no witness.
 * An estimator within its limits that no trace on this automaton leads to gets 17 or 16 by what it remembers, 10 between them, or 0 with a run that is
 * only known to pass `opacity_check_witness`.
 */
uint8_t opacity_witness(const uint64_t *table, size_t table_length,
                        const uint8_t *header, size_t header_length,
                        uint8_t notion,
                        uint8_t secret,
                        uint8_t k,
                        const uint8_t *estimator, size_t estimator_length,
                        uint8_t *output, size_t output_length,
                        uint8_t *run, size_t run_length);

/*
 * Checks a witness, whoever wrote it.
 * Takes:   table, header, notion, secret, k and estimator as `opacity_witness`, the state that the run starts in, its pairs, any number of bytes, and 1
 *          byte for what is said.
 * Answers: 0: `valid[0]` is 1 if the start and the pairs are a witness, all bytes of them pairs, and else 0: so for an odd number of bytes, and for a
 *             secret or a k that `opacity_witness` refuses by 17. Any byte may stand anywhere, and a run may be longer than any that is written.
 *          9: what `opacity_witness` refuses by 9, with `valid` in place of the run.
 * Of an estimator that no trace on this automaton leads to it says yes to the runs that start in a state of its entry set k symbols back, bytes 16 + 8 k
 * to 23 + 8 k, show the k newest symbols that it remembers, and excuse the system by the notion.
 */
uint8_t opacity_check_witness(const uint64_t *table, size_t table_length,
                              const uint8_t *header, size_t header_length,
                              uint8_t notion,
                              uint8_t secret,
                              uint8_t k,
                              uint8_t start,
                              const uint8_t *estimator, size_t estimator_length,
                              const uint8_t *pairs, size_t pairs_length,
                              uint8_t *valid, size_t valid_length);

#ifdef __cplusplus
}
#endif

#endif
