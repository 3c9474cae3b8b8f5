"""The automata P, Q, T and U of 01, with the answers that it gives, and automata with symbols (S-2), with answers worked out by hand. In each line of
an accepted event or of the opening the fifth field is the estimate size (S-5): for P's trace 2, 2, 2, 1 as S-5 has it, elsewhere counted by hand.
And further secrets (S-6), with verdicts and releases worked out by hand; and explorations (S-7), with what they find worked out by hand; and first
leaks (S-8), with their places worked out by hand; and canonical forms (S-9), written out bit by bit; and runs that excuse the chamber (S-10), all of
them, worked out by hand."""

from runs import Automaton, Secret

P = Automaton(3, 2, 2, 0, {1}, {1, 2}, [(0, 0, 2), (0, 1, 1), (1, 2, 0), (2, 1, 3), (3, 1, 3)])
P1 = Automaton(3, 2, 1, 0, {1}, {1, 2}, P.transitions)
P0 = Automaton(3, 2, 0, 0, {1}, {1, 2}, P.transitions)
Q = Automaton(2, 1, 1, 0, {1}, {1}, [(0, 1, 1), (1, 0, 2)])
T = Automaton(1, 0, 0, 0, {0}, set(), [(0, 0, 1)])
ONE = Automaton(0, 0, 0, 0, {0}, set(), [])
U = Automaton(1, 1, 0, 0, {1}, {1}, [(0, 1, 1), (1, 1, 0)])

# each run passes the secret state and leaves it unobserved: leaks under strong, and none under weak
STRONG_ONLY = Automaton(2, 2, 2, 0, {1}, {1, 2}, [(0, 1, 1), (1, 0, 2), (2, 1, 0), (0, 2, 0), (2, 2, 2)])

# P with the symbols 2 and 0 for its observable events 1 and 2, and one for event 0 that is ignored
P_SYMBOLS = Automaton(3, 2, 2, 0, {1}, {1, 2}, P.transitions, [31, 2, 0])

# event 0 leads to the secret state 1, event 1 to state 2, and event 2 back: with the events' own numbers, and with one symbol for the first two
OWN_NUMBERS = Automaton(2, 2, 1, 0, {1}, {0, 1, 2}, [(0, 0, 1), (0, 1, 2), (1, 2, 0), (2, 2, 0)])
ONE_SYMBOL = Automaton(2, 2, 1, 0, {1}, {0, 1, 2}, OWN_NUMBERS.transitions, [7, 7, 2])

# two events with one symbol, of which the next symbol tells which it was: a leak that starts one step back
LATER = Automaton(3, 2, 2, 0, {1}, {0, 1, 2}, [(0, 0, 1), (0, 1, 2), (1, 2, 3), (3, 0, 3), (3, 1, 0)], [7, 7, 3])

# states 60 to 63, event 31, K 15 and a cycle of unobservable transitions; every transition of all, all states secret and none
CORNERS = Automaton(63, 31, 15, 63, {62}, {31}, [(63, 31, 62), (62, 31, 61), (61, 31, 61), (61, 0, 60), (60, 0, 61)])
EVERY = [(source, event, target) for source in range(64) for event in range(32) for target in range(64)]
ALL_SECRET = Automaton(63, 31, 15, 63, set(range(64)), set(range(32)), EVERY)
NONE_SECRET = Automaton(63, 31, 15, 63, set(), set(range(32)), EVERY)

# the reader's view closes in: 64 states fit the opening, each symbol takes one away, and the last that is left is secret; and it opens state by state
CLOSING = Automaton(63, 1, 1, 0, {63}, {1}, [(0, 0, q) for q in range(1, 64)] + [(q, 1, q + 1) for q in range(63)])
WIDENING = Automaton(63, 1, 1, 0, {5}, {1}, [(q, 1, q) for q in range(64)] + [(q, 1, q + 1) for q in range(63)])


def by_bits(*fields):
    """The bytes of fields that are written out bit by bit, and zero bits to the end of the last one."""
    bits = "".join(fields).replace(" ", "")
    size = -(-len(bits) // 8)
    return int(bits.ljust(8 * size, "0"), 2).to_bytes(size, "big")


P_ENCODING = bytes.fromhex("0C44000A460002002082200208618430")
Q_ENCODING = bytes.fromhex("082200044801041004")

# an automaton, the bytes that are offered, and the output
EXAMPLES = (
    (P, (1, 2, 1, 1), "1 1 - - 2 1\n2 2 1 1 2 -\n3 1 2 2 2 -\n4 1 - - 1 2,1,1\nend 4 4 0\n"),
    (P, (1, 2, 2, 1, 0, 200), "1 1 - - 2 1\n2 2 1 1 2 -\n! 2 7\n3 1 2 2 2 -\n! 0 6\n! 200 6\nend 3 1 2\n"),
    (P1, (1, 2, 1, 1), "1 1 - - 2 1\n2 2 1 1 2 -\n3 1 - - 2 2,1\n4 1 - - 1 1\nend 4 4 0\n"),
    (P0, (1, 2, 1, 1), "1 1 - - 2 1\n2 2 - - 2 2\n3 1 - - 2 1\n4 1 - - 1 1\nend 4 4 0\n"),
    (Q, (1,), "1 1 - 0 2 1\nend 1 1 0\n"),
    (U, (1, 1), "1 1 0 0 1 -\n2 1 - - 1 1,1\nend 2 2 0\n"),
    (T, (0,), "! 0 6\nend 0 0 0\n"),
    (ONE, (0,), "refused 8\n"),
    (ONE, (), "refused 8\n"),
    (P, (), "0 - - - 2 -\nend 0 0 0\n"),
    (T, (), "0 - - 0 2 -\nend 0 0 0\n"),
    (Q, (), "0 - - - 1 -\nend 0 0 0\n"),
    (P, (2, 0, 3), "! 2 7\n! 0 6\n! 3 6\nend 0 0 0\n"),
    (P_SYMBOLS, (2, 0, 1, 2, 31, 2), "1 2 - - 2 2\n2 0 1 1 2 -\n! 1 6\n3 2 2 2 2 -\n! 31 6\n4 2 - - 1 0,2,2\nend 4 4 0\n"),
    (OWN_NUMBERS, (0, 2, 1, 2), "1 0 0 0 1 -\n2 2 1 1 1 -\n3 1 - - 1 0,2,1\n4 2 - - 1 2\nend 4 4 0\n"),
    (ONE_SYMBOL, (7, 2, 0, 1, 7, 7, 2), "1 7 - - 2 7\n2 2 - - 1 2\n! 0 6\n! 1 6\n3 7 - - 2 7\n! 7 7\n4 2 - - 1 2\nend 4 4 0\n"),
    (LATER, (7, 3, 7, 2, 7), "1 7 - - 2 7\n2 3 1 1 1 -\n3 7 2 2 2 -\n! 2 6\n4 7 - - 4 3,7,7\nend 4 4 0\n"),
)

# an encoding with a symbol behind it, and the refusal
ENCODINGS = (
    (Q_ENCODING[:-1], 1),
    (Q_ENCODING[:-1] + b"\x05", 5),
    (Q_ENCODING + b"\x00", 5),
    (Q_ENCODING[:3] + b"\x05" + Q_ENCODING[4:], 3),
)

# an automaton, its opening verdicts and the opening's estimate size, and whether the empty trace is safe, weak and strong
OPENINGS = (
    (P, None, None, 2, True, True),
    (Q, None, None, 1, True, True),
    (T, None, 0, 2, True, False),
    (U, None, None, 1, True, True),
    (ONE, 0, 0, 1, False, False),
)

# an automaton, a trace, and the states in which a compatible run ends: before its first symbol and after each, by hand from the transitions. In P
# state 0 may be left unobserved for 2, in Q state 1 for 2, in T state 0 for 1; in CORNERS 61 and 60 lead to each other unobserved.
ESTIMATES = (
    (P, (1, 2, 1, 1), ({0, 2}, {1, 3}, {0, 2}, {1, 3}, {3})),
    (P, (1, 1, 1), ({0, 2}, {1, 3}, {3}, {3})),
    (Q, (1,), ({0}, {1, 2})),
    (T, (), ({0, 1},)),
    (ONE, (), ({0},)),
    (U, (1, 1, 1), ({0}, {1}, {0}, {1})),
    (STRONG_ONLY, (1, 1, 2, 1), ({0}, {1, 2}, {0}, {0}, {1, 2})),
    (ONE_SYMBOL, (7, 2), ({0}, {1, 2}, {0})),
    (LATER, (7, 3, 7, 7), ({0}, {1, 2}, {3}, {0, 3}, {0, 1, 2, 3})),
    (CORNERS, (31, 31, 31), ({63}, {62}, {60, 61}, {60, 61})),
    (NONE_SECRET, (31, 0), ({63}, set(range(64)), set(range(64)))),
    (CLOSING, (1,) * 63, tuple(set(range(n, 64)) for n in range(64))),
    (WIDENING, (1,) * 64, tuple(set(range(n)) for n in range(1, 65)) + (set(range(64)),)),
)


def secret(k, *states):
    """A secret with its own K."""
    return Secret(frozenset(states), k)


# further secrets for P, whose own has K 2
P_SECRETS = (secret(0, 3), secret(15, 1), secret(0, 1))

# an automaton, further secrets, a trace; the verdicts before its first symbol and after each: for each secret the weak one and the strong one; and how
# many symbols a weak and a strong enforcer have released after each, None where it does not start. P's runs are, by their states, those at which a
# symbol was shown behind a comma: 0 and 02; 0,1 and 02,3; 0,1,0 and 0,1,02; 0,1,0,1 and 0,1,02,3; 0,1,02,3,3.
SEVERAL = (
    (P, (), (1, 2, 1, 1), ("--", "--", "11", "22", "--"), ((1, 1), (1, 1), (1, 1), (4, 4))),
    (P, P_SECRETS, (1, 2, 1, 1), ("-- -- -- --", "-- -- -- --", "11 -- 11 --", "22 -- 22 --", "-- 00 33 --"), ((1, 1),) * 4),
    (P, (secret(1, 0),), (1, 2, 1, 1), ("-- -0", "-- -1", "11 -0", "22 -1", "-- --"), ((1, None), (1, None), (1, None), (4, None))),
    (P, (secret(2, 0, 2),), (1, 2), ("-- 00", "-- 11", "11 00"), ((None, None),) * 2),
    (P0, (secret(2, 1),), (1, 2, 1, 1), ("-- --", "-- --", "-- 11", "-- 22", "-- --"), ((1, 1), (1, 1), (1, 1), (4, 4))),
    (P, (secret(0, 1), secret(1, 1, 3)), (1, 2, 1, 1), ("-- -- --", "-- -- 00", "11 -- 11", "22 -- 00", "-- -- 00"), ((0, 0), (0, 0), (1, 1), (2, 2))),
    (U, (secret(2, 1), secret(15)), (1, 1, 1, 1), ("-- -- --", "00 00 --", "-- 11 --", "00 00 --", "-- 11 --"), ((0, 0), (0, 0), (0, 0), (2, 2))),
    (T, (secret(0, 1), secret(3, 0, 1)), (), ("-0 -- 00",), ()),
)


# an initial state that is secret, and left by the first symbol for good
OPENING = Automaton(1, 0, 0, 0, {0}, {0}, [(0, 0, 1), (1, 0, 1)])

# nothing is secret but by further secrets: an event to a state, and on to one that is left no more
PASSING = Automaton(2, 0, 0, 0, (), {0}, [(0, 0, 1), (1, 0, 2), (2, 0, 2)])

# two states that lead to each other unobserved: event 1 leads to one of them, event 2 to the other, and then runs may be in both
EITHER = Automaton(1, 2, 0, 0, {1}, {1, 2}, [(0, 0, 1), (1, 0, 0), (0, 1, 0), (0, 2, 1)])


def rings(chain, k, *phases):
    """A chain of states, from the last of which the one event leads into two rings, of 16 states and 15. There is one trace of each length. After one
    that is at least as long as the chain, runs are in two states, and again in the same 240 symbols later: a configuration is one that was before as
    soon as the symbol before its last K ones is 240 behind one at which runs were in the rings. That is K + chain + 240 configurations. A secret has
    two states, in which runs are together when so many symbols have followed the chain, and again 240 later."""
    around = [(chain + i, 0, chain + (i + 1) % 16) for i in range(16)] + [(chain + 16 + i, 0, chain + 16 + (i + 1) % 15) for i in range(15)]
    transitions = [(i, 0, i + 1) for i in range(chain)] + [(chain - 1, 0, chain + 16)] + around
    secret = {chain + phase % 16 for phase in phases} | {chain + 16 + phase % 15 for phase in phases}
    return Automaton(chain + 30, 0, k, 0, secret, {0}, transitions)


def subsets(chain, k=0, secret=()):
    """Eight states and a chain before them, or one of the eight as the initial state: event 0 leads along the chain and from its end to all eight,
    event 1 from each to the next, and event 2 leaves no run in the first and the others where they are. So runs can be in any of the 255 sets of the
    eight that are not empty, and in each state of the chain."""
    last = 8 + chain - 1 if chain else 0
    transitions = [(last, 0, i) for i in range(8)] + [(i, 1, (i + 1) % 8) for i in range(8)] + [(i, 2, i) for i in range(1, 8)]
    transitions += [(i, 0, i + 1) for i in range(8, last)]
    return Automaton(7 + chain, 2, k, 8 if chain else 0, secret, {0, 1, 2}, transitions)


def hops(missing, k=1, secret=()):
    """Eight states, which each of 32 events leaves for one state, but for so many transitions that are missing. With K 1 a configuration that is not
    that of the opening is a state and an event: 257 configurations, but for those missing."""
    transitions = [(i, event, (i + event) % 8) for i in range(8) for event in range(32)]
    return Automaton(7, 31, k, 0, secret, set(range(32)), transitions[: len(transitions) - missing], range(31, -1, -1))


# an automaton, its K, further secrets; how many configurations there are, and the largest weak wait and the largest strong one. By `A 1 B` is meant:
# where runs are right after a symbol, A, the next symbol, 1, and where they are right after it. A configuration of n symbols, fewer than K, is a way
# of n symbols from the initial state; one of K symbols is a way of K symbols that starts anywhere.
#   P: A = {0}, B = {1, 3} and C = {3}, with A 1 B, B 2 A, B 1 C and C 1 C. K 0: these three. K 1: the opening and the four ways. K 2: the opening,
#     A 1 B, and of two symbols 2 ways from A, 2 from B, 1 from C. Of n symbols there are n // 2 + 1 from A, (n + 1) // 2 + 1 from B, 1 from C: for K
#     15 these are 2 (1 + 2 + .. + 7) + 8 of fewer than 15 symbols, and 8 + 9 + 1. At the end of B 2 A runs were in 1 one symbol ago: a leak 1.
#   Q, T and ONE: one symbol at most. T's opening, and Q right after its symbol, leaks under strong alone.
#   U: {0} and {1} in turn. There is one trace of each length, and those of K + 2 symbols and more lead to what one two shorter leads to. {1} leaks 0.
#   STRONG_ONLY: {0}, {1}, {2}, each with two symbols: 1 + 2 + .. of fewer than K, and 3 times 2 ** K. Right after {0} 1 {1} a strong leak 0.
#   LATER: A = {0}, B = {1, 2}, C = {3}, D = {0, 3}, E = all, with A 7 B, B 3 C, C 7 D, D 7 E, E 7 E and E 3 C; what ends with a 3 is a leak 1.
#   EITHER: {0} and {1}, each with two symbols, though runs may soon be in both. Right after {1} was entered every run has been in 1: a strong leak.
#   OPENING: the traces of 0 to K + 1 symbols; the opening leaks 0, and the others that leak more. PASSING: those of 0 to K + 2 symbols.
# With further secrets the configurations are those by the largest K, and each secret waits by its own.
EXPLORATIONS = (
    *((P, k, (), *found) for k, found in ((0, (3, 0, 0)), (1, (5, 1, 1)), (2, (7, 2, 2)), (15, (82, 15, 15)))),
    *((Q, k, (), 2, 0, k + 1) for k in (0, 1, 15)),
    *((T, k, (), 1, 0, k + 1) for k in (0, 1, 15)),
    *((ONE, k, (), 1, k + 1, k + 1) for k in (0, 1, 15)),
    *((U, k, (), k + 2, k + 1, k + 1) for k in (0, 1, 2, 15)),
    *((STRONG_ONLY, k, (), count, 0, k + 1) for k, count in ((0, 3), (1, 7), (2, 15), (3, 31))),
    *((EITHER, k, (), count, 0, k + 1) for k, count in ((0, 2), (1, 5), (2, 11))),
    *((OPENING, k, (), k + 2, k + 1, k + 1) for k in (0, 1, 15)),
    # two events with their own numbers: {0} 0 {1}, {0} 1 {2}, and back; with one symbol {0} 7 {1, 2}, and back, and nothing leaks
    (OWN_NUMBERS, 1, (), 5, 2, 2),
    (ONE_SYMBOL, 1, (), 3, 0, 0),
    *((LATER, k, (), *found) for k, found in ((0, (5, 0, 0)), (1, (7, 1, 1)), (2, (10, 2, 2)))),
    # the largest K is that of a secret that never leaks
    (U, 0, (secret(2, 1), secret(15)), 17, 3, 3),
    (P, 2, P_SECRETS, 82, 15, 15),
    # runs in C, all in 3: the last secret alone waits so long
    (P, 2, (secret(0), secret(0), secret(4, 3)), 13, 5, 5),
    # in A some are in 0 and some have left it unobserved: under strong alone, of the further secret alone
    (P, 0, (secret(1, 0),), 5, 0, 2),
    (PASSING, 0, (secret(3, 1), secret(0, 2)), 6, 4, 4),
    # 255, 256 and 257 configurations, and None for more; of `rings` the last one found alone is a leak, where K is 0 and the phase 239
    *((rings(chain, 15), 15, (), *found) for chain, found in ((1, (256, 0, 0)), (2, (None,)))),
    *((rings(chain, 14, 7), 14, (), *found) for chain, found in ((1, (255, 15, 15)), (2, (256, 15, 15)), (3, (None,)))),
    *((rings(chain, 0, 239), 0, (), *found) for chain, found in ((15, (255, 1, 1)), (16, (256, 1, 1)), (17, (None,)))),
    *((subsets(chain, 0, {3}), 0, (), *found) for chain, found in ((0, (255, 1, 1)), (1, (256, 1, 1)), (2, (None,)))),
    *((hops(missing), 1, (secret(0, 5),), *found) for missing, found in ((0, (None,)), (1, (256, 1, 1)), (2, (255, 1, 1)))),
)


# initial states that are secret: with K 1, so that the first symbol is still too near; entered again by every second symbol; left unobserved, for a state
# from which the first symbol may come, with K 0 and with K 1
OPENING1 = Automaton(1, 0, 1, 0, {0}, {0}, OPENING.transitions)
RETURNING = Automaton(1, 1, 0, 0, {0}, {1}, U.transitions)
UNOBSERVED, UNOBSERVED1 = (Automaton(1, 1, k, 0, {0}, {1}, [(0, 0, 1), (1, 1, 1)]) for k in (0, 1))

# STRONG_ONLY, and one more secret state, from which nothing leads
WEAK_LATER = Automaton(3, 3, 2, 0, {1, 3}, {1, 2, 3}, STRONG_ONLY.transitions + [(0, 3, 3)])

# however many symbols 0 came, nothing leaks; then the symbol 1 leads to the secret state for good
AFTER_ANY = Automaton(1, 1, 0, 0, {1}, {0, 1}, [(0, 0, 0), (0, 1, 1), (1, 0, 1)])

# an automaton, further secrets, the bytes that are offered; the place of the first weak leak, and of the first strong one
FIRST_LEAKS = (
    (P, (), (1, 2, 1, 1), 2, 2),
    # 0 and 200 are no symbols; 2 does not come first, and not twice
    (P, (), (0, 200, 2, 1, 0, 2, 2, 1, 1), 2, 2),
    (P, (), (0, 1, 200, 2, 2, 1, 1), 2, 2),
    (P, (), (1, 0, 200, 2), 2, 2),
    (P, (), (1,), None, None),
    (P, (), (), None, None),
    # after 1 1 all runs are in 3, and stay
    (P, (), (1, 1, 2, 1, 2, 1), None, None),
    (P1, (), (1, 2, 1, 1), 2, 2),
    (P0, (), (1, 2, 1, 1), None, None),
    (Q, (), (1,), None, 1),
    (Q, (), (0, 1, 1), None, 1),
    (U, (), (1, 1), 1, 1),
    # openings that leak and have no place: no event is accepted, none leaks, the first one still does, or a later one
    (T, (), (), None, None),
    (T, (), (0,), None, None),
    (ONE, (), (), None, None),
    (ONE, (), (0, 1), None, None),
    (OPENING, (), (0, 0, 0), None, None),
    (OPENING1, (), (1, 0, 0), 1, 1),
    (RETURNING, (), (1, 0, 1, 1), 2, 2),
    (UNOBSERVED, (), (1, 1), None, None),
    (UNOBSERVED1, (), (0, 1, 1), None, 1),
    # weak and strong differ
    (STRONG_ONLY, (), (2, 1, 1, 2, 1), None, 2),
    (WEAK_LATER, (), (2, 2, 0, 1, 1, 200, 3), 5, 3),
    # symbols
    (P_SYMBOLS, (), (2, 0, 1, 2, 31, 2), 2, 2),
    (P_SYMBOLS, (), (1, 31, 0, 2, 1, 0), 2, 2),
    (OWN_NUMBERS, (), (1, 2, 1, 1, 2, 0), 5, 5),
    (ONE_SYMBOL, (), (7, 2, 0, 1, 7, 7, 2), None, None),
    (LATER, (), (7, 7, 3, 7), 2, 2),
    (AFTER_ANY, (), (1,), 1, 1),
    (AFTER_ANY, (), (0,) * 5 + (1, 0, 0), 6, 6),
    # P's own secret, now a further one with K 1, at each place; then with K 0, beside others with larger K
    (P0, (secret(1, 1),), (1, 2, 1, 1), 2, 2),
    (P0, (secret(0), secret(1, 1)), (1, 2, 1, 1), 2, 2),
    (P0, (secret(0), secret(0), secret(1, 1)), (1, 2, 1, 1), 2, 2),
    (P0, (secret(0, 1), secret(15)), (1, 2, 1, 1), None, None),
    # all runs in 3, which is secret number 2, in the end
    (P0, (secret(0), secret(0, 3)), (1, 2, 1, 1), 4, 4),
    (P0, (secret(0), secret(0, 3), secret(9)), (1, 0, 1), 2, 2),
    (P, (secret(0, 1), secret(1, 1, 3)), (1, 2), 1, 1),
    # of the further secret under strong alone, and before that of the opening
    (P, (secret(1, 0),), (1, 2, 1, 1), 2, 1),
    (P, (secret(2, 0, 2),), (200, 1, 2), 1, 1),
    # the opening is in secret number 1: still near, or no more, and then in number 2 or 3
    (PASSING, (secret(3, 0),), (0, 0), 1, 1),
    (PASSING, (secret(0, 0),), (0, 0), None, None),
    (PASSING, (secret(0, 0), secret(0, 2)), (1, 0, 0, 0), 2, 2),
    (PASSING, (secret(0, 0), secret(0), secret(0, 1)), (0, 0, 0), 1, 1),
)


# an encoding and its canonical form. The fields: top state, top event, K, initial state, number of transitions, whether symbols follow; secret and
# observable flags; symbols; transitions
FORMS = (
    (P_ENCODING, P_ENCODING),
    (Q_ENCODING, Q_ENCODING),
    # Q, its transitions turned round
    (by_bits("000010 00001 0001 000000 0000000010 0", "010 01", "000001 00000 000010", "000000 00001 000001"), Q_ENCODING),
    # P with symbols that are not needed: 31 for event 0, which is not observable, and the others' own numbers
    (
        by_bits(
            "000011 00010 0010 000000 0000000101 1", "0100 011", "11111 00001 00010",
            "000000 00000 000010", "000000 00001 000001", "000001 00010 000000", "000010 00001 000011", "000011 00001 000011",
        ),
        P_ENCODING,
    ),
    # two of its transitions, the last first, with a symbol that is needed: 0 for event 2
    (
        by_bits("000011 00010 0010 000000 0000000010 1", "0100 011", "11111 00001 00000", "000011 00001 000011", "000001 00010 000000"),
        by_bits("000011 00010 0010 000000 0000000010 1", "0100 011", "00000 00001 00000", "000001 00010 000000", "000011 00001 000011"),
    ),
    # two states and two events: by from, then by event, then by to
    (
        by_bits(
            "000001 00001 1111 000001 0000000100 0", "10 11",
            "000001 00000 000000", "000000 00001 000001", "000000 00001 000000", "000000 00000 000001",
        ),
        by_bits(
            "000001 00001 1111 000001 0000000100 0", "10 11",
            "000000 00000 000001", "000000 00001 000000", "000000 00001 000001", "000001 00000 000000",
        ),
    ),
    # one state and one event: observable with its own number, then not observable, then observable with another symbol, secret and not
    (by_bits("000000 00000 0000 000000 0000000000 1", "1 1", "00000"), by_bits("000000 00000 0000 000000 0000000000 0", "1 1")),
    (by_bits("000000 00000 0000 000000 0000000000 1", "1 0", "11111"), by_bits("000000 00000 0000 000000 0000000000 0", "1 0")),
    (by_bits("000000 00000 0000 000000 0000000000 1", "1 1", "11111"), bytes.fromhex("00000001FE")),
    (by_bits("000000 00000 0000 000000 0000000000 1", "0 1", "00001"), bytes.fromhex("0000000142")),
)


# the initial state is secret. It is left unobserved for one from which the symbol comes; or for one from which nothing comes; or by the symbol alone
LEAVING = Automaton(2, 1, 1, 0, {0}, {1}, [(0, 0, 1), (1, 1, 2)])
BLIND = Automaton(2, 1, 1, 0, {0}, {1}, [(0, 0, 1), (0, 1, 2)])
SEEN_LATER = Automaton(2, 1, 1, 0, {0}, {1}, [(0, 1, 1), (1, 1, 2)])

# behind the symbol two unobservable steps may follow, the second into the secret state
TAIL = Automaton(3, 1, 1, 0, {3}, {1}, [(0, 1, 1), (1, 0, 2), (2, 0, 3)])

# the initial state is secret and may be left unobserved, and entered again, before the symbol
OUT_AND_BACK = Automaton(2, 2, 2, 0, {0}, {2}, [(0, 0, 1), (1, 1, 0), (0, 2, 2), (2, 2, 0)])

# two events with one symbol, and unobservable steps, chosen so that of each question of the trace at most one run excuses the chamber: before the last two
# symbols it is in 0, from which it has to go by 3, without another position; before the last four too, but there it has to go by 2
ONE_EACH = Automaton(
    5, 4, 4, 0, {0}, {1, 2, 3}, [(0, 1, 3), (0, 4, 2), (1, 1, 2), (1, 2, 3), (1, 4, 0), (2, 2, 5), (3, 0, 2), (5, 3, 0)], [31, 9, 9, 2, 30]
)

# an automaton, further secrets, a trace, the number of a secret; for each k from 0 on all runs that excuse the chamber under weak, and then under strong:
# the start, and the pairs of an event and the state reached. P right after 1 2 1 1 is in 3; the last symbol came from 3, since nothing leaves 1 by it; and
# before the last two it was in 0, from which 1 leads to 1 and no further, and an unobservable step to 2, and on to 3.
WITNESSES = (
    (P, (), (1, 2, 1, 1), 0, (["3"], ["3 1,3"], ["0 0,2 1,3 1,3"]), (["3"], ["3 1,3"], ["0 0,2 1,3 1,3"])),
    (P, (), (1, 2, 1), 0, (["3"], ["0 1,1", "0 0,2 1,3"], []), (["3"], ["0 0,2 1,3"], [])),
    (P, (), (1, 2), 0, (["0", "0 0,2"], [], ["0 1,1 2,0", "0 1,1 2,0 0,2"]), (["0", "0 0,2"], [], [])),
    (P, (), (1,), 0, (["3"], ["0 1,1", "0 0,2 1,3"]), (["3"], ["0 0,2 1,3"])),
    (P, (), (), 0, (["0", "0 0,2"],), (["0", "0 0,2"],)),
    (P, (secret(1, 0),), (1, 2), 1, (["0 0,2"], ["1 2,0", "1 2,0 0,2"]), ([], [])),
    (P, (secret(1, 0),), (1,), 1, (["1", "3"], ["0 0,2 1,3"]), (["1", "3"], [])),
    (P, (secret(0, 3), secret(1, 1, 3)), (1, 2, 1), 2, ([], ["0 1,1", "0 0,2 1,3"]), ([], [])),
    (P_SYMBOLS, (), (2, 0, 2, 2), 0, (["3"], ["3 1,3"], ["0 0,2 1,3 1,3"]), (["3"], ["3 1,3"], ["0 0,2 1,3 1,3"])),
    (Q, (), (1,), 0, (["1 0,2"], ["0 1,1", "0 1,1 0,2"]), ([], [])),
    (T, (), (), 0, (["0 0,1"],), ([],)),
    (ONE, (), (), 0, ([],), ([],)),
    (U, (), (1,), 0, ([],), ([],)),
    (U, (), (1, 1), 0, (["0"],), (["0"],)),
    (U, (secret(2, 0),), (1, 1), 1, ([], ["1 1,0"], []), ([], [], [])),
    (STRONG_ONLY, (), (1, 1), 0, (["0"], ["1 0,2 1,0"], ["0 1,1 0,2 1,0"]), (["0"], [], [])),
    (ONE_SYMBOL, (), (7, 2), 0, (["0"], ["2 2,0"]), (["0"], ["2 2,0"])),
    (ONE_SYMBOL, (), (7,), 0, (["2"], ["0 0,1", "0 1,2"]), (["2"], ["0 1,2"])),
    (LATER, (), (7, 3), 0, (["3"], [], ["0 0,1 2,3"]), (["3"], [], [])),
    (LEAVING, (), (1,), 0, (["2"], ["0 0,1 1,2"]), (["2"], [])),
    (BLIND, (), (1,), 0, (["2"], []), (["2"], [])),
    (BLIND, (), (), 0, (["0 0,1"],), ([],)),
    (SEEN_LATER, (), (1,), 0, (["1"], []), (["1"], [])),
    (SEEN_LATER, (), (1, 1), 0, (["2"], ["1 1,2"]), (["2"], ["1 1,2"])),
    (
        ONE_EACH, (), (9, 2, 9, 2, 9, 9), 0, (["5"], ["3 0,2 2,5"], [], ["5 3,0 1,3 0,2 2,5"], ["0 4,2 2,5 3,0 1,3 0,2 2,5"]),
        (["5"], ["3 0,2 2,5"], [], [], []),
    ),
    (TAIL, (), (1,), 0, (["1", "1 0,2", "1 0,2 0,3"], ["0 1,1", "0 1,1 0,2", "0 1,1 0,2 0,3"]), (["1", "1 0,2"], ["0 1,1", "0 1,1 0,2"])),
)
