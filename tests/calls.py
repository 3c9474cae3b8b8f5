"""Calls of the gateway's functions: the lines that crates/gateway_calls reads, and what it has to print for them.

Answers and slices follow include/opacity.h and 01's refusal table, and come from listed runs. What a saved state says of its trace is not read
out of its bytes: the calls that led to it are remembered. So a state that did not grow from a fresh one has no trace here, and the calls on it
whose answer 01 leaves open are written by `open`. Past the count of its further secrets a state may have any bytes: it grew as the one with 0 there,
and a call hands them back.
"""

from canonical import written
from explorations import MOST, explored
from first_leaks import first_leak
from logs import INCOMPATIBLE, INITIAL_LEAK, MALFORMED, NOT_OBSERVABLE, OUTPUT_TOO_SMALL, Refused, decoded
from runs import Listing
from saved import (
    ENFORCER_BYTES, ESTIMATOR_BYTES, EXPLORATION_BYTES, FURTHER, FURTHER_BYTES, HEADER_BYTES, JUDGEMENT_BYTES, NOTION, PENDING, PLACE_BYTES,
    RELEASE_BYTES, RUN_BYTES, SECRETS, SIZE_BYTES, SYMBOLS, VALID_BYTES, WORDS, asked_of, automaton_of, cleared, exploration_bytes, given_of,
    grown_enforcer, grown_estimator, header_of, judgement_bytes, observable_of, place_bytes, run_bytes, safe_of, symbol_at, table_of, with_past,
)
from witnesses import NO_WITNESS, OUTPUT_BYTES, TOO_FAR, asked_after, exists, is_witness, only

TOO_MANY_SECRETS, LOOK_BACK_TOO_LARGE, BUDGET_SPENT = 13, 14, 15
# of the slices that have one size
SIZES = {
    "header": HEADER_BYTES, "further": FURTHER_BYTES, "estimator": ESTIMATOR_BYTES, "judgement": JUDGEMENT_BYTES, "enforcer": ENFORCER_BYTES,
    "release": RELEASE_BYTES, "exploration": EXPLORATION_BYTES, "place": PLACE_BYTES, "size": SIZE_BYTES, "run": RUN_BYTES, "valid": VALID_BYTES,
}
# what each function but decode and canonical is lent of them, beside the header
LENT = {
    "fresh": ("further", "estimator", "judgement"), "accept": ("estimator", "judgement"), "start": ("further", "enforcer"),
    "offer": ("enforcer", "release"), "explore": ("further", "exploration"), "first_leak": ("further", "place"),
    "witness": ("estimator", "run"), "check_witness": ("estimator", "valid"),
}


def secrets_fault(further):
    """What is wrong with further secrets: more than three, or one that is given has a K above 15; or 0. A place past the count counts for nothing."""
    if FURTHER < further[0]:
        return TOO_MANY_SECRETS
    return LOOK_BACK_TOO_LARGE if any(15 < secret.k for secret in given_of(further)) else 0


def elements(data):
    """How many elements a slice has, and those that are not 0: behind their index, or behind the one before; and how often, where one is repeated."""
    text, i = str(len(data)), 0
    while i < len(data):
        end = i + 1
        while end < len(data) and data[end] == data[i]:
            end += 1
        if data[i]:
            text += ("," if i and data[i - 1] else f" {i}:") + f"{data[i]:x}" + (f"*{end - i}" if end - i > 1 else "")
        i = end
    return text


class Calls:
    """The slices as the program keeps them, its lines so far and its output so far."""

    def __init__(self):
        self.lines, self.printed = [], []
        self.table = ()
        names = "encoding", "header", "further", "estimator", "judgement", "enforcer", "output", "release", "exploration", "events", "place", "size"
        self.slices = {name: b"" for name in (*names, "run", "pairs", "valid")}
        self.grown = {}  # an automaton and the bytes of a state, its further secrets among them, 0 past their count: the listing of its trace
        self.openings = {}  # an automaton and the further secrets that are given: the listing of the empty trace
        self.explorations = {}  # the same: what an exploration finds with the largest budget, or None

    # lines that print nothing, or themselves

    def say(self, text):
        """A line for the reader."""
        for into in (self.lines, self.printed):
            into.append(f"# {text}")

    def misread(self, line):
        """A line that is not understood."""
        self.lines.append(line)
        self.printed.append("?")

    def put(self, **slices):
        """Lends other bytes from now on."""
        for name, data in slices.items():
            self.slices[name] = bytes(data)
            self.lines.append(f"{name} {elements(self.slices[name])}")

    def put_table(self, words):
        """Lends another table from now on."""
        self.table = tuple(words)
        self.lines.append(f"table {elements(self.table)}")

    def lend(self, automaton):
        """The table and the header of an automaton, not decoded."""
        self.put_table(table_of(automaton))
        self.put(header=header_of(automaton))

    def hold(self, listing):
        """Lends the estimator after the trace of a listing, of this automaton, as if it had grown here."""
        self.put(estimator=grown_estimator(listing))
        self.grown[self.automaton(), self.slices["estimator"]] = listing

    # calls

    def call(self, line, answer, *shown):
        """A call, its answer, and the slices that the function was lent to write to."""
        self.lines.append(line)
        self.printed.append(f"{line}: {answer}")
        for name in shown:
            self.printed.append(f"{name:9} {elements(self.table if name == 'table' else self.slices[name])}")
        return answer

    def decode(self):
        """Decodes the encoding."""
        return self.call("decode", self.decoding(), "table", "header")

    def decoding(self):
        """The answer of decode, after which the slices are as it leaves them."""
        if len(self.slices["header"]) != HEADER_BYTES or len(self.table) != WORDS:
            return MALFORMED
        try:
            automaton = decoded(self.slices["encoding"])
        except Refused as refusal:
            return refusal.args[0]
        self.table = tuple(table_of(automaton))
        self.slices["header"] = header_of(automaton)
        return 0

    def canonical(self):
        """Writes the canonical form of the encoding."""
        return self.call("canonical", self.writing(), "output", "size")

    def writing(self):
        """The answer of canonical."""
        answer, self.slices["output"], self.slices["size"] = written(*(self.slices[name] for name in ("encoding", "output", "size")))
        return answer

    def fresh(self):
        """Makes a fresh estimator."""
        return self.call("fresh", self.opening(), "estimator", "judgement")

    def opening(self):
        """The answer of fresh."""
        return self.fault("fresh") or self.told(self.opened(), bytes(ESTIMATOR_BYTES))

    def accept(self, byte):
        """Offers a symbol, or any other byte, to an estimator."""
        return self.call(f"accept {byte}", self.accepting(byte), "estimator", "judgement")

    def accepting(self, byte):
        """The answer of accept."""
        if not self.sound("accept") or not self.estimator_sound(self.slices["estimator"]):
            return MALFORMED
        if byte not in self.symbols():
            return NOT_OBSERVABLE
        longer = self.listing("estimator").longer(byte)
        return INCOMPATIBLE if longer is None else self.told(longer, self.slices["estimator"])

    def told(self, listing, before):
        """Writes the estimator after a trace, and its verdicts and estimate size."""
        self.keep("estimator", grown_estimator(listing), listing, before)
        self.slices["judgement"] = judgement_bytes(listing)
        return 0

    def start(self, notion):
        """Starts an enforcer."""
        return self.call(f"start {notion}", self.starting(notion), "enforcer")

    def starting(self, notion):
        """The answer of start."""
        fault = self.fault("start", notion)
        if fault:
            return fault
        listing = self.opened()
        if 0 in listing.verdicts(notion):
            return INITIAL_LEAK
        self.keep("enforcer", grown_enforcer(listing, notion), listing, bytes(ENFORCER_BYTES))
        return 0

    def offer(self, byte):
        """Offers a symbol, or any other byte, to an enforcer."""
        return self.call(f"offer {byte}", self.offering(byte), "enforcer", "output", "release")

    def offering(self, byte):
        """The answer of offer."""
        if not self.sound("offer") or not self.enforcer_sound(self.slices["enforcer"]):
            return MALFORMED
        if len(self.slices["output"]) < 17:
            return OUTPUT_TOO_SMALL
        if byte not in self.symbols():
            return NOT_OBSERVABLE
        before, notion = self.listing("enforcer"), self.slices["enforcer"][NOTION]
        longer = before.longer(byte)
        if longer is None:
            return INCOMPATIBLE
        released = longer.trace[before.longest(safe_of(before, notion)) : longer.longest(safe_of(longer, notion))]
        self.keep("enforcer", grown_enforcer(longer, notion), longer, self.slices["enforcer"])
        self.slices["output"] = bytes(released) + self.slices["output"][len(released) :]
        # the size is that of all accepted symbols, pending ones among them
        self.slices["release"] = bytes([len(released), longer.size()])
        return 0

    def explore(self, budget):
        """Explores the configurations, up to a budget of them."""
        return self.call(f"explore {budget}", self.exploring(budget), "exploration")

    def exploring(self, budget):
        """The answer of explore."""
        fault = self.fault("explore")
        if fault:
            return fault
        found = self.found()
        if found is None or min(budget, MOST) < found.count:
            return BUDGET_SPENT
        self.slices["exploration"] = exploration_bytes(found)
        return 0

    def first_leak(self, notion):
        """Looks for the first leak of the offered bytes."""
        return self.call(f"first_leak {notion}", self.searching(notion), "place")

    def searching(self, notion):
        """The answer of first_leak."""
        fault = self.fault("first_leak", notion)
        if fault:
            return fault
        self.slices["place"] = place_bytes(first_leak(self.opened(), notion, self.slices["events"]))
        return 0

    def witness(self, notion, number, k):
        """Writes a run that excuses the chamber, where there is no other."""
        answer = self.excusing(notion, number, k)
        if answer == 0:
            start, pairs = only(asked_after(self.listing("estimator"), notion, number, k))
            self.slices["output"] = pairs + self.slices["output"][len(pairs) :]
            self.slices["run"] = run_bytes(start, pairs)
        return self.call(f"witness {notion} {number} {k}", answer, "output", "run")

    def any_witness(self, notion, number, k):
        """The same where there may be others, of which any will do: the program looks whether what is written passes, and every slice stays as it is."""
        answer = self.excusing(notion, number, k)
        self.call(f"any witness {notion} {number} {k}", answer or "passes")
        return answer

    def excusing(self, notion, number, k):
        """The answer of witness."""
        if not self.watching("witness", notion):
            return MALFORMED
        asked = asked_after(self.listing("estimator"), notion, number, k)
        if asked is None:
            return TOO_FAR
        if len(self.slices["output"]) < OUTPUT_BYTES:
            return OUTPUT_TOO_SMALL
        return 0 if exists(asked) else NO_WITNESS

    def open_witness(self, notion, number, k):
        """The same on a state within its limits that did not grow from a fresh one: every slice stays as it is. (The program looks whether the answer is
        allowed: 16, 17, or 0 with a run that passes.)"""
        assert self.watching("witness", notion) and not self.grew() and OUTPUT_BYTES <= len(self.slices["output"])
        return self.call(f"open witness {notion} {number} {k}", "open")

    def check_witness(self, notion, number, k, start):
        """Looks whether the pairs are a run that excuses the chamber: the byte that says so, or the answer where that is a refusal."""
        answer = 0 if self.watching("check_witness", notion) else MALFORMED
        if answer == 0:
            self.slices["valid"] = bytes([is_witness(self.asked(notion, number, k), start, self.slices["pairs"])])
        self.call(f"check_witness {notion} {number} {k} {start}", answer, "valid")
        return answer or self.slices["valid"][0]

    def asked(self, notion, number, k):
        """What is asked for by the estimator: by its trace, if it grew; else by its bytes, which say the same of one that did."""
        by_bytes = asked_of(automaton_of(*self.automaton()), self.slices["estimator"], notion, number, k)
        if not self.grew():
            return by_bytes
        asked = asked_after(self.listing("estimator"), notion, number, k)
        assert asked == by_bytes or asked._replace(automaton=None) == by_bytes._replace(automaton=None)
        return asked

    def open(self, function, symbol):
        """Offers a symbol to a state within its limits that did not grow from a fresh one: every slice stays as it is. (The program looks whether the
        answer is allowed; of the estimate size no more than that it is from 1 to 64.)"""
        state = self.slices["estimator" if function == "accept" else "enforcer"]
        assert self.sound(function) and (self.automaton(), cleared(state)) not in self.grown
        assert self.estimator_sound(state) if function == "accept" else self.enforcer_sound(state)
        assert symbol in self.symbols() and len(self.slices["output"]) >= 17
        return self.call(f"open {function} {symbol}", "open")

    # limits, and what is remembered

    def sound(self, function):
        """Whether table, header and the function's other slices have the sizes and numbers of their layouts. Of the symbols those of observable
        events count."""
        header = self.slices["header"]
        fit = len(self.table) == WORDS and len(header) == HEADER_BYTES and header[0] <= 63 and header[1] <= 15
        return fit and max(self.symbols(), default=0) <= 31 and all(len(self.slices[name]) == SIZES[name] for name in LENT[function])

    def watching(self, function, notion):
        """Whether a function that is given an estimator and a notion goes on."""
        return self.sound(function) and self.estimator_sound(self.slices["estimator"]) and notion <= 1

    def grew(self):
        """Whether the estimator grew from a fresh one."""
        return (self.automaton(), cleared(self.slices["estimator"])) in self.grown

    def fault(self, function, notion=0):
        """What a function that is given further secrets answers before all else: 9, 13, 14, or 0 where it goes on."""
        return secrets_fault(self.slices["further"]) if self.sound(function) and notion <= 1 else MALFORMED

    def look_back(self, data):
        """The largest K: the automaton's own, and those of the further secrets that a saved state holds."""
        return max([self.slices["header"][1]] + [secret.k for secret in given_of(data[SECRETS : SECRETS + FURTHER_BYTES])])

    def estimator_sound(self, data):
        """Further secrets that may be given, and at most as many symbols as the largest K, each at most 31."""
        fault = secrets_fault(data[SECRETS : SECRETS + FURTHER_BYTES])
        return fault == 0 and data[0] <= self.look_back(data) and all(symbol <= 31 for symbol in data[1 : 1 + data[0]])

    def enforcer_sound(self, data):
        """Its estimator's limits, a notion, and at most one pending symbol more than the largest K, each at most 31."""
        few = self.estimator_sound(data) and data[PENDING] <= self.look_back(data) + 1
        return few and data[NOTION] <= 1 and all(symbol <= 31 for symbol in data[PENDING + 1 : PENDING + 1 + data[PENDING]])

    def symbols(self):
        """The symbols of the observable events."""
        header = self.slices["header"]
        return {symbol_at(header, event) for event in observable_of(header)}

    def automaton(self):
        """The table and the header, which name one automaton whatever symbols the other events have."""
        header = self.slices["header"]
        observable = observable_of(header)
        return self.table, header[:SYMBOLS] + bytes(symbol_at(header, event) if event in observable else 0 for event in range(32))

    def opened(self):
        """The listing of the empty trace, with the further secrets that are given."""
        automaton, given = self.automaton(), tuple(given_of(self.slices["further"]))
        if (automaton, given) not in self.openings:
            self.openings[automaton, given] = Listing(automaton_of(*automaton), given)
        return self.openings[automaton, given]

    def found(self):
        """What an exploration with the further secrets that are given finds, or None where there are more configurations than the largest budget. A
        smaller budget changes nothing but whether it is spent."""
        key = self.automaton(), tuple(given_of(self.slices["further"]))
        if key not in self.explorations:
            self.explorations[key] = explored(self.opened())
        return self.explorations[key]

    def keep(self, name, data, listing, before):
        """Writes a state, with what stood before past the count of its further secrets, and remembers by which trace it grew."""
        self.slices[name] = with_past(data, before)
        self.grown[self.automaton(), data] = listing

    def listing(self, name):
        """The trace by which a state grew."""
        return self.grown[self.automaton(), cleared(self.slices[name])]
