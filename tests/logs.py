"""The bytes of an encoding (01: description), and the whole output of the log program for the bytes of a log, from their definitions."""

from runs import Automaton, Listing

TRUNCATED = 1
STATE, EVENT, TRAILING, NOT_OBSERVABLE, INCOMPATIBLE, INITIAL_LEAK, MALFORMED, OUTPUT_TOO_SMALL = range(3, 11)
REPEATED = 12


class Refused(Exception):
    """Carries the number of a refusal."""


def encoded(automaton, listed=None, padding=0):
    """The encoding of an automaton, whose numbers are not checked: they need only fit their fields. Its bit that says whether symbols follow may be
    another than its symbols need."""
    bits = ""
    for value, width in (
        (automaton.top_state, 6),
        (automaton.top_event, 5),
        (automaton.k, 4),
        (automaton.initial, 6),
        (len(automaton.transitions), 10),
        (int(automaton.symbols is not None) if listed is None else listed, 1),
    ):
        bits += format(value, f"0{width}b")
    bits += "".join(str(int(q in automaton.secret)) for q in range(automaton.top_state + 1))
    bits += "".join(str(int(e in automaton.observable)) for e in range(automaton.top_event + 1))
    bits += "".join(format(symbol, "05b") for symbol in automaton.symbols or ())
    for source, event, target in automaton.transitions:
        bits += format(source, "06b") + format(event, "05b") + format(target, "06b")
    free = -len(bits) % 8
    if free:
        bits += format(padding % 2**free, f"0{free}b")
    return bytes(int(bits[i : i + 8], 2) for i in range(0, len(bits), 8))


class Fields:
    """The fields of an encoding, one after another."""

    def __init__(self, data):
        self.bits = "".join(format(byte, "08b") for byte in data)
        self.at = 0

    def field(self, width):
        """The number in the next bits."""
        if len(self.bits) < self.at + width:
            raise Refused(TRUNCATED)
        self.at += width
        return int(self.bits[self.at - width : self.at], 2)

    def flags(self, count):
        """The places of the next bits that are 1."""
        return [i for i in range(count) if self.field(1)]

    def end(self):
        """Zero bits to the end of the byte, and no further byte."""
        rest = self.bits[self.at :]
        if 7 < len(rest) or "1" in rest:
            raise Refused(TRAILING)


def demand(condition, number):
    """A field's own check."""
    if not condition:
        raise Refused(number)


def decoded(data):
    """The automaton of an encoding: fields in layout order, each with its own check after it, and none of the transitions twice."""
    fields = Fields(data)
    top_state, top_event, k = fields.field(6), fields.field(5), fields.field(4)
    initial = fields.field(6)
    demand(initial <= top_state, STATE)
    count = fields.field(10)
    listed = fields.field(1)
    secret, observable = fields.flags(top_state + 1), fields.flags(top_event + 1)
    symbols = [fields.field(5) for _ in range(top_event + 1)] if listed else None
    transitions = {}  # in their order
    for _ in range(count):
        source = fields.field(6)
        demand(source <= top_state, STATE)
        event = fields.field(5)
        demand(event <= top_event, EVENT)
        target = fields.field(6)
        demand(target <= top_state, STATE)
        demand((source, event, target) not in transitions, REPEATED)
        transitions[source, event, target] = True
    fields.end()
    return Automaton(top_state, top_event, k, initial, secret, observable, transitions, symbols)


def started(log):
    """The listing with which a log starts, whatever its opening leaks, and the bytes that it offers; the refusals of an encoding in their order."""
    demand(2 <= len(log), TRUNCATED)
    length = 256 * log[0] + log[1]
    demand(2 + length <= len(log), TRUNCATED)
    return Listing(decoded(log[2 : 2 + length])), log[2 + length :]


def opened(log):
    """The same where a weak enforcer starts with it; the refusals of a log in their order."""
    listing, offered = started(log)
    demand(listing.weak() is None, INITIAL_LEAK)
    return listing, offered


def refused_line(refused):
    """What is printed for a log that is refused."""
    return f"refused {refused.args[0]}\n"


def steps(verdict):
    """A verdict as it is printed, or the place of one."""
    return "-" if verdict is None else str(verdict)


def judgement(listing):
    """What a line says of the trace: both verdicts and the estimate size, which are judged by all accepted symbols, released or pending."""
    return f"{steps(listing.weak())} {steps(listing.strong())} {listing.size()}"


def offer_line(listing, released, byte):
    """The line of an offered byte, and how many symbols are released after it."""
    if byte not in listing.automaton.symbol_of.values():
        return f"! {byte} {NOT_OBSERVABLE}", released
    if not listing.accept(byte):
        return f"! {byte} {INCOMPATIBLE}", released
    longest = listing.longest(listing.weak_safe)
    assert released <= longest, "a released symbol is no longer safe"
    going = ",".join(map(str, listing.trace[released:longest])) or "-"
    return f"{len(listing.trace)} {byte} {judgement(listing)} {going}", longest


def output(log):
    """What the log program prints for the bytes of a log."""
    try:
        listing, offered = opened(log)
    except Refused as refused:
        return refused_line(refused)
    lines, released = [], 0
    if not offered:
        lines.append(f"0 - {judgement(listing)} -")
    for byte in offered:
        line, released = offer_line(listing, released, byte)
        lines.append(line)
    accepted = len(listing.trace)
    lines.append(f"end {accepted} {released} {accepted - released}")
    return "".join(line + "\n" for line in lines)
