#!/usr/bin/env python3
"""What the programs `codes` and `recon` must answer, worked out by other means than theirs.

    python3 tools/vectors.py > crates/vectors/stdin     the table that the program `vectors` compares with
    python3 tools/vectors.py codes < FILE               what `codes` must print for a file; `recon` in the same way

It is written from the rules in docs/, and not from the code: no instructions, no modes, no rows of bits. A rule's statements are taken one by one
on classes of cells that are known to be one thing, and kinds are compared by sets.

A line of the table is the program, a tab, a file, a tab, and what must be printed. In the last two `|` stands for a line feed, and `{3*ab}` for
`ababab`. The files are those written down below and then random ones, which come out the same each time.

Of the ten reasons to refuse, three come of no file: there is memory for every line and every case of 256 cells (6), rules are matched at the cell of
an entry's root, which is in use (7), and a line has none but declared features and at most 200 variables, for which there are 200 places (8).
"""
import random
import re
import sys

MOST_BYTES = 60_000
MOST_LINE = 1_000
MOST_WORD = 24
MOST_OPEN = 16
MOST_KINDS, MOST_FEATURES, MOST_TERMS = 63, 16, 200
MOST_AMOUNT = 10**12
CELLS = 256

LOWER = frozenset(b"abcdefghijklmnopqrstuvwxyz")
UPPER = frozenset(b"ABCDEFGHIJKLMNOPQRSTUVWXYZ")
DIGIT = frozenset(b"0123456789")
WORD = LOWER | DIGIT | frozenset(b"_")
NAME = LOWER | UPPER | DIGIT
TEXT = WORD | frozenset(b"-./")


class Refused(Exception):
    """A reason with what it returns; within a line, places count from the line's start."""

    def __init__(self, number, *values):
        super().__init__(number, values)
        self.number, self.values = number, list(values)


class Clash(Exception):
    pass


# ---------------------------------------------------------------- kinds


class Listed:
    """A closed list of kinds, by what each is at or under."""

    def __init__(self, names, under):
        self.names, self.under = names, under

    def widest(self):
        return 0

    def common(self, a, b):
        both = under_both(self.under, a, b)
        return widest_of(self.under, both) if both else None

    def read(self, text):
        return self.names.index(text) if text in self.names else None

    def text(self, kind):
        return self.names[kind]


def under_both(under, a, b):
    return [k for k in range(len(under)) if a in under[k] and b in under[k]]


def widest_of(under, kinds):
    tops = [k for k in kinds if all(k in under[other] for other in kinds)]
    return tops[0] if tops else None


class Banded:
    """Kinds of a list, each with a band of amounts."""

    BAND = re.compile(rb"(0|-?[1-9][0-9]*)\.\.(0|-?[1-9][0-9]*)")

    def __init__(self, listed):
        self.listed = listed

    def widest(self):
        return (0, -MOST_AMOUNT, MOST_AMOUNT)

    def common(self, a, b):
        kind = self.listed.common(a[0], b[0])
        low, high = max(a[1], b[1]), min(a[2], b[2])
        return (kind, low, high) if kind is not None and low <= high else None

    def read(self, text):
        name, _, band = text.partition(b"/")
        kind, ends = self.listed.read(name), self.BAND.fullmatch(band)
        if kind is None or not ends:
            return None
        low, high = int(ends[1]), int(ends[2])
        return (kind, low, high) if -MOST_AMOUNT <= low <= high <= MOST_AMOUNT else None

    def text(self, kind):
        return self.listed.text(kind[0]) + b"/%d..%d" % kind[1:]


# ---------------------------------------------------------------- lines


def breaks(line, goes_on, start, ends):
    """The first byte at which no lawful line goes on; None where the line is lawful."""
    state = start
    for place, byte in enumerate(line):
        state = goes_on(state, byte)
        if state is None:
            return place
    return None if state in ends else len(line)


def front_word(line):
    """How long the longest word at the front is."""
    if not line or line[0] not in LOWER:
        return 0
    return next((place for place, byte in enumerate(line) if byte not in WORD), len(line))


def hold_grammar(place):
    if place is not None:
        raise Refused(2, place)


def hold_words(line):
    if len(line) > MOST_LINE or front_word(line) > MOST_WORD:
        raise Refused(1, 0)


def count_of(limit):
    def judge(line):
        if len(line) > MOST_LINE:
            raise Refused(1, 0)
        hold_grammar(breaks(line, lambda n, b: n + 1 if b in DIGIT and n < 3 else None, 0, (1, 2, 3)))
        if int(line) > limit:
            raise Refused(1, 0)
        return int(line)

    return judge


def kind_goes_on(state, byte):
    if state in ("name", "wider"):
        return state if byte in WORD else "blank" if byte == 32 else None
    return {"start": "name", "blank": "wider"}[state] if byte in LOWER else None


def declare_kind(draft, line):
    """The draft is a list of names and of sets of what each is at or under."""
    hold_words(line)
    hold_grammar(breaks(line, kind_goes_on, "start", ("wider",)))
    names, under = draft
    if len(names) > MOST_KINDS:
        raise Refused(1, 0)
    own, *wider = line.split(b" ")
    if own in names:
        raise Refused(3, 0)
    place = len(own) + 1
    above = {len(names)}
    for word in wider:
        if word not in names:
            raise Refused(3, place)
        place += len(word) + 1
        above |= under[names.index(word)]
    names.append(own)
    under.append(above)


def feature_goes_on(state, byte):
    return "feature" if byte in (WORD if state == "feature" else LOWER) else None


def declare_feature(features, line):
    hold_words(line)
    hold_grammar(breaks(line, feature_goes_on, "start", ("feature",)))
    if len(features) >= MOST_FEATURES:
        raise Refused(1, 0)
    if line in features:
        raise Refused(3, 0)
    features.append(line)


# How a term goes on, byte by byte: what may stand next, how many lists are open, how long the present word is.
def term_goes_on(state, byte):
    part, depth, length = state
    if part == "term":
        return ("name", depth, 1) if byte in UPPER else ("kind", depth, 0) if byte in TEXT else None
    if part == "colon":
        return ("kind", depth, 0) if byte in TEXT else None
    if part == "open":
        return ("feature", depth, 1) if byte in LOWER else None
    if part == "feature" and byte in WORD:
        return ("feature", depth, length + 1)
    if part == "feature":
        return ("arrow", depth, 0) if byte == ord("=") else None
    if part == "arrow":
        return ("term", depth, 0) if byte == ord(">") else None
    if part == "name" and byte in NAME:
        return ("name", depth, length + 1)
    if part == "name" and byte == ord(":"):
        return ("colon", depth, 0)
    if part == "kind" and byte in TEXT:
        return state
    if part == "kind" and byte == ord("("):
        return ("open", depth + 1, 0)
    # a term has ended here
    if byte == ord(",") and depth > 0:
        return ("open", depth, 0)
    if byte == ord(")") and depth > 0:
        return ("closed", depth - 1, 0)
    return None


def hold_term(line):
    """Up to the first byte that is one too many or that cannot stand where it stands."""
    if len(line) > MOST_LINE:
        raise Refused(1, 0)
    state = ("term", 0, 0)
    for place, byte in enumerate(line):
        state = term_goes_on(state, byte)
        if state is None:
            raise Refused(2, place)
        if state[1] > MOST_OPEN or state[2] > MOST_WORD:
            raise Refused(1, 0)
    if state[0] not in ("name", "kind", "closed") or state[1] > 0:
        raise Refused(2, len(line))


TOKEN = re.compile(rb"(?P<item>[a-z][a-z0-9_]*)=>|(?P<name>[A-Z][A-Za-z0-9]*)|(?P<kind>[a-z0-9_.\-/]+)|[:(),]")


def words_of(line):
    """The parts of a lawful line, in order: ("item", place, feature), ("name", ..), ("kind", ..), and signs, as (":", place, b"")."""
    words = []
    for found in TOKEN.finditer(line):
        what = found.lastgroup
        words.append((what, found.start(), found[what]) if what else (found[0].decode(), found.start(), b""))
    return words


class Told:
    """The statements of a lawful line, and the words and kinds that are wrong in it."""

    def __init__(self, order, features, line):
        self.order, self.features = order, features
        self.words = words_of(line)
        self.variables, self.names = 0, {}
        self.statements = []
        self.wrong_words, self.wrong_kinds = [], []
        self.describe(*self.variable())
        if self.wrong_words:
            raise Refused(3, min(self.wrong_words))
        if self.wrong_kinds:
            raise Refused(4, min(self.wrong_kinds))

    def next_is(self, what):
        return bool(self.words) and self.words[0][0] == what

    def variable(self):
        """The variable of the term that stands next, and whether it was met before."""
        if self.next_is("name") and self.words[0][2] in self.names:
            return self.names[self.words[0][2]], True
        if self.next_is("name"):
            self.names[self.words[0][2]] = self.variables
        self.variables += 1
        return self.variables - 1, False

    def describe(self, variable, seen):
        if self.next_is("name"):
            place = self.words.pop(0)[1]
            if not self.next_is(":"):
                return
            self.words.pop(0)
            if seen:
                self.wrong_words.append(place)
        _, place, text = self.words.pop(0)
        kind = self.order.read(text)
        if kind is None:
            self.wrong_kinds.append(place)
        self.statements.append(("kind", variable, kind))
        if self.next_is("("):
            self.items(variable)

    def items(self, variable):
        listed = set()
        while self.words.pop(0)[0] != ")":
            _, place, feature = self.words.pop(0)
            if feature not in self.features or feature in listed:
                self.wrong_words.append(place)
            listed.add(feature)
            value, seen = self.variable()
            self.statements.append(("feature", variable, feature, value))
            self.describe(value, seen)


def read_term(order, features, line):
    hold_term(line)
    said = Told(order, features, line)
    return said.variables, said.statements


# ---------------------------------------------------------------- files


class File:
    """A file that is read line by line; every place that is refused counts from its start."""

    def __init__(self, data):
        if len(data) > MOST_BYTES:
            raise Refused(1, 0)
        self.data, self.at = data, 0

    def line(self, judge):
        start = self.at
        feed = self.data.find(b"\n", start)
        fed = feed >= 0
        end = feed if fed else len(self.data)
        self.at = end + 1
        try:
            result = judge(self.data[start:end])
        except Refused as refused:
            if not fed and refused.number > 2:
                raise Refused(2, end) from None
            raise Refused(refused.number, start + refused.values[0]) from None
        if not fed:
            raise Refused(2, end)
        return result

    def section(self, limit, judge):
        return [self.line(judge) for _ in range(self.line(count_of(limit)))]

    def end(self):
        if self.at != len(self.data):
            raise Refused(2, self.at)


def close(names, under):
    for first in range(len(names)):
        for second in range(first + 1, len(names)):
            both = under_both(under, first, second)
            if both and widest_of(under, both) is None:
                raise Refused(5, first, second)
    return Listed(names, under)


def read_file(program, data):
    file = File(data)
    names, under = [b"any"], [{0}]
    file.section(MOST_KINDS, lambda line: declare_kind((names, under), line))
    order = close(names, under)
    if program == "recon":
        order = Banded(order)
    features = []
    file.section(MOST_FEATURES, lambda line: declare_feature(features, line))
    terms = [file.section(MOST_TERMS, lambda line: read_term(order, features, line)) for _ in range(2)]
    file.end()
    return order, terms[0], terms[1]


# ---------------------------------------------------------------- matching


class Case:
    """Cells in classes of what is one thing. `kinds` and `slots` are of a class, by the cell that stands for it."""

    def __init__(self, order):
        self.order = order
        self.one_with, self.kinds, self.slots = [], {}, {}

    def copy(self):
        other = Case(self.order)
        other.one_with, other.kinds = list(self.one_with), dict(self.kinds)
        other.slots = {cell: dict(slots) for cell, slots in self.slots.items()}
        return other

    def new(self):
        cell = len(self.one_with)
        self.one_with.append(cell)
        self.kinds[cell], self.slots[cell] = self.order.widest(), {}
        return cell

    def stands_for(self, cell):
        while self.one_with[cell] != cell:
            cell = self.one_with[cell]
        return cell

    def narrow(self, cell, kind):
        cell = self.stands_for(cell)
        common = self.order.common(self.kinds[cell], kind)
        if common is None:
            raise Clash
        self.kinds[cell] = common

    def unify(self, a, b):
        a, b = self.stands_for(a), self.stands_for(b)
        if a == b:
            return
        keeps, goes = (a, b) if len(self.slots[a]) >= len(self.slots[b]) else (b, a)
        self.one_with[goes] = keeps
        self.narrow(keeps, self.kinds.pop(goes))
        for feature, cell in self.slots.pop(goes).items():
            self.fill(keeps, feature, cell)

    def fill(self, cell, feature, value):
        there = self.slots[self.stands_for(cell)].setdefault(feature, value)
        if there != value:
            self.unify(there, value)

    def perform(self, things, statement):
        """One statement; `things` has the cell of each variable that was met."""
        what, subject, *said = statement
        if what == "kind":
            self.narrow(things[subject], said[0])
            return
        feature, value = said
        if value not in things:
            there = self.slots[self.stands_for(things[subject])].get(feature)
            things[value] = self.new() if there is None else there
        self.fill(things[subject], feature, things[value])


def match(case, root, variables, statements):
    """What comes of a rule, and the case that it leaves."""
    if len(case.one_with) + variables - 1 > CELLS:
        return b"refused 9", case
    tried, things = case.copy(), {0: root}
    for number, statement in enumerate(statements, 1):
        try:
            tried.perform(things, statement)
        except Clash:
            return b"no %d" % number, case
    return b"yes " + case.order.text(tried.kinds[tried.stands_for(root)]), tried


def outcomes(order, entry, rules):
    case = Case(order)
    things = {0: case.new()}
    for statement in entry[1]:
        case.perform(things, statement)
    results = []
    for rule in rules:
        outcome, case = match(case, things[0], *rule)
        results.append(outcome)
    return results


def answer(program, data):
    try:
        order, entries, rules = read_file(program, data)
    except Refused as refused:
        return b"file refused %s\n" % b" ".join(b"%d" % n for n in [refused.number, *refused.values])
    lines = []
    for number, entry in enumerate(entries, 1):
        for rule, outcome in enumerate(outcomes(order, entry, rules), 1):
            lines.append(b"%d %d %s\n" % (number, rule, outcome))
    return b"".join(lines)


# ---------------------------------------------------------------- the files of the table


def expand(text):
    """The bytes that a text of the table stands for."""
    plain = re.sub(r"\{([0-9]+)\*([^{}]*)\}", lambda found: int(found[1]) * found[2], text)
    return plain.replace("|", "\n").encode()


def section(lines):
    return "|".join([str(len(lines)), *lines]) + "|"


def file_of(kinds, features, entries, rules):
    return section(kinds) + section(features) + section(entries) + section(rules)


SHIPPED = [
    "credit any",
    "debit any",
    "by_dd any",
    "receipt credit",
    "rent receipt",
    "returned debit",
    "returned_dd returned by_dd",
    "rent_dd rent by_dd",
    "fee debit",
]
NAMED = ["paid", "back", "for", "next", "a", "b", "f"]
LETTERS = list("abcdefghijklmnop")
LONGEST = "abcdefghijklmnopqrstuvwx"
NUMBERED = ["k%02d any" % number for number in range(64)]
# small files
SMALL = "2|credit any|debit any|1|back|1|debit(back=>debit)|2|X:any(back=>X)|credit|"
TINY = "1|a any|1|f|1|a(f=>a)|1|X:a(f=>X)|"
AMOUNTS = (
    "2|credit any|debit any|1|back|1|debit/-4000..-4000(back=>debit/-4000..-1)|"
    "2|any/1..9|debit/-5000..-1(back=>any/-4000..0)|"
)


def shipped(entries, rules):
    return file_of(SHIPPED, NAMED, entries, rules)


def bushy(size, kind="k"):
    """A term with so many variables, each thing with sixteen features before the next one has any."""
    made = [[] for _ in range(size)]
    for child in range(1, size):
        made[(child - 1) // 16].append(child)

    def text(node):
        items = ",".join(f"{letter}=>{text(child)}" for letter, child in zip(LETTERS, made[node]))
        return f"{kind}({items})" if items else kind

    return text(0)


def long_term(root):
    """A term of 997 bytes and its root's kind."""
    inner = "any(" + ",".join(f"{letter}=>any" for letter in LETTERS) + ")"
    items = [f"{letter}=>{inner}" for letter in LETTERS[:8]] + ["i=>any(a=>any,b=>any,c=>any,d=>any)"]
    return f"{root}(" + ",".join(items) + ")"


def whole_files():
    yield "recon", AMOUNTS
    yield "codes", AMOUNTS
    yield "codes", SMALL
    yield "recon", SMALL
    yield "codes", TINY
    for text in ["0|0|0|0|", "000|00|0|000|", "001|a any|01|f|1|a|001|any|", "0|0|2|any|any|0|", "0|0|0|2|any|any|"]:
        yield "codes", text
    yield "recon", "0|0|1|any/0..0|1|any/0..0|"
    # 60,000 bytes and one more, of a lawful file and of empty lines
    full = "60|" + "".join(f"k{number:02}{{249* any}}|" for number in range(59))
    yield "codes", full + "zz{247* any}|0|0|0|"
    yield "codes", full + "zzz{247* any}|0|0|0|"
    yield "codes", "{60000*|}"
    yield "codes", "{60001*|}"
    yield "codes", "{60001*a}"
    yield "recon", "{60001*|}"


def counts():
    for count in ["", "x", "1x", "12x", "64x", "64 ", "1000", "0000", "0063x", " 1", "-1", "+1", "1.0", "{1000*1}", "{1001*1}", "{1001*!}"]:
        yield "codes", count + "|0|0|0|"
    yield "codes", file_of(NUMBERED[:63], [], [], [])
    yield "codes", file_of(NUMBERED, [], [], [])
    yield "codes", file_of(NUMBERED[:63], [], ["k62"], ["k00", "k62", "any"])
    for count in ["63", "063", "64", "064", "999", "16", "17", "200", "201"]:
        yield "codes", count + "|"
        yield "codes", "0|" + count + "|"
        yield "codes", "0|0|" + count + "|"
        yield "codes", "0|0|0|" + count + "|"
    yield "codes", file_of([], LETTERS, ["any"], ["any(a=>Y,p=>Y)"])
    yield "codes", file_of([], [*LETTERS, "q"], [], [])
    yield "codes", "0|0|200|{200*any|}1|any|"
    yield "codes", "0|0|201|{201*any|}1|any|"
    yield "codes", "0|0|1|any|200|{200*any|}"
    yield "codes", "0|0|1|any|201|{201*any|}"
    yield "codes", "0|0|0|201"
    yield "codes", "64"
    yield "codes", "64x"
    yield "codes", "{1001*1}"


def kinds():
    wrong = ["", "c", "c ", "C any", "1c any", " c any", "c  any", "c any ", "c a-b", "a any", "any any", "b loan", "c loan", "c any loan any", "c c"]
    longest = [f"{LONGEST} any", f"{LONGEST}y any", f"{LONGEST}y", f"{LONGEST}y!", "abcdefghij!klmnopqrstuvwxyz", f"c {LONGEST}yz", f"c {LONGEST}!"]
    lengths = ["cccc{249* any}", "ccccc{249* any}", "cc{249* any}  ", "cc{249* any}   ", "{1001*!}"]
    for line in wrong + longest + lengths:
        yield "codes", f"3|a any|b any|{line}|0|0|0|"
    # a wider kind that is declared later; a name of 24 bytes in use
    yield "codes", "2|c d|d any|0|0|0|"
    yield "codes", file_of([f"{LONGEST} any"], [], [LONGEST], [LONGEST, LONGEST + "y"])


def closings():
    two = "4|a any|b any|c a b|d a b|"
    for text in [
        two + "0|0|0|",
        two,
        two + "!",
        two + "17|",
        two + "1|!|",
        two + "0|1|loan|0|",
        two[:-1],
        "4|a any|b any|c a b|d a b",
        "4|a any|b any|c a loan|d a b|0|0|0|",
        "4|a any|b any|c a b|d a  b|0|0|0|",
        "5|a any|b any|c any|d b c|e b c|0|0|0|",
        "5|a any|b any|c any|d a b c|e a b c|0|0|0|",
        "8|a any|b any|c any|d any|e b c|f b c|g a d|h a d|0|0|0|",
        "5|a any|b any|both a b|c both|d both|0|0|1|a|1|b|",
        "3|a any|b any any|c b a b|0|1|a|2|b|c|",
        "6|a any|b any|c any|d b c|e b c|f a d e|0|0|0|",
        section(SHIPPED + ["refund_dd credit by_dd"]) + "0|0|0|",
    ]:
        yield "codes", text
    yield "recon", two + "0|0|0|"


def features():
    wrong = ["", "back", "any", "Paid", "_paid", "paid by", "paid ", "pay-in", LONGEST, LONGEST + "y", LONGEST + "y!", "abcdefghij!klmnopqrstuvwxyz", "{1000*!}", "{1001*!}"]
    for line in wrong:
        yield "codes", f"1|a any|2|back|{line}|0|0|"


def terms():
    longest = "A" + LONGEST[1:]
    lines = [
        "Y",
        "",
        "any fee",
        "any(",
        "any()",
        "any(paid)",
        "any(paid=by_dd)",
        "any(paid=>)",
        "any(paid=>fee,)",
        "any(paid=>by_dd",
        "any(paid=>fee))",
        "any(paid=>Y)x",
        "any(Paid=>Y)",
        "X:",
        "X:Y",
        "X(paid=>Y)",
        "Rent/1",
        "X_1",
        ":any",
        "any%",
        "é",
        "any(loan=>fee)",
        "any(paid=>fee,paid=>fee)",
        "any(paid=>any(paid=>Y))",
        "any(paid=>X,back=>X:fee)",
        "X:any(back=>X:any)",
        "any(paid=>X:fee,back=>X)",
        "any(loan=>loan)",
        "loan(loan=>X)",
        "any(back=>X,loan=>X:fee)",
        "any(paid=>loan)",
        "loan(paid=>loan)",
        "any(paid=>loan,back=>X",
        "rent/1..9",
        "any/",
        "rent-x",
        longest,
        longest + "y",
        longest + "y!",
        longest[:10] + "!klmnopqrstuvwxyz",
        longest + ":any",
        f"any(paid=>{longest}y",
        f"any({LONGEST}=>Y)",
        f"any({LONGEST}y=>Y)",
        f"any({LONGEST}y",
        f"any {LONGEST}y",
        LONGEST + "yz",
        "{16*any(a=>}X{16*)}",
        "{17*any(a=>}X{17*)}",
        "{16*any(a=>}X(",
        "{16*any(a=>}any(",
        "{16*any(a=>}any,b=>any(a=>any){16*)}",
        "{1000*a}",
        "{1001*a}",
        "{1001*!}",
    ]
    for number, line in enumerate(lines):
        yield "codes", shipped([line], ["any"]) if number % 3 else shipped(["any"], [line])
    many = section(["kind any"]) + section(LETTERS)
    for root in ["any", "kind"]:
        yield "codes", many + section([long_term(root)]) + section(["any"])
        yield "codes", many + section(["any"]) + section([long_term(root)])
    # kinds with amounts
    for line in [
        "rent",
        "rent/",
        "rent/9..1",
        "rent/1..9..",
        "rent/1..9/rent",
        "rent/01..9",
        "rent/-0..9",
        "rent/+1..9",
        "rent/1..",
        "/1..9",
        "loan/1..9",
        "rent-x/1..9",
        "fee/-1000000000000..1000000000000",
        "fee/0..1000000000001",
        "fee/-1000000000001..0",
        "fee/0..99999999999999999999999999",
        "any/1..9(paid=>loan/1..2)",
        "loan/1..2(loan=>X)",
    ]:
        yield "recon", shipped([line], ["any/-5..5"])


def ends():
    """Files that end too early or too late."""
    for program, text in [("codes", SMALL), ("recon", AMOUNTS)]:
        lines = text.split("|")[:-1]
        for number, line in enumerate(lines):
            before = "".join(earlier + "|" for earlier in lines[:number])
            yield program, before
            yield program, before + line[: len(line) // 2]
            yield program, before + line
        for more in ["|", "any", "any|", "0|", "!", " "]:
            yield program, text + more
    # a last line without its line feed: what is against the grammar, too long or only wrong
    for line in ["debit(back=>X,back=>Y)", "debit(loan=>X)", "debit(back=>loan)", "debit(back=>X,", "debit%", "{1000*a}", "{1001*a}", "A{24*b}"]:
        yield "codes", SMALL[: SMALL.rindex("credit")] + line
    for line in ["a any", "b any", "b loan", "b", "b any ", f"{LONGEST}y any"]:
        yield "codes", "2|a any|" + line
    for line in ["f", "g", "g!", f"{LONGEST}y"]:
        yield "codes", "0|2|f|" + line


def damage():
    for place, byte in enumerate(TINY):
        yield "codes", TINY[:place] + TINY[place + 1 :]
        yield "codes", TINY[:place] + "%" + TINY[place + 1 :]


def matches():
    back = "any(paid=>by_dd,back=>returned)"
    forks = "any(a=>any(f=>credit),b=>any(f=>debit))"
    for entries, rules in [
        (["returned_dd"], ["receipt"]),
        (["by_dd"], ["returned"]),
        ([back], ["any(paid=>Y,back=>Y)", "any(paid=>fee)"]),
        ([back], ["any(paid=>fee)", "any(paid=>Y,back=>Y)", "any(paid=>returned_dd)", "any(back=>rent)"]),
        ([forks], ["any(a=>Y,b=>Y)"]),
        # a refused rule leaves nothing behind, though it began to narrow and to add
        ([forks], ["by_dd(next=>fee,a=>Y,b=>Y)", "credit(next=>rent)", "fee", "any(next=>fee)", "any(a=>X,b=>Y,for=>X)"]),
        (["any"], ["by_dd", "credit", "debit", "rent_dd", "any", "Y", "fee"]),
        (["any"], ["credit", "by_dd", "any(paid=>fee)", "any(paid=>debit)", "any(paid=>credit)", "any(paid=>X,back=>X)", "any(back=>receipt)"]),
        # a name by itself says nothing
        (["Y", "X:rent"], ["Y", "fee", "Z"]),
        # a thing that belongs to itself
        (["X:any(paid=>X)"], ["any(paid=>any(paid=>by_dd))", "X:any(paid=>X)", "any(paid=>fee)", "credit(paid=>debit)", "any(paid=>credit)"]),
        (["any(paid=>any(paid=>any))"], ["X:any(paid=>X)", "any(paid=>fee)", "receipt", "any(paid=>any(paid=>any(paid=>debit)))"]),
        (["any"], ["X:any(a=>any(b=>X))", "any(a=>any(b=>by_dd(a=>any(b=>credit))))", "fee"]),
        (["X:any(a=>any(a=>any(a=>X)))"], ["any(a=>any(a=>Y))", "X:any(a=>any(a=>X))", "any(a=>rent)", "fee"]),
        # names that are met twice, in a line and in two lists
        (["any(a=>X:by_dd,b=>X)"], ["any(a=>returned)", "any(b=>fee)", "any(b=>returned_dd)"]),
        (["any(a=>any(f=>X),b=>X,next=>any)"], ["any(a=>any(f=>credit))", "any(b=>debit)", "any(next=>X,b=>X)", "any(next=>by_dd)", "any(b=>fee)"]),
        (["any(a=>any(f=>any(f=>rent)),b=>any(f=>any(f=>by_dd)))"], ["any(a=>Y,b=>Y)", "any(a=>any(f=>any(f=>fee)))", "any(b=>any(f=>any(f=>rent_dd)))"]),
        (["any(a=>any(f=>any(f=>rent)),b=>any(f=>any(f=>fee)))"], ["any(a=>Y,b=>Y)", "any(a=>any(f=>Y),b=>any(f=>Y))", "any(a=>X:any(f=>X))", "any(b=>any(f=>X:any(f=>X)))"]),
        # new things among those that are there
        (["any(a=>by_dd)"], ["any(a=>any(b=>any(f=>Y),next=>Y),b=>Y)", "any(b=>rent)", "any(a=>any(next=>fee))", "any(a=>any(b=>any(f=>by_dd)))"]),
        (["any(for=>any,back=>fee)"], ["any(paid=>any(back=>Y),for=>Y,back=>Y)", "any(for=>debit)", "any(for=>fee(for=>rent))", "any(back=>any(for=>any))"]),
        (["any(a=>credit)", "any(a=>debit)", "any", "Y"], ["any(a=>by_dd)", "any(a=>fee)", "any(a=>X,b=>X)", "any(b=>rent)"]),
    ]:
        yield "codes", shipped(entries, rules)
    yield "recon", shipped(
        ["returned_dd/-4000..-4000(back=>rent_dd/4000..4000)", "rent_dd/4000..4000", "fee/-10..0"],
        ["receipt/1..100000", "debit/-100000..-1(back=>receipt/1..100000)", "any/-10..-1", "any/0..5", "any/-20..-5", "any/-5..-5"],
    )
    yield "recon", shipped(
        ["any/-10..10(a=>any/-10..0,b=>credit/0..5)"],
        ["any/-10..10(a=>Y,b=>Y)", "any/-10..10(a=>fee/0..0)", "any/-10..10(a=>any/0..0)", "any/-10..10(a=>any/-5..-1)", "by_dd/1..3", "credit/2..9", "fee/0..9", "any/4..9"],
    )
    yield "recon", shipped(["any/-10..10(a=>any/-10..-1,b=>credit/0..5)"], ["any/0..0(a=>Y,b=>Y)", "any/1..2", "any/0..0"])


def full_cases():
    """The cells of a case: what a rule adds counts, and not what it finds."""

    def tried(entry, *rules):
        return "codes", file_of(["k any", "other any"], LETTERS, [entry], rules)

    for entry, rule in [(59, 198), (60, 198), (128, 129), (128, 130)]:
        yield tried(bushy(entry), bushy(rule))
    yield tried("k", bushy(100), bushy(157), bushy(100), bushy(101), "k(p=>k(p=>other))", bushy(99), bushy(100), "other")
    # a rule that clashes adds nothing, however much it began to add
    more = f"k(b=>{bushy(190)})"
    yield tried("k(a=>other)", f"k(b=>{bushy(100)},a=>k)", more, more, "k(b=>k(b=>other),c=>k)", "k(b=>k(b=>k),c=>k)", "k(c=>k)")
    # a thing that belongs to itself is found at every depth
    chain = "{15*k(a=>}k{15*)}"
    yield tried("X:k(a=>X)", chain, more, chain, f"k(b=>{bushy(65)})", f"k(b=>{bushy(66)})", "other")
    # up to the last cell
    step = [f"k({letter}=>{bushy(60)})" for letter in "abcde"]
    yield tried("k", *step, f"k(f=>{bushy(15)})", "k(a=>k)", "k", "Y", "other", "any", "X:k(a=>X)")


# ---------------------------------------------------------------- random files


class Chance:
    """Random files, most of them lawful."""

    def __init__(self, seed):
        self.random = random.Random(seed)

    def kinds(self):
        while True:
            names, lines = ["any"], []
            for number in range(self.random.randint(0, 9)):
                wider = [self.random.choice(names) for _ in range(self.random.choice([1, 1, 1, 2, 2, 3]))]
                names.append(self.random.choice("abcxyz") + str(number))
                lines.append(" ".join([names[-1], *wider]))
            try:
                read_file("codes", expand(file_of(lines, [], [], [])))
                return names, lines
            except Refused:
                if self.random.random() < 0.03:
                    return names, lines

    def band(self):
        low = self.random.choice([-9, -5, -4, -1, 0, 0, 1, 3])
        return f"/{low}..{low + self.random.choice([0, 1, 5, 9, 20, 20])}"

    def kind(self):
        name = self.random.choice(self.names) if self.random.random() < 0.6 else "any"
        if self.program == "codes":
            return name
        return name + (self.band() if self.random.random() < 0.5 else "/-99..99")

    def term(self, depth, met):
        name = self.random.choice("XYZW")
        if self.random.random() < (0.4 if depth else 0.03):
            met.add(name)
            return name
        start = ""
        if self.random.random() < 0.3 and name not in met:
            met.add(name)
            start = name + ":"
        listed = []
        if self.features and depth < 4 and self.random.random() < (0.95 if depth == 0 else 0.55):
            size = min(len(self.features), self.random.choice([1, 1, 2, 2, 3, 4]))
            listed = self.random.sample(self.features, size)
        start += self.kind()
        items = ",".join(f"{feature}=>{self.term(depth + 1, met)}" for feature in listed)
        return f"{start}({items})" if items else start

    def damaged(self, text):
        place = self.random.randrange(len(text) + 1)
        more = self.random.choice(["", "|", "a", "X", "(", ")", ",", "=>", ":", "0", " ", "%", "_", "any", "é"])
        return text[:place] + more + text[place + self.random.choice([0, 1, 1, 2]) :]

    def file(self, program):
        self.program = program
        self.names, lines = self.kinds()
        self.features = LETTERS[: self.random.choice([0, 1, 2, 3, 3, 4, 5, 16])]
        entries = [self.term(0, set()) for _ in range(self.random.randint(1, 3))]
        rules = [self.term(0, set()) for _ in range(self.random.randint(2, 8))]
        text = file_of(lines, self.features, entries, rules)
        return self.damaged(text) if self.random.random() < 0.2 else text


def chance_files(seed, count):
    chance = Chance(seed)
    for number in range(count):
        program = "codes" if number % 2 else "recon"
        yield program, chance.file(program)


def files():
    for topic in [whole_files, counts, kinds, closings, features, terms, ends, damage, matches, full_cases]:
        yield from topic()
    yield from chance_files(4000, 60)


def main():
    if len(sys.argv) == 2 and sys.argv[1] in ("codes", "recon"):
        sys.stdout.buffer.write(answer(sys.argv[1], sys.stdin.buffer.read()))
        return
    if len(sys.argv) != 1:
        sys.exit(__doc__)
    for program, text in dict.fromkeys(files()):
        wanted = answer(program, expand(text)).replace(b"\n", b"|")
        sys.stdout.buffer.write(b"%s\t%s\t%s\n" % (program.encode(), text.encode(), wanted))


if __name__ == "__main__":
    main()
