"""Deliveries as bytes and as text, for the tools beside this file. docs/FORMAT.md has both forms."""

import struct

COUNTS = ("states", "terminals", "nonterminals", "productions", "records", "guard words", "switches")
KINDS = {"token": 1, "if": 2, "elif": 3, "else": 4, "end": 5}
CONNECTIVES = {"not": 100, "and": 101, "or": 102, "whole": 103, "nothing": 104}
HEAD = 56


class Mistake(Exception):
    """What is wrong with a text or with bytes that are to be shown."""


class Delivery:
    """The words of a delivery, whether or not they are allowed."""

    def __init__(self):
        self.states = 0
        self.terminals = []
        self.nonterminals = []
        self.switches = []
        self.actions = {}
        self.gotos = {}
        self.productions = []
        self.records = []
        self.guards = []


def words(numbers):
    return b"".join(struct.pack("<H", n) for n in numbers)


def table(cells, rows, columns):
    return words(cells.get((row, column), 0) for row in range(rows) for column in range(columns))


def encode(d):
    """The bytes of a delivery, with one part right behind the other."""
    parts = [
        table(d.actions, d.states, len(d.terminals)),
        table(d.gotos, d.states, len(d.nonterminals)),
        words(n for production in d.productions for n in production),
        words(n for record in d.records for n in record),
        words(d.guards),
    ]
    head = words([d.states, len(d.terminals), len(d.nonterminals), len(d.productions), len(d.records), len(d.guards), len(d.switches), 0])
    at = HEAD
    for part in parts:
        head += struct.pack("<II", at, len(part))
        at += len(part)
    return head + b"".join(parts)


def number(text):
    """A plain number stands for itself wherever a name may stand."""
    if not text.isascii() or not text.isdigit():
        raise Mistake(f"{text!r} is neither a name that is known here nor a number")
    n = int(text)
    if n > 0xFFFF:
        raise Mistake(f"{n} does not fit two bytes")
    return n


def index(names, text):
    return names.index(text) if text in names else number(text)


class Assembler:
    """Reads the text form line by line."""

    def __init__(self):
        self.d = Delivery()
        self.production_names = []
        self.guard_names = {}

    def line(self, fields):
        verb, *rest = fields
        method = getattr(self, "do_" + verb, None)
        if method is None:
            raise Mistake(f"unknown word {verb!r}")
        method(*rest)

    def do_switches(self, *names):
        self.d.switches = list(names)

    def do_terminals(self, *names):
        self.d.terminals = list(names)

    def do_nonterminals(self, *names):
        self.d.nonterminals = list(names)

    def do_states(self, count):
        self.d.states = number(count)

    def do_production(self, name, left, length):
        self.production_names.append(name)
        self.d.productions.append((index(self.d.nonterminals, left), number(length)))

    def do_action(self, state, terminal, what, *to):
        cell = (number(state), index(self.d.terminals, terminal))
        if what == "accept" and not to:
            word = 2000
        elif what == "shift" and len(to) == 1:
            word = number(to[0]) + 1
        elif what == "reduce" and len(to) == 1:
            word = index(self.production_names, to[0]) + 1000
        elif what == "word" and len(to) == 1:
            word = number(to[0])
        else:
            raise Mistake("an action is: shift STATE, reduce PRODUCTION, accept or word NUMBER")
        self.d.actions[cell] = word

    def do_goto(self, state, nonterminal, to):
        self.d.gotos[(number(state), index(self.d.nonterminals, nonterminal))] = number(to) + 1

    def do_guard(self, name, *guard):
        self.guard_names[name] = len(self.d.guards)
        self.do_words(*guard)
        self.d.guards.append(0)

    def do_words(self, *guard):
        for word in guard:
            if word in CONNECTIVES:
                self.d.guards.append(CONNECTIVES[word])
            elif word in self.d.switches:
                self.d.guards.append(self.d.switches.index(word) + 1)
            else:
                self.d.guards.append(number(word))

    def guard_index(self, name):
        return self.guard_names[name] if name in self.guard_names else number(name)

    def do_token(self, terminal):
        self.d.records.append((KINDS["token"], index(self.d.terminals, terminal)))

    def do_if(self, guard):
        self.d.records.append((KINDS["if"], self.guard_index(guard)))

    def do_elif(self, guard):
        self.d.records.append((KINDS["elif"], self.guard_index(guard)))

    def do_else(self):
        self.d.records.append((KINDS["else"], 0))

    def do_end(self):
        self.d.records.append((KINDS["end"], 0))

    def do_record(self, kind, value):
        self.d.records.append((number(kind), number(value)))


def assemble(text):
    """The bytes of the delivery that the text describes."""
    assembler = Assembler()
    for at, line in enumerate(text.splitlines(), 1):
        fields = line.split("#", 1)[0].split()
        if not fields:
            continue
        try:
            assembler.line(fields)
        except Mistake as mistake:
            raise Mistake(f"line {at}: {mistake}") from None
        except TypeError:
            raise Mistake(f"line {at}: too few or too many words after {fields[0]!r}") from None
    return encode(assembler.d)


def part_words(data, at, counted):
    """The words of the part whose pair is at a byte of the head."""
    start, size = struct.unpack_from("<II", data, at)
    if size != 2 * counted or start < HEAD or start + size > len(data):
        raise Mistake(f"the pair at byte {at} does not lie inside the delivery, or is not as long as the counts say")
    return struct.unpack_from(f"<{counted}H", data, start)


def show_action(word, productions):
    if 1 <= word <= 256:
        return f"shift {word - 1}"
    if 1000 <= word < 1000 + productions:
        return f"reduce p{word - 1000}"
    return "accept" if word == 2000 else f"word {word}"


def show_guard_word(word, switches):
    for name, number_ in CONNECTIVES.items():
        if word == number_:
            return name
    return f"s{word - 1}" if 1 <= word <= switches else str(word)


def show_record(kind, value, terminals, starts):
    if kind == 1 and value < terminals:
        return f"token t{value}"
    if kind in (2, 3):
        return f"{'if' if kind == 2 else 'elif'} {'g' if value in starts else ''}{value}"
    if kind in (4, 5) and value == 0:
        return "else" if kind == 4 else "end"
    return f"record {kind} {value}"


def show(data):
    """A delivery as text. It need not be one that the reader takes, but its parts must be where its head says."""
    if len(data) < HEAD:
        raise Mistake(f"there are {len(data)} bytes, and the head has {HEAD}")
    states, terminals, nonterminals, productions, records, guard_words, switches, _ = struct.unpack_from("<8H", data)
    actions = part_words(data, 16, states * terminals)
    gotos = part_words(data, 24, states * nonterminals)
    pairs = part_words(data, 32, 2 * productions)
    units = part_words(data, 40, 2 * records)
    guards = part_words(data, 48, guard_words)
    lines = []
    for word, letter, count in (("switches", "s", switches), ("terminals", "t", terminals), ("nonterminals", "n", nonterminals)):
        lines.append(" ".join([word] + [f"{letter}{i}" for i in range(count)]))
    lines.append(f"states {states}")
    for i in range(productions):
        left = pairs[2 * i]
        lines.append(f"production p{i} {'n' if left < nonterminals else ''}{left} {pairs[2 * i + 1]}")
    for i, word in enumerate(actions):
        if word:
            lines.append(f"action {i // terminals} t{i % terminals} {show_action(word, productions)}")
    for i, word in enumerate(gotos):
        if word:
            lines.append(f"goto {i // nonterminals} n{i % nonterminals} {word - 1}")
    starts = set()
    at = 0
    while at < guard_words:
        end = at
        while end < guard_words and guards[end] != 0:
            end += 1
        if end == guard_words:
            lines.append(" ".join(["words"] + [show_guard_word(w, switches) for w in guards[at:]]))
            break
        starts.add(at)
        lines.append(" ".join([f"guard g{at}"] + [show_guard_word(w, switches) for w in guards[at:end]]))
        at = end + 1
    depth = 0
    for i in range(records):
        kind, value = units[2 * i], units[2 * i + 1]
        if kind in (3, 4, 5):
            depth = max(depth - 1, 0)
        lines.append("  " * depth + show_record(kind, value, terminals, starts))
        if kind in (2, 3, 4):
            depth += 1
    return "\n".join(lines) + "\n"
