"""A second reader of one configuration, written apart from the proved one, to compare it with."""

import struct

LIMITS = ((1, 256), (1, 64), (1, 64), (0, 256), (0, 4096), (0, 4096), (0, 24), (0, 0))


class Refused(Exception):
    """A refusal's number and place."""


def refuse(number, place):
    raise Refused(number, place)


def guard_ok(guards, at, switches):
    held = 0
    for word in guards[at:]:
        if word == 0:
            return held == 1
        if word == 100:
            need = 1
        elif word in (101, 102):
            need = 2
        elif word in (103, 104) or word <= switches:
            need = 0
        else:
            return False
        if held < need:
            return False
        held += 1 - need
        if held > 16:
            return False
    return False


def check_units(records, guards, terminals, switches):
    open_else = []
    branches = 0
    for i, (kind, value) in enumerate(records):
        good = {1: 0 < value < terminals, 2: True, 3: True, 4: value == 0, 5: value == 0}.get(kind, False)
        if not good:
            refuse(7, i)
        if kind == 2:
            if len(open_else) == 64:
                refuse(8, i)
            open_else.append(False)
        elif kind in (3, 4):
            if not open_else or open_else[-1]:
                refuse(8, i)
            open_else[-1] = kind == 4
        elif kind == 5:
            if not open_else:
                refuse(8, i)
            open_else.pop()
        if kind in (2, 3) and not guard_ok(guards, value, switches):
            refuse(9, i)
        if kind in (2, 3, 4):
            branches += 1
            if branches > 256:
                refuse(10, i)
    if open_else:
        refuse(8, len(records))


def check(data):
    """The tables, records and guards of a delivery, or Refused."""
    if len(data) < 56:
        refuse(1, len(data))
    counts = struct.unpack_from("<8H", data)
    for i, (count, (low, high)) in enumerate(zip(counts, LIMITS)):
        if not low <= count <= high:
            refuse(2, 2 * i)
    states, terminals, nonterminals, productions, records, guard_words, switches, _ = counts
    parts = []
    least = 56
    sizes = (states * terminals, states * nonterminals, 2 * productions, 2 * records, guard_words)
    for i, size in enumerate(sizes):
        at, length = struct.unpack_from("<II", data, 16 + 8 * i)
        if at < least or length != 2 * size or at + length > len(data):
            refuse(3, 16 + 8 * i)
        parts.append(struct.unpack_from(f"<{size}H", data, at))
        least = at + length
    actions, gotos, pairs, unit, guards = parts
    for i, word in enumerate(actions):
        at_end = i % terminals == 0
        shift = 1 <= word <= states and not at_end
        if not (word == 0 or shift or 1000 <= word < 1000 + productions or word == 2000 and at_end):
            refuse(4, i)
    for i, word in enumerate(gotos):
        if word > states:
            refuse(5, i)
    for i in range(productions):
        if pairs[2 * i] >= nonterminals or pairs[2 * i + 1] > 16:
            refuse(6, i)
    rows = list(zip(unit[0::2], unit[1::2]))
    check_units(rows, guards, terminals, switches)
    return counts, actions, gotos, list(zip(pairs[0::2], pairs[1::2])), rows, guards


def holds(guards, at, k):
    stack = []
    while guards[at] != 0:
        word = guards[at]
        at += 1
        if word == 100:
            stack.append(not stack.pop())
        elif word in (101, 102):
            b, a = stack.pop(), stack.pop()
            stack.append(a and b if word == 101 else a or b)
        elif word in (103, 104):
            stack.append(word == 103)
        else:
            stack.append(bool(k >> (word - 1) & 1))
    return stack[0]


def group(records, guards, k, at, had, tokens):
    """Adds the tokens of the records from `at` up to the branch's end, if the branch is had, and answers where that is."""
    while at < len(records):
        kind, value = records[at]
        if kind in (3, 4, 5):
            return at
        if kind == 1:
            if had:
                tokens.append((value, at))
            at += 1
            continue
        done = False
        while True:
            kind, value = records[at]
            if kind == 5:
                at += 1
                break
            choose = had and not done and (kind == 4 or holds(guards, value, k))
            done = done or choose
            at = group(records, guards, k, at + 1, choose, tokens)
    return at


def read(data, k, budget=1000000):
    """What read_one should print."""
    if len(data) > 65536:
        return "too long\n"
    try:
        counts, actions, gotos, productions, records, guards = check(data)
        if k >= 2 ** counts[6]:
            refuse(22, 0)
    except Refused as refused:
        return "refused {} {}\n".format(*refused.args)
    terminals, nonterminals = counts[1], counts[2]
    tokens = []
    group(records, guards, k, 0, True, tokens)
    lines = f"configuration {k}\ntokens {len(tokens)}\n"
    tokens.append((0, len(records)))
    stack = [0]
    at = 0
    for made in range(1, budget + 1):
        terminal, place = tokens[at]
        word = actions[stack[-1] * terminals + terminal]
        reason = 0
        if word == 0:
            reason = 1
        elif word == 2000:
            return lines + f"accepted {made}\n"
        elif word >= 1000:
            left, length = productions[word - 1000]
            if length >= len(stack):
                reason = 2
            else:
                rest = stack[: len(stack) - length]
                to = gotos[rest[-1] * nonterminals + left]
                if to == 0:
                    reason = 3
                elif len(rest) == 128:
                    reason = 4
                else:
                    stack = rest + [to - 1]
        elif len(stack) == 128:
            reason = 4
        else:
            stack.append(word - 1)
            at += 1
        if reason:
            return lines + f"failed {place} {reason} {made}\n"
    return lines + f"spent {budget}\n"
