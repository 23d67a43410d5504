#!/usr/bin/env python3
"""count_windows.py [CAP] < NETLIST: how the windows of a netlist are decided in one round, if none has a shorter chain.

An independent program, which shares no line with the product. It reads a BLIF netlist of tables of at most two inputs, as
`improve` writes them, goes over the candidates of a round, and prints their number, the number of valid windows, how many
of these the counting bound decides, how many of two gates remain (which enumeration decides), how many others are met again
(as they are, or with permuted inputs), and how many are left for a search. Bit-parallel words have up to 4,096 bits."""
import sys

from usage import standard_input, usage


def read(text):
    """The number of sources, the gates as (operator, place, place), and the sinks."""
    inputs, outputs, tables, rows = [], [], [], None
    for line in text.replace('\\\n', ' ').splitlines():
        words = line.split()
        if not words or words[0].startswith('#'):
            continue
        if words[0] == '.inputs':
            inputs += words[1:]
        elif words[0] == '.outputs':
            outputs += words[1:]
        elif words[0] == '.latch':
            outputs.append(words[1])
            inputs.append(words[2])
        elif words[0] == '.names':
            rows = []
            tables.append((words[1:-1], words[-1], rows))
        elif not words[0].startswith('.') and rows is not None:
            rows.append(words)
    place = {name: at + 1 for at, name in enumerate(inputs)}
    gates = []
    while tables:
        later = []
        for table in tables:
            (later.append(table) if any(name not in place for name in table[0]) else add_table(place, gates, len(inputs), *table))
        tables = later
    return len(inputs), gates, [place[name] for name in outputs]


def add_table(place, gates, sources, operands, output, rows):
    """Gives an output its place; 0 and -1 stand for the constants."""
    def value(bits):
        hit = any(all(c in ('-', b) for c, b in zip(row[0], bits)) for row in rows if operands) or (not operands and bool(rows))
        return hit == (not rows or rows[0][-1] == '1')
    values = [value(format(t, f'0{len(operands)}b') if operands else '') for t in range(1 << len(operands))]
    if not rows or all(v == values[0] for v in values):
        place[output] = -1 if rows and values[0] else 0
    elif values == [False, True]:
        place[output] = place[operands[0]]
    else:
        values = values if len(operands) == 2 else [values[0], values[0], values[1], values[1]]
        gates.append((values, place[operands[0]], place[operands[-1]]))
        place[output] = sources + len(gates)


def apply(values, a, b, full):
    word = 0
    for value, x, y in zip(values, (full ^ a, full ^ a, a, a), (full ^ b, b, full ^ b, b)):
        word |= x & y if value else 0
    return word


def leaf(k, rows):
    """The rows, of so many, whose digit of 2^k is 1."""
    block = ((1 << (1 << k)) - 1) << (1 << k)
    width = 2 << k
    while width < rows:
        block |= block << width
        width *= 2
    return block


class Counter:
    def __init__(self, sources, gates, sinks):
        self.sources, self.gates, self.end = sources, gates, sources + 1 + len(gates)
        self.named = [0] * (self.end + 1)
        self.readers = [[] for _ in range(self.end)]
        for at, (_, a, b) in enumerate(gates):
            for place in (a, b):
                self.named[place] += 1
                if place > 0:
                    self.readers[place].append(sources + 1 + at)
        for place in sinks:
            self.named[place] += 1
        self.known, self.leaves_of = {}, {}
        self.visits = self.windows = self.counted = self.stepped = self.again = self.searched = 0

    def operands(self, place):
        return self.gates[place - self.sources - 1][1:]

    def partners(self, root):
        found = {reader for place in self.operands(root) if place > 0 for reader in self.readers[place] if reader < root}
        return sorted(found, reverse=True)[:8]

    def window(self, root, partner, count):
        """The gates, falling; None where there are fewer, or the partner is none of them."""
        near, taken = {root} | ({partner} if partner else set()), []
        while len(taken) < count:
            last = taken[-1] if taken else self.end
            next_one = max((p for p in near if self.sources < p < last), default=None)
            if next_one is None:
                return None
            taken.append(next_one)
            near |= {p for p in self.operands(next_one) if p > 0}
        return taken if partner is None or partner in taken else None

    def words(self, leaves, inner):
        """The words of places on all rows of the leaves, the first of them the most significant."""
        rows = 1 << len(leaves)
        full = (1 << rows) - 1
        words = {0: 0, -1: full}
        for at, place in enumerate(leaves):
            words[place] = leaf(len(leaves) - 1 - at, rows)
        for place in inner:
            values, a, b = self.gates[place - self.sources - 1]
            words[place] = apply(values, words[a], words[b], full)
        return words, full

    def care(self, inputs):
        """The rows of the inputs that their surround shows."""
        leaves, inner = sorted(inputs, reverse=True), []
        while leaves and leaves[0] > self.sources:
            opened = sorted(set(leaves[1:]) | {p for p in self.operands(leaves[0]) if p > 0}, reverse=True)
            if len(opened) > 12:
                break
            inner.append(leaves[0])
            leaves = opened
        words, full = self.words(leaves[::-1], inner[::-1])
        parts = [full]
        for place in inputs:
            parts = [half for part in parts for half in ((part & (full ^ words[place])), (part & words[place]))]
        return sum(1 << row for row, part in enumerate(parts) if part)

    def specification(self, taken):
        gates = sorted(taken)
        inputs = sorted({p for g in gates for p in self.operands(g) if p > 0 and p not in taken})
        if len(inputs) > 6:
            return None
        outputs = [g for g in gates if self.named[g] > sum(self.operands(h).count(g) for h in gates)]
        if len(outputs) > 8:
            return None
        care = self.care(inputs)
        words, _ = self.words(inputs, gates)
        return len(inputs), [words[g] & care for g in outputs], care

    def visit(self, root, partner, count):
        self.visits += 1
        taken = self.window(root, partner, count)
        spec = taken and self.specification(taken)
        if not spec:
            return
        self.windows += 1
        if lower_bound(*spec) >= count:
            self.counted += 1
        elif count == 2:
            self.stepped += 1
        elif self.known.get(normal(*spec), 0) >= count:
            self.again += 1
        else:
            self.known[normal(*spec)] = count
            self.searched += 1

    def round(self, cap):
        for root in range(self.sources + 1, self.end):
            for count in range(1, cap + 1):
                self.visit(root, None, count)
            for partner in self.partners(root):
                for count in range(2, cap + 1):
                    self.visit(root, partner, count)


def turning(n, on, care, k):
    """The rows where the input of 2^k is 0 and turns the value."""
    step = 1 << k
    return care & (care >> step) & (on ^ (on >> step)) & ~leaf(k, 1 << n)


def lower_bound(n, ons, care):
    """The steps that counting asks for."""
    trivial = [0, care] + [leaf(k, 1 << n) & care for k in range(n)]
    live = [on for on in ons if on not in trivial]
    used = [sum(1 for k in range(n) if turning(n, on, care, k)) for on in ons]
    all_used = sum(1 for k in range(n) if any(turning(n, on, care, k) for on in live))
    return max(len(set(live)), max([u - 1 for u in used], default=0), all_used - len(live))


def normal(n, ons, care):
    """The words with the inputs in the order of what the outputs count of them."""
    def weight(k):
        high = leaf(k, 1 << n)
        return tuple(((care & high).bit_count(), (on & high).bit_count(), turning(n, on, care, k).bit_count()) for on in ons)
    order = sorted(range(n), key=weight)
    rows = [sum(1 << order[k] for k in range(n) if t >> k & 1) for t in range(1 << n)]
    return (n,) + tuple(sum(1 << t for t, row in enumerate(rows) if word >> row & 1) for word in [care] + ons)


def main():
    cap = int(sys.argv[1]) if len(sys.argv) > 1 else 5
    counter = Counter(*read(standard_input(__doc__)))
    counter.round(cap)
    print(f'gates {len(counter.gates)} visits {counter.visits} windows {counter.windows} counted {counter.counted} '
          f'stepped {counter.stepped} again {counter.again} searched {counter.searched}')


if __name__ == '__main__':
    usage(__doc__)
    main()
