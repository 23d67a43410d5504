"""Circuits in BLIF for pairs of netlists: adders in two ways, and multipliers."""

import random

XOR, AND, MAJORITY, CHOICE = ("01", "10"), ("11",), ("11-", "1-1", "-11"), ("01-", "1-1")


class Tables:
    """Tables of a netlist, each of which drives a name of its own."""

    def __init__(self):
        self.tables = []

    def table(self, rows, *inputs):
        output = f"w{len(self.tables)}"
        self.tables.append(f".names {' '.join(inputs)} {output}\n" + "".join(f"{row} 1\n" for row in rows))
        return output

    def sum(self, x, y, carry):
        """The sum and the carry of two bits, and of a third where there is one."""
        if carry is None:
            return self.table(XOR, x, y), self.table(AND, x, y)
        return self.table(XOR, self.table(XOR, x, y), carry), self.table(MAJORITY, x, y, carry)

    def text(self, inputs, outputs):
        """The BLIF text, with these signals as outputs."""
        names = " ".join(f"y{i}" for i in range(len(outputs)))
        copies = "".join(f".names {name} y{i}\n1 1\n" for i, name in enumerate(outputs))
        return f".model circuit\n.inputs {' '.join(inputs)}\n.outputs {names}\n{''.join(self.tables)}{copies}.end\n"


def numbers(bits):
    """The names of the bits of two numbers, the lowest bit first."""
    return [[f"{letter}{i}" for i in range(bits)] for letter in "ab"]


# ---- adders


def rippled(tables, x, y, carry):
    """The sums of two numbers, whose carry goes from bit to bit, and the last carry."""
    sums = []
    for bit, other in zip(x, y):
        here, carry = tables.sum(bit, other, carry)
        sums.append(here)
    return sums, carry


def ripple_adder(bits):
    x, y = numbers(bits)
    tables = Tables()
    sums, carry = rippled(tables, x, y, None)
    return tables.text(x + y, sums + [carry])


def carry_select_adder(bits, block):
    """Each block is added with the carries 0 and 1, and the carry that comes chooses."""
    x, y = numbers(bits)
    tables = Tables()
    zero, one = tables.table(()), tables.table(("",))
    sums, carry = rippled(tables, x[:block], y[:block], None)
    for at in range(block, bits, block):
        parts = [rippled(tables, x[at:at + block], y[at:at + block], given) for given in (zero, one)]
        pairs = list(zip(parts[0][0] + [parts[0][1]], parts[1][0] + [parts[1][1]]))
        *chosen, carry = [tables.table(CHOICE, carry, without, with_it) for without, with_it in pairs]
        sums += chosen
    return tables.text(x + y, sums + [carry])


# ---- multipliers


def added(tables, above, row):
    """The sum of two numbers, the lowest bit first; what stands above may be a bit shorter."""
    sums, carry = [], None
    for i, bit in enumerate(row):
        given = [bit, *above[i:i + 1], *([carry] if carry else [])]
        if len(given) == 2:
            here, carry = tables.sum(*given, None)
        else:
            here, carry = tables.sum(*given)
        sums.append(here)
    return sums + [carry]


def multiplier(bits, exchanged=False):
    """An array of adders: each row adds one number AND one bit of the other to what stands above."""
    names = numbers(bits)
    x, y = names[::-1] if exchanged else names
    tables, outputs = Tables(), []
    above = [tables.table(AND, bit, y[0]) for bit in x]
    for bit in y[1:]:
        outputs.append(above[0])
        above = added(tables, above[1:], [tables.table(AND, other, bit) for other in x])
    return tables.text(names[0] + names[1], outputs + above)


# ---- gates at random


def random_gates(gates, inputs, outputs, near, seed):
    """Gates that read two of the last `near` signals, so that paths part and meet again; some signals are outputs."""
    source = random.Random(seed)
    names = [f"x{i}" for i in range(inputs)]
    tables = Tables()
    signals = list(names)
    for _ in range(gates):
        rows = source.choice([XOR, AND, ("00", "01", "10"), ("1-", "-1")])
        signals.append(tables.table(rows, *source.sample(signals[-near:], 2)))
    return tables.text(names, source.sample(signals[inputs:], outputs))
