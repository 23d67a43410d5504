#!/usr/bin/env python3
"""merge_equal.py < NETLIST > NETLIST: a BLIF netlist in which equal tables are one.

Two tables are equal if they have the same rows over the same names, for two names in either order, where names that were
found equal before count as the same. Each table has to come after those that it reads, as in the netlists of this folder.
An output whose table equals another one becomes a copy of it. The number of merged tables goes to standard error."""
import sys

from usage import standard_input, usage


def tables(lines):
    """The lines in groups: a table with its rows, or one other line."""
    group = []
    for line in lines:
        if group and line[:1] in ('0', '1', '-'):
            group.append(line)
            continue
        if group:
            yield group
        group = [line]
    if group:
        yield group


def key(names, rows):
    """The table, of two names in the lesser of both orders."""
    own = (tuple(names), tuple(sorted(rows)))
    if len(names) != 2:
        return own
    turned = tuple(sorted(row[1] + row[0] + row[2:] for row in rows))
    return min(own, ((names[1], names[0]), turned))


def main():
    same, first, outputs, count = {}, {}, [], 0
    for group in tables(standard_input(__doc__).splitlines()):
        head, *rows = group
        words = head.split()
        if words[:1] == ['.names']:
            count += 1
            names = [same.get(name, name) for name in words[1:-1]]
            one = first.setdefault(key(names, rows), words[-1])
            if one != words[-1]:
                same[words[-1]] = one
                continue
            print('.names', *names, words[-1])
            for row in rows:
                print(row)
            continue
        if words[:1] == ['.outputs']:
            outputs = words[1:]
        if words[:1] == ['.end']:
            for name in outputs:
                if name in same:
                    print(f'.names {same[name]} {name}\n1 1')
        print(head)
    print(f'{count} tables, {len(same)} merged', file=sys.stderr)


if __name__ == '__main__':
    usage(__doc__)
    main()
