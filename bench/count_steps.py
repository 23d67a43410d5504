#!/usr/bin/env python3
"""Takes the steps of the solver and counts them, since the benchmark `solve` can only count by the log.

    make_formula.py pigeons 4 | count_steps.py [MOST]

It reads the output of `make_formula.py`, and gives up after MOST conflicts (10,000,000). It decides, propagates,
learns, reduces and restarts as `cdcl_core` does, and strengthens the clauses of the formula once, as that does with
the finder of `subsume_core`, with the same order of all lists, but shares no line with them: equal numbers of
additions and hints show that both take the same steps. The additions of a log are the conflicts, each with a learnt
clause, and the strengthened clauses of the formula.
Propagations are the literals of the trail that were visited, and visits the clauses that were read for them.

In tables indexed by literals, -v has the index -v, which counts from the end.
"""

import bisect
import collections
import itertools
import math
import sys

from usage import standard_input, usage

FIRST_STEP, GREATEST_STEP, STEP_PART, REASON_PART = 1 << 40, 1 << 56, 16, 2
GREATEST_SCORE = (1 << 64) - 1
SHORTEST_RUN = 80
DEPTH = 1000
FIRST_ACTIVITY, GREATEST_ACTIVITY, SCALE, ACTIVITY_PART = 1 << 20, 1 << 60, 1 << 40, 1000
FEW_LEVELS, RECENT, FIRST_DUE, FIRST_WAIT, LONGER_WAIT, LAST_ONES = 4, 2000, 2000, 2000, 75, 20
FIRST_CONFLICTS, MOST_GIVEN = 300, 400_000
LONG, MOST_LITERALS, MOST_WORK = 64, 500, 50_000_000


class Heap:
    """Variables with scores. The held ones stand in a row whose first has a greatest score, and in which
    those below place p stand at 2 p and 2 p + 1."""

    def __init__(self, variables):
        self.scores = [0] * (variables + 1)
        self.row = list(range(variables + 1))
        self.places = list(range(variables + 1))  # 0 where a variable isn't held

    def up(self, place):
        row, places, scores = self.row, self.places, self.scores
        variable = row[place]
        score = scores[variable]
        while place > 1 and score > scores[row[place // 2]]:
            row[place] = row[place // 2]
            places[row[place]] = place
            place //= 2
        row[place] = variable
        places[variable] = place

    def down(self, place):
        row, places, scores = self.row, self.places, self.scores
        variable, last = row[place], len(row) - 1
        while 2 * place <= last:
            below = 2 * place
            if below < last and scores[row[below]] < scores[row[below + 1]]:
                below += 1
            if scores[row[below]] <= scores[variable]:
                break
            row[place] = row[below]
            places[row[place]] = place
            place = below
        row[place] = variable
        places[variable] = place

    def pop(self):
        """A held variable of greatest score, or None."""
        if len(self.row) == 1:
            return None
        first, last = self.row[1], self.row.pop()
        if first != last:
            self.row[1] = last
            self.down(1)
        self.places[first] = 0
        return first

    def push(self, variable):
        if not self.places[variable]:
            self.row.append(variable)
            self.up(len(self.row) - 1)

    def bump(self, variable, step):
        self.scores[variable] = min(self.scores[variable] + step, GREATEST_SCORE)
        if self.places[variable]:
            self.up(self.places[variable])

    def halve(self):
        self.scores[:] = [score // 2 for score in self.scores]


class Choice:
    """The variables to decide on, with their scores and the signs that they had last."""

    def __init__(self, variables):
        self.heap = Heap(variables)
        self.signs = [1] * (variables + 1)
        self.step = FIRST_STEP

    def release(self, lits):
        for lit in lits:
            self.signs[abs(lit)] = 1 if lit > 0 else -1
            self.heap.push(abs(lit))

    def bump(self, lits, step):
        for lit in lits:
            self.heap.bump(abs(lit), step)

    def grow(self):
        self.step = min(self.step + self.step // STEP_PART, GREATEST_SCORE)
        if self.step > GREATEST_STEP:
            self.step //= 2
            self.heap.halve()

    def take_free(self, trail):
        """The literal to decide on, or None where all variables have values."""
        while variable := self.heap.pop():
            if not trail.fell[variable] and not trail.fell[-variable]:
                return self.signs[variable] * variable
        return None


def luby(index):
    """A member of Luby's sequence, from 1 on."""
    power = 1 << index.bit_length() - 1
    return power if index == 2 * power - 1 else luby(index + 1 - power)


class Restarts:
    """Runs of conflicts whose lengths follow Luby's sequence."""

    def __init__(self):
        self.run, self.left = 1, SHORTEST_RUN

    def count(self):
        """Whether a run ends with this conflict."""
        self.left -= 1
        if self.left:
            return False
        self.run += 1
        self.left = SHORTEST_RUN * luby(self.run)
        return True


class Trail:
    """The literals that are true. `fell` has 1 + the index of a literal's opposite, or 0; `reason` has the
    id of the clause that made a literal true, by its variable, and 0 for decisions."""

    def __init__(self, variables):
        self.lits = []
        self.fell = [0] * (2 * variables + 1)
        self.reason = [0] * (variables + 1)

    def push(self, lit, reason):
        self.lits.append(lit)
        self.fell[-lit] = len(self.lits)
        self.reason[abs(lit)] = reason

    def back_to(self, length):
        for lit in self.lits[length:]:
            self.fell[-lit] = 0
        del self.lits[length:]


class Clauses:
    """Clauses by their ids, from 1 on. Their literals stand in an order in which the first two are watched. A
    list of `watching` has the ids, each with a literal of its clause, the blocker."""

    def __init__(self, variables, clauses):
        self.lits = [None]
        self.watching = [[] for _ in range(2 * variables + 1)]
        for lits in clauses:
            self.add(lits)

    def delete(self, id):
        """In the lists of both watched literals the last entry takes its place."""
        for lit in self.lits[id][:2] if len(self.lits[id]) > 1 else []:
            entries = self.watching[lit]
            index = next(index for index, entry in enumerate(entries) if entry[0] == id)
            entries[index] = entries[-1]
            entries.pop()
        self.lits[id] = None

    def add(self, lits):
        self.lits.append(list(lits))
        id = len(self.lits) - 1
        if len(lits) > 1:
            self.watching[lits[0]].append((id, lits[1]))
            self.watching[lits[1]].append((id, lits[0]))
        return id


class Analysis:
    """What is learnt from a conflict."""

    def __init__(self, trail, clauses):
        self.trail, self.clauses = trail, clauses

    def mark_fallen(self, lits):
        for lit in lits:
            if self.trail.fell[lit] and lit not in self.marked:
                self.marked.add(lit)
                self.touched.append(lit)

    def begin(self, conflict):
        self.marked, self.touched, self.hints = set(), [], [conflict]
        self.mark_fallen(self.clauses.lits[conflict])

    def resolve(self, lit):
        """Puts the other literals of its reason in the place of a marked literal."""
        reason = self.trail.reason[abs(lit)]
        self.marked.remove(lit)
        self.mark_fallen(self.clauses.lits[reason])
        self.hints.append(reason)

    def reduce(self, start):
        """Goes back until one literal of the level that begins at an index is left, and gives that."""
        fell = self.trail.fell
        place = len(self.trail.lits)
        left = sum(1 for lit in self.marked if fell[lit] > start)
        while True:
            place -= 1
            lit = -self.trail.lits[place]
            if lit not in self.marked:
                continue
            if left == 1:
                return lit
            known = len(self.touched)
            self.resolve(lit)
            left += sum(1 for lit in self.touched[known:] if fell[lit] > start) - 1

    def judge(self, lit, depth):
        """Whether a fallen literal follows from the marked ones. Those that do are gathered."""
        variable = abs(lit)
        if variable in self.follows:
            return self.follows[variable]
        reason = self.trail.reason[variable]
        follows = depth > 0 and reason > 0 and all(
            other == -lit or self.judge(other, depth - 1) or other in self.marked for other in self.clauses.lits[reason]
        )
        self.follows[variable] = follows
        if follows:
            self.redundant.append(lit)
        return follows

    def minimise(self, start):
        """Resolves away what follows from the other literals, of those that fell up to an index."""
        self.follows, self.redundant = {}, []
        for lit in self.touched:
            if lit in self.marked and self.trail.fell[lit] <= start:
                self.judge(lit, DEPTH)
        for lit in reversed(self.redundant):
            if lit in self.marked:
                self.resolve(lit)

    def shorten(self, first):
        """Takes off what is false by a clause of two literals of which the other one is the asserting one."""
        for id, blocker in self.clauses.watching[first]:
            lit = -blocker
            if lit in self.marked and lit != first and set(self.clauses.lits[id]) == {first, blocker}:
                self.marked.remove(lit)
                self.hints.append(id)

    def learn(self, conflict, start):
        """The learnt clause, where its others fell last, and the literals that were marked on the way."""
        fell = self.trail.fell
        self.begin(conflict)
        first = self.reduce(start)
        walked = len(self.touched)
        self.minimise(start)
        self.shorten(first)
        lower = [lit for lit in self.touched if lit in self.marked and lit != first]
        back = max((fell[lit] for lit in lower), default=0)
        if lower:
            last = next(index for index, lit in enumerate(lower) if fell[lit] == back)
            lower[0], lower[last] = lower[last], lower[0]
        early = 1
        for index in range(1, len(lower)):
            if fell[lower[index]] <= back // 2:
                lower[early], lower[index] = lower[index], lower[early]
                early += 1
        return [first, *lower], back, self.touched[:walked]

    def refute(self, conflict):
        """Goes back over all reasons."""
        self.begin(conflict)
        for lit in reversed(self.trail.lits):
            if -lit in self.marked:
                self.resolve(-lit)


class Finder:
    """Looks for clauses that unit and binary clauses subsume or shorten, learnt ones too."""

    def __init__(self, clauses, given):
        self.lits = clauses.lits
        self.units = {}  # by literal, the id of its first unit clause
        self.rows = collections.defaultdict(list)  # by literal, the others of its binary clauses, with their ids
        self.work = MOST_WORK
        for id, lits in enumerate(self.lits):
            self.note(lits or [], id)
        self.order = sorted(range(1, given + 1), key=lambda id: min(len(self.lits[id]), LONG))
        self.order += [id for id in self.order if len(self.lits[id]) <= 2]

    def note(self, lits, id):
        if len(lits) == 1:
            self.units.setdefault(lits[0], id)
        if len(lits) == 2:
            self.rows[lits[0]].append((lits[1], id))
            self.rows[lits[1]].append((lits[0], id))

    def inside(self, id, lit, marked):
        """Another clause than that of an id, of a literal and at most one more, which is marked: its id, or 0."""
        unit = self.units.get(lit, 0)
        if unit != id and self.lits[unit]:
            return unit
        fitting = (by for other, by in self.rows[lit] if other in marked and by != id and self.lits[by])
        return next(fitting, 0)

    def find(self, id):
        """The id of a clause that subsumes that of an id, or 0, and the literals that this one needs."""
        lits = self.lits[id]
        marked = set(lits)
        for lit in lits if len(lits) <= MOST_LITERALS else []:
            if self.work <= 0:
                break
            if by := self.inside(id, lit, marked):
                return by, lits
            if len(marked) > 1 and self.inside(id, -lit, marked):
                marked.remove(lit)
            self.work -= len(self.rows[lit]) + len(self.rows[-lit])
        return 0, [lit for lit in lits if lit in marked]


class Merits:
    """What the additions were good for. The ids behind `given` are theirs."""

    def __init__(self, given):
        self.given, self.conflicts = given, 0
        self.activity, self.used, self.levels = [], [], []
        self.step = FIRST_ACTIVITY
        self.due, self.wait = FIRST_DUE, FIRST_WAIT

    def count_parts(self, hints):
        for id in hints:
            if 0 <= (index := id - self.given - 1) < len(self.used):
                self.activity[index] = min(self.activity[index] + self.step, GREATEST_SCORE)
                self.used[index] = self.conflicts

    def add(self, activity, levels):
        self.activity.append(activity)
        self.used.append(self.conflicts)
        self.levels.append(levels)

    def note(self, levels):
        self.add(self.step, levels)
        self.conflicts += 1
        self.step += self.step // ACTIVITY_PART
        if self.step > GREATEST_ACTIVITY:
            self.step //= SCALE
            self.activity[:] = [activity // SCALE for activity in self.activity]

    def containing(self, lits, clauses):
        """Those of the few clauses before the last one that contain it."""
        last = len(self.used) - 1 if self.conflicts >= FIRST_DUE else 0
        ids = [self.given + 1 + index for index in range(max(0, last - LAST_ONES), last)]
        return [id for id in ids if clauses[id] and set(lits) <= set(clauses[id])]

    def idle(self, clauses):
        """The ids of the idle clauses of which half are more active."""
        idle = [
            index
            for index, levels in enumerate(self.levels)
            if levels > FEW_LEVELS
            and self.used[index] + RECENT < self.conflicts
            and (lits := clauses[self.given + 1 + index])
            and len(lits) > 2
        ]
        bound = sorted(self.activity[index] for index in idle)[len(idle) // 2] if idle else 0
        return [self.given + 1 + index for index in idle if self.activity[index] < bound]

    def is_due(self):
        if self.conflicts < self.due:
            return False
        self.wait += LONGER_WAIT
        self.due = self.conflicts + self.wait
        return True


class Solver:
    """The state of a search, and what was counted."""

    def __init__(self, variables, clauses):
        self.clauses = Clauses(variables, clauses)
        self.trail = Trail(variables)
        self.starts, self.head = [], 0
        self.choice, self.restarts = Choice(variables), Restarts()
        self.analysis = Analysis(self.trail, self.clauses)
        self.merits = Merits(len(clauses))
        self.shorter = set()
        names = ["conflicts", "shorter", "hints", "deleted", "propagations", "visits", "decisions", "restarts"]
        self.counts = dict.fromkeys(names, 0)

    def count(self, what, number=1):
        self.counts[what] += number

    def begin(self):
        """Makes the clauses of one literal true: the id of a falsified one, or 0."""
        fell = self.trail.fell
        for id, lits in enumerate(self.clauses.lits[1:], 1):
            if not lits or len(lits) > 1:
                continue
            if fell[lits[0]]:
                return id
            if not fell[-lits[0]]:
                self.trail.push(lits[0], id)
        return 0

    def replacement(self, lits):
        """The place from 2 on of the first literal that hasn't fallen; 0 where there is none."""
        fell = self.trail.fell
        return next((place for place in range(2, len(lits)) if not fell[lits[place]]), 0)

    def visit_watching(self, fallen):
        """Visits the clauses that watch a literal that fell and have no true blocker: the id of a falsified
        one, or 0."""
        fell, lits_of, watching = self.trail.fell, self.clauses.lits, self.clauses.watching
        entries = watching[fallen]
        index = visits = conflict = 0
        while index < len(entries) and not conflict:
            id, blocker = entries[index]
            if fell[-blocker]:
                index += 1
                continue
            visits += 1
            lits = lits_of[id]
            own = 0 if lits[0] == fallen else 1
            other = lits[1 - own]
            if fell[-other]:
                entries[index] = id, other
                index += 1
            elif place := self.replacement(lits):
                lits[own], lits[place] = lits[place], fallen
                watching[lits[own]].append((id, other))
                entries[index] = entries[-1]
                entries.pop()
            elif fell[other]:
                conflict = id
            else:
                self.trail.push(other, id)
                index += 1
        self.count("visits", visits)
        return conflict

    def propagate(self):
        """Makes true what follows, by the watched literals: the id of a falsified clause, or 0."""
        for lit in self.visited():
            self.count("propagations")
            if conflict := self.visit_watching(-lit):
                return conflict
        self.head = len(self.trail.lits)
        return 0

    def visited(self):
        """The literals of the trail from the head on, also those that come meanwhile."""
        for index in itertools.count(self.head):
            if index == len(self.trail.lits):
                return
            yield self.trail.lits[index]

    def go_back(self, length):
        self.choice.release(reversed(self.trail.lits[length:]))
        self.trail.back_to(length)
        self.head = length

    def bump_reasons(self, fallen):
        """Lets the variables of the reasons of fallen literals score a part of the step."""
        for lit in fallen:
            if reason := self.trail.reason[abs(lit)]:
                self.choice.bump(self.clauses.lits[reason], self.choice.step // REASON_PART)

    def jump(self, conflict):
        """Learns a clause, and goes back to where it is unit."""
        lits, back, touched = self.analysis.learn(conflict, self.starts[-1])
        self.choice.bump(touched, self.choice.step)
        self.bump_reasons(lits[1:])
        self.choice.grow()
        id = self.clauses.add(lits)
        end = self.starts.pop()
        while self.starts and self.starts[-1] >= back:
            end = self.starts.pop()
        self.go_back(end)
        self.trail.push(lits[0], id)
        self.merits.count_parts(self.analysis.hints)
        self.merits.note(1 + len({bisect.bisect_left(self.starts, self.trail.fell[lit]) for lit in lits[1:]}))
        self.forget(self.merits.containing(lits, self.clauses.lits))

    def is_irredundant(self, id):
        """Whether a clause is one of the formula or stands for one."""
        return id <= self.merits.given or id in self.shorter

    def forget(self, ids):
        """Deletes the learnt clauses that are no reasons, as long as half of all additions stay, or half of the
        budget."""
        for id in ids:
            additions = max(len(self.clauses.lits) - 1 - self.merits.given, self.reckoned)
            lits, trail = self.clauses.lits[id], self.trail
            if not self.is_irredundant(id) and 2 * (self.counts["deleted"] + 1) <= additions and not any(
                trail.fell[-lit] and trail.reason[abs(lit)] == id for lit in lits
            ):
                self.clauses.delete(id)
                self.count("deleted")

    def restart(self):
        """Goes back to the bottom where a run of conflicts ends."""
        if self.restarts.count() and self.starts:
            self.count("restarts")
            self.go_back(self.starts[0])
            self.starts.clear()

    def is_new(self, lits, units):
        """Whether no clause has all its literals among these, where those of the unit clauses are given."""
        lits_of, watching = self.clauses.lits, self.clauses.watching
        known = [lits_of[id] for lit in lits for id, _ in watching[lit]]
        return units.isdisjoint(lits) and not any(map(set(lits).issuperset, known))

    def strengthen_one(self, finder, id):
        """Deletes a clause of the formula where another one that stays subsumes it, or puts a shorter one in its
        place."""
        lits = self.clauses.lits[id]
        by, kept = finder.find(id)
        if len(kept) < len(lits) and self.is_new(kept, finder.units.keys()):
            by = self.clauses.add(kept)
            self.shorter.add(by)
            self.merits.add(0, 1)
            finder.note(kept, by)
            self.count("shorter")
            self.count("hints", 1 + len(lits) - len(kept))
        if by and self.is_irredundant(by):
            self.clauses.delete(id)

    def strengthen(self):
        """Strengthens the clauses of the formula, where no variable has a value, and begins anew."""
        self.go_back(0)
        finder = Finder(self.clauses, self.merits.given)
        for id in finder.order:
            if self.clauses.lits[id]:
                self.strengthen_one(finder, id)
        return self.begin()

    def settle(self):
        """Propagates and learns until there is no conflict: the id of a clause falsified at the bottom, or 0."""
        while conflict := self.propagate():
            if not self.starts:
                return conflict
            self.jump(conflict)
            self.count("conflicts")
            self.count("hints", len(self.analysis.hints))
            self.restart()
        return 0

    def refute(self, conflict):
        self.analysis.refute(conflict)
        self.count("conflicts")
        self.count("hints", len(self.analysis.hints))
        return "Refuted"

    def solve(self, most=10_000_000):
        """What the search comes to; "Open" where a decision is due behind so many conflicts."""
        self.reckoned = most
        pause = FIRST_CONFLICTS if most > FIRST_CONFLICTS and self.merits.given <= MOST_GIVEN else math.inf
        if [] in self.clauses.lits:
            return "Refuted"
        conflict = self.begin() or self.settle()
        while not conflict:
            if not self.starts and self.counts["conflicts"] >= pause:
                pause = math.inf
                conflict = self.strengthen() or self.settle()
                continue
            if self.merits.is_due():
                self.forget(self.merits.idle(self.clauses.lits))
            lit = self.choice.take_free(self.trail)
            if lit is None:
                return "Satisfied"
            if self.counts["conflicts"] >= most:
                return "Open"
            self.count("decisions")
            self.starts.append(len(self.trail.lits))
            self.trail.push(lit, 0)
            conflict = self.settle()
        return self.refute(conflict)


def read(text):
    """The number of variables, and the clauses."""
    lines = text.splitlines()
    return int(lines[0].split()[1]), [[int(word) for word in line.split()[1:-2]] for line in lines[1:]]


def main():
    sys.setrecursionlimit(10_000)
    most = int(sys.argv[1]) if len(sys.argv) > 1 else 10_000_000
    solver = Solver(*read(standard_input(__doc__)))
    answer = solver.solve(most)
    print(", ".join([answer, *(f"{number} {what}" for what, number in solver.counts.items())]))


if __name__ == "__main__":
    usage(__doc__)
    main()
