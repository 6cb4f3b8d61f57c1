"""Module 7 on the list: which quantifiers, selections, restrictions and picks are recorded, and with which rooms."""
import itertools

import paper
from dice import ordered_set
from driver import text
from kinds import Operator, sized
from operators import AND, OR, OTHER_BAD, some_set
from sets import MOST_ENTRIES, SIZES, X0, X1, damaged, edge_sets, grown, reduced, terminal

EXISTS, FOR_ALL, SELECT, VAR_RESTRICT, RESTRICT, VAR_PICK, PICK = range(11, 18)
NAMES = {
    EXISTS: "exists", FOR_ALL: "forall", SELECT: "select", VAR_RESTRICT: "var_restrict", RESTRICT: "restrict",
    VAR_PICK: "var_pick", PICK: "pick",
}
# The kinds that are given one option, and those that are given its value too.
PLAIN, VALUED = (EXISTS, FOR_ALL, VAR_PICK), (SELECT, VAR_RESTRICT)
# The longest runs that the replay lends: entries of a set, an output or a map, pairs of a pair run, places of a spare run.
WIDTH, ROOM, SPARE = 64, 128, 1024
KEEP = (None, None, None)
AND_NOT = paper.operator(4)
# What the runs are full of before a call: small numbers might be an earlier job's.
MARKS = [7, 1, 2, 3, 65535]
XOR = [*X0[:2], (1, 1, 0), (1, 0, 1), (0, 3, 2)]
OR_SET = [*X1, (0, 2, 1)]


def early(kind, numbers, made):
    """Rows 2, 5 and 10 of document 01, in its order; 0 where none of them holds."""
    if not paper.ordered(made):
        return 2
    n = made[0][0]
    if kind == RESTRICT:
        return 0 if len(numbers) == n and all(value in (0, 1, 2) for value in numbers) else 10
    if kind == PICK:
        return 5 if any(v >= n for v in numbers) else 10 if len(set(numbers)) < len(numbers) else 0
    return 5 if numbers[0] >= n else 0


class Job:
    """A job that rows 2, 5 and 10 let through, with what the crate makes of it."""

    def __init__(self, oracle, kind, numbers, made):
        self.kind, self.numbers, self.made = kind, numbers, made
        separator = {RESTRICT: "", PICK: ","}
        word = [separator[kind].join(map(str, numbers)) or "-"] if kind in separator else numbers
        self.array = oracle.set(NAMES[kind], *word, text(made))
        self.steps = [*steps(oracle, kind, numbers, made)]
        assert kind in (VAR_RESTRICT, RESTRICT) or self.steps[-1].array == self.array
        self.size, self.pairs = max(step.size() for step in self.steps), max(step.pairs() for step in self.steps)

    def fitting(self):
        """Rooms with no place to spare: W, R, the stack, the index run, the map run or each spare run."""
        return rooms_of(self.kind, self.numbers, self.made, self.size, self.pairs)

    def line(self, rooms, mark):
        answer = short(self.kind, self.numbers, self.made, rooms) or self.late(*rooms[:2])
        return line(self.kind, self.numbers, rooms, mark, self.made, answer, self.array)

    def late(self, width, room):
        """Rows 7 and 9, of the first step that is refused."""
        for step in self.steps:
            if step.pairs() > room:
                return 7
            if step.size() > width:
                return 9
        return 0


class Step:
    """What a step writes, and T where it is an operator: a restriction and a copy have no pairs."""

    def __init__(self, array, pairs=0):
        self.array, self.count = array, pairs

    def size(self):
        return len(self.array)

    def pairs(self):
        return self.count


def steps(oracle, kind, numbers, made):
    """The operators of a job in the Rust's order, with what the crate makes of each and T by its own dry run."""
    if kind in (VAR_RESTRICT, RESTRICT):
        word = ["".join(map(str, numbers)) or "-"] if kind == RESTRICT else numbers
        yield Step(oracle.set(NAMES[kind], *word, text(made)))
    elif kind == VAR_PICK:
        yield from pick_one(oracle, numbers[0], made)
    elif kind == PICK:
        yield from pick_all(oracle, sorted(numbers), made)
    else:
        yield relation(oracle, kind, numbers, made)


def relation(oracle, kind, numbers, made):
    """The one operator that a quantifier or a selection is."""
    if kind == SELECT:
        return Operator(oracle, AND, KEEP, made, oracle.set("literal", made[0][0], *numbers))
    return Operator(oracle, OR if kind == EXISTS else AND, (None, numbers[0], None), made, made)


def pick_one(oracle, v, made):
    """Select where the option is off, then and not, flipped at it."""
    off = relation(oracle, SELECT, [v, 0], made)
    yield from (off, Operator(oracle, AND_NOT, (None, v, None), made, off.array))


def pick_all(oracle, options, made):
    """The greatest option is quantified away, the rest is picked, then joined with the pick of it; with no option a copy."""
    if not options:
        yield Step(made)
        return
    *rest, v = options
    without = relation(oracle, EXISTS, [v], made)
    picked, one = [*pick_all(oracle, rest, without.array)], [*pick_one(oracle, v, made)]
    yield from (without, *picked, *one, Operator(oracle, AND, KEEP, picked[-1].array, one[-1].array))


def rooms_of(kind, numbers, made, width, room):
    extra = len(made) if kind in (VAR_RESTRICT, RESTRICT) else 0
    if kind in (VAR_PICK, PICK):
        extra = (len(numbers) + 4) * width
    return (width, room, 2 * made[0][0] + 1, width, extra)


def short(kind, numbers, made, rooms):
    """Row 6: the stack, the index run, for restriction the map run, for picking the spare runs."""
    least = rooms_of(kind, numbers, made, rooms[0], 0)
    return 6 if any(had < wanted for had, wanted in zip(rooms[2:], least[2:])) else 0


def line(kind, numbers, rooms, mark, made, answer, array):
    return [kind, len(numbers), *numbers, *rooms, mark, *sized(made), answer, *sized([] if answer else array)]


def refused(kind, numbers, made, rooms, mark):
    """A job that rows 2, 5 and 10 stop: the crate is not asked."""
    answer = early(kind, numbers, made)
    assert answer
    return line(kind, numbers, rooms, mark, made, answer, [])


def bounds(job):
    """No place to spare, some to spare, one short of each, and the refusals against each other; 0 for a run that is not lent."""
    least = job.fitting()
    yield least
    wide = rooms_of(job.kind, job.numbers, job.made, job.size + 2, job.pairs and job.pairs + 2)
    yield (*wide[:2], *(number and number + 2 for number in wide[2:]))
    for i, number in enumerate(least):
        if number:
            yield (*least[:i], number - 1, *least[i + 1 :])
    # 6 before 7, 7 before 9.
    yield (0, 0, least[2] - 1, 0, least[4])
    yield (0, 0, least[2], 0, least[4])
    yield (0, *least[1:])
    yield (job.size - 1, *least[1:3], WIDTH, least[4] and max(least[4], WIDTH))


def step_bounds(job):
    """Rooms one short of a step's array and of its or another step's pairs: the first step that is refused answers."""
    widths, rooms = {step.size() - 1 for step in job.steps}, {step.pairs() - 1 for step in job.steps if step.pairs()}
    for width, room in itertools.product(sorted(widths), sorted(rooms | {job.pairs})):
        yield rooms_of(job.kind, job.numbers, job.made, width, room)


def all_of(n):
    """Every job of module 7 over n options."""
    for v in range(n):
        yield from ((kind, [v]) for kind in PLAIN)
        yield from itertools.product(VALUED, ([v, 0], [v, 1]))
    yield from ((RESTRICT, list(values)) for values in itertools.product((0, 1, 2), repeat=n))
    for k in range(n + 1):
        yield from ((PICK, list(options)) for options in itertools.permutations(range(n), k))


def any_of(dice, n):
    """One job of each kind over n options, for restriction by a list two: at random, and by nothing."""
    v = dice.below(n)
    yield from ((kind, [v]) for kind in PLAIN)
    yield from ((kind, [v, dice.below(2)]) for kind in VALUED)
    yield RESTRICT, [dice.below(3) for _ in range(n)]
    yield RESTRICT, [2] * n
    yield PICK, some_options(dice, n)


def some_options(dice, n):
    """Some of them, in any order."""
    left = [v for v in range(n) if dice.below(2)]
    return [left.pop(dice.below(len(left))) for _ in range(len(left))]


def settled():
    """The rows of document 01's table that are of module 7, and the steps of its picks that are."""
    yield from ((RESTRICT, [2, 2], XOR), (RESTRICT, [1, 2], XOR), (VAR_RESTRICT, [0, 1], XOR))
    yield from ((VAR_PICK, [0], OR_SET), (PICK, [0], OR_SET), (PICK, [0, 1], OR_SET), (PICK, [1, 0], OR_SET), (PICK, [], OR_SET))
    yield from ((SELECT, [0, 0], OR_SET), (EXISTS, [1], OR_SET), (SELECT, [1, 0], OR_SET), (FOR_ALL, [0], OR_SET))


def small_sets():
    """Every ordered set over at most two options with at most three entries."""
    for n in range(3):
        yield from (terminal(n, on) for on in (0, 1))
        for entry in itertools.product(range(n), (0, 1), (0, 1)):
            yield [*terminal(n, 1), entry]


def random_jobs(oracle, dice):
    for n in [2, 3, 4, 5, 5, 6, 7, 8]:
        made = some_set(oracle, dice, n, 6 + n)
        yield from ((kind, numbers, made) for kind, numbers in any_of(dice, n))


def large_jobs(oracle, dice):
    """Many entries, from the operators and merely ordered; and the most options, so that the stack is as high as it may be."""
    for made in (reduced(oracle, dice, 8, 30, MOST_ENTRIES), ordered_set(dice, 8, WIDTH)):
        yield from ((kind, numbers, made) for kind, numbers in any_of(dice, 8))
    for v in (0, 255):
        made = oracle.set("op", "xor", *(text(oracle.set("literal", 256, at, 1)) for at in (0, 255)))
        yield from ((kind, [v], made) for kind in PLAIN)
        yield from ((kind, [v, 1], made) for kind in VALUED)
    yield from ((RESTRICT, [2] * 255 + [0], made), (PICK, [255, 0, 127], made))
    for on in (0, 1):
        yield from ((kind, [255], terminal(256, on)) for kind in (*PLAIN, PICK))
        yield from ((kind, [255, on], terminal(256, on)) for kind in VALUED)


def wrong(n):
    """A list for each kind that is wrong over n options, on both sides where there are two."""
    for option in (n, n + 1, 65535):
        yield from ((kind, [option]) for kind in (*PLAIN, PICK))
        yield from ((kind, [option, 1]) for kind in VALUED)
    yield from ((RESTRICT, values) for values in ([2] * (n + 1), [2] * (n - 1), [], [3] + [2] * (n - 1), [2] * (n - 1) + [255]))
    # Repeats, and with an option of n or more, which comes first.
    yield from ((PICK, options) for options in ([0, 0], [0] * 5, [n - 1, 0, n - 1], [0, n, 0], [n, n], [0, 65535]))


def good(dice, n):
    return [*any_of(dice, n)] if n else [(RESTRICT, [])]


def refusals(dice):
    """Rows 2, 5 and 10, with rooms for all and for nothing: rows 6, 7 and 9 would come behind them."""
    for made in filter(lambda made: not paper.ordered(made), edge_sets()):
        kind, numbers = dice.one_of([*any_of(dice, 2), *wrong(2)])
        yield kind, numbers, made
    for n, made in ((2, XOR), (2, X0), (1, terminal(1, 1)), (3, terminal(3, 0)), (256, [*terminal(256, 1), (255, 0, 1)])):
        # Lists of so many values are long: few of them.
        yield from ((kind, numbers, made) for kind, numbers in wrong(n) if n < 256 or kind != RESTRICT)
    yield from ((kind, [0], terminal(0, 1)) for kind in (*PLAIN, PICK))
    yield from ((kind, [0, 1], terminal(0, 1)) for kind in VALUED)
    # All that can be wrong at once.
    yield from ((kind, numbers, OTHER_BAD) for kind, numbers in wrong(3))


def jobs(oracle, dice):
    marks = itertools.cycle(MARKS)
    for job in (Job(oracle, *row) for row in settled()):
        yield from (job.line(rooms, next(marks)) for rooms in bounds(job))
    for job in (Job(oracle, kind, numbers, OR_SET) for kind, numbers in ((VAR_PICK, [0]), (PICK, [1]), (PICK, [0, 1]))):
        yield from (job.line(rooms, next(marks)) for rooms in step_bounds(job))
    for made in small_sets():
        for kind, numbers in all_of(made[0][0]):
            job = Job(oracle, kind, numbers, made)
            yield job.line(job.fitting(), next(marks))
    for job in (Job(oracle, *row) for row in random_jobs(oracle, dice)):
        if job.pairs <= ROOM and job.size <= WIDTH:
            yield job.line(job.fitting(), next(marks))
            yield job.line(dice.one_of(list(bounds(job))), next(marks))
    for job in (Job(oracle, *row) for row in large_jobs(oracle, dice)):
        assert job.pairs <= ROOM and job.size <= WIDTH and job.fitting()[4] <= SPARE
        yield job.line(job.fitting(), next(marks))
    for kind, numbers, made in refusals(dice):
        rooms = dice.one_of([(9, 9, 513, 9, 64), (0, 0, 0, 0, 0), (9, 0, 1, 8, 1)])
        yield refused(kind, numbers, made, rooms, next(marks))
    for n in SIZES[1:]:
        bad = damaged(dice, grown(oracle, dice, n, 2))
        kind, numbers = dice.one_of(good(dice, n if n < 9 else 2))
        if early(kind, numbers, bad):
            yield refused(kind, numbers, bad, (9, 9, 513, 9, 64), next(marks))
