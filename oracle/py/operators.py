"""Which operators and dry runs are recorded, and with which limits and rooms."""
import itertools

import paper
from dice import ordered_set
from kinds import Operator, refused
from sets import JOINS, MOST_ENTRIES, TABLES, X0, X1, low_first, negated, reduced, terminal

# The longest runs that the replay lends: entries of an output, pairs of a pair run.
WIDTH, ROOM = 64, 128
AND, OR, XOR, IMP = map(paper.operator, (8, 14, 6, 11))
KEEP = (None, None, None)
NOT_X0 = [*X0[:2], (0, 1, 0)]
# Over three options: x1, and one entry that asks an option that is not there.
OTHER_X1 = [(3, 0, 0), (3, 1, 1), (1, 0, 1)]
OTHER_BAD = [*OTHER_X1[:2], (3, 0, 1)]
# Of another length; unknown at two knowns; a number that is no answer; and known with an unknown, which does not stand.
BAD_TABLES = [[], XOR[:8], [*XOR, 2], [2, *XOR[1:]], [*XOR[:8], 3], [0, 1, 0, 1, 0, 2, 2, 2, 2], [0, 0, 0, 0, 1, 2, 0, 2, 0]]


def settled():
    """The rows of document 01's table that ask for limits, rooms and counts; true and true over no option."""
    yield from ((AND, KEEP, X0, X1), (XOR, KEEP, X0, X1), (OR, KEEP, X0, NOT_X0))
    yield from ((AND, KEEP, X0, NOT_X0), (AND, KEEP, terminal(2, 0), X0))
    yield (AND, KEEP, terminal(0, 1), terminal(0, 1))


def settled_arrays():
    """The other rows that are operators: x0 and x0 of the text, the or, the flip, a step of each pick."""
    either, picked = [*X1, (0, 2, 1)], [*X1[:2], (1, 1, 0), (1, 0, 1), (0, 3, 2)]
    yield from ((AND, KEEP, X0, X0), (OR, KEEP, X0, X1), (AND, (0, None, None), X0, X1))
    yield from ((OR, (None, 1, None), either, either), (AND, KEEP, either, picked))


def bounds(job):
    """Limits, widths and rooms on both sides of S and T, and the refusals against each other."""
    s, t = job.size(), job.pairs()
    yield from ((None, s, t), (None, s + 2, t + 2), (None, s - 1, t), (None, s, t - 1), (None, 0, 0))
    yield from ((0, 0, t), (0, s, t), (0, s, t - 1), (1, 0, t), (1, s, t))
    yield from ((s, s, t), (s, s - 1, t), (s - 1, s, t), (s - 1, s - 1, t), (s - 1, WIDTH, t + 1))
    yield from ((s + 1, s, t), (s + 1, s - 1, t - 1), (2 * s, s - 1, t))
    if s > 1:
        yield (s - 1, s - 2, t)


def dry_bounds(job):
    c = job.count
    yield from ((None, c), (None, 0), (0, 0), (0, c), (1, c), (c, 0), (c, c), (c + 1, c))
    if c > 0:
        yield from ((None, c - 1), (c - 1, c - 1), (c - 1, c), (c, c - 1), (c + 1, c - 1))


def some_set(oracle, dice, n, most):
    """From any maker of sets, or merely ordered."""
    made = reduced(oracle, dice, n, most // 2 if n > 3 else 1, most)
    return dice.one_of([
        made, negated(oracle, made), low_first(oracle, made), ordered_set(dice, n, most)
    ])


def random_operator(oracle, dice, most):
    # Small n seldom: there is little to join.
    n = max(dice.below(9), dice.below(9))
    left, right = (some_set(oracle, dice, n, most) for _ in range(2))
    flips = [dice.one_of([None, *range(n)]) for _ in range(3)]
    return Operator(oracle, dice.one_of([*JOINS, *TABLES]), flips, left, right)


def flipped_operators(oracle, dice):
    """The output flipped where both children write entries: which of them is finished first shows in the array."""
    for left, right, out in itertools.product((None, 0), (None, 1), (0, 1)):
        yield Operator(oracle, XOR, (left, right, out), X0, X1)
    for n in (4, 5, 6, 7, 8):
        left, right = (reduced(oracle, dice, n, 7, 12) for _ in range(2))
        out = min(left[-1][0], right[-1][0])
        yield Operator(oracle, dice.one_of(JOINS), (dice.below(n), None, out), left, right)


def large_operators(oracle, dice, count):
    """Some forty entries on either side, and more than a hundred pairs."""
    found = 0
    while found < count:
        left, right = reduced(oracle, dice, 8, 30, MOST_ENTRIES), ordered_set(dice, 8, MOST_ENTRIES)
        flips = [dice.below(8) for _ in range(3)]
        job = Operator(oracle, dice.one_of(JOINS), flips, left, right)
        if 100 < job.count <= ROOM and job.size() <= WIDTH:
            found += 1
            yield job


def wide_operators(oracle):
    """Literals at both ends of the most options, so that the stack must be as high as it may be."""
    left, right = (oracle.set("literal", 256, v, 1) for v in (0, 255))
    yield Operator(oracle, XOR, (0, 255, 255), left, right)
    yield Operator(oracle, IMP, (255, None, 0), right, left)


def small_operators(oracle):
    """Every operator on two literals, and on the terminals over no option."""
    ends = [terminal(0, on) for on in (0, 1)]
    for number in range(16):
        yield Operator(oracle, paper.operator(number), KEEP, X0, X1)
    for left, right in itertools.product(ends, ends):
        yield Operator(oracle, XOR, KEEP, left, right)


def operators(oracle, dice, rounds):
    yield from (Operator(oracle, *row) for row in settled_arrays())
    yield from wide_operators(oracle)
    for most in [5, 7, 9] * rounds:
        yield random_operator(oracle, dice, most)


def mended():
    """All that can be wrong at once, then mended one by one in the paper's order: table, flips, sets and lengths."""
    tables, flips, sets = (BAD_TABLES[1], XOR), ((2, 2, 2), KEEP), ([OTHER_BAD[0]] * 2, X0)
    yield tables[0], flips[0], (sets[0], OTHER_BAD), 0
    yield tables[1], flips[0], (sets[0], OTHER_BAD), 0
    yield tables[1], flips[0], (sets[1], OTHER_BAD), 0
    yield tables[1], flips[0], (sets[1], OTHER_X1), 0
    yield tables[1], flips[0], (sets[1], X1), 0
    yield tables[1], flips[1], (sets[1], X1), 0


def alone():
    """One thing wrong, both sides of it where it has two: table, flips, sets and the stack."""
    yield from ((table, KEEP, (X0, X1), 5) for table in BAD_TABLES)
    for place, option in itertools.product(range(3), (2, 3, 65535)):
        flips = tuple(option if i == place else None for i in range(3))
        yield XOR, flips, (X0, X1), 5
    for bad in (OTHER_BAD, [], [*X0, (0, 2, 1)], [*X0[:2], (1, 2, 0)]):
        yield XOR, KEEP, (bad, X1), 5
        yield XOR, KEEP, (X0, bad), 5
    yield from ((XOR, KEEP, (X0, OTHER_X1), 7), (XOR, KEEP, (OTHER_X1, X0), 7))
    yield from ((XOR, (1, 1, 1), (X0, X1), height) for height in (0, 4))
    yield XOR, (None, None, 255), [[(256, 0, 0), (256, 1, 1), (v, 0, 1)] for v in (0, 255)], 512


def refusals(dry):
    """Refusals 1 to 6, with room for none of the pairs or for all; an index run too short comes alone."""
    for (table, flips, sets, height), room in itertools.product([*mended(), *alone()], (0, 9)):
        lent = [room, height] if dry else [room, room, height, room]
        yield refused(dry, table, flips, None if room else 0, lent, sets)
    if not dry:
        yield from (refused(False, XOR, KEEP, 9, [w, 9, 5, w - 1], (X0, X1)) for w in (1, 5, WIDTH))


def jobs(oracle, dice):
    for job in (Operator(oracle, *row) for row in settled()):
        yield from (job.job(*bound) for bound in bounds(job))
    for job in operators(oracle, dice, 8):
        yield fitting(job)
        yield job.job(*dice.one_of(list(bounds(job))))
    yield from (job.job(None, job.size() + 3, job.pairs() + 1) for job in small_operators(oracle))
    yield from map(fitting, flipped_operators(oracle, dice))
    yield from (fitting(random_operator(oracle, dice, 16)) for _ in range(6))
    yield from map(fitting, large_operators(oracle, dice, 2))
    yield from refusals(False)


def fitting(job):
    """No place to spare: the pair run and the index run are full in the end."""
    return job.job(None, job.size(), job.pairs())


def dry_jobs(oracle, dice):
    for job in (Operator(oracle, *row) for row in settled()):
        yield from (job.dry_job(*bound) for bound in dry_bounds(job))
    for job in operators(oracle, dice, 4):
        yield job.dry_job(None, job.count)
        yield job.dry_job(*dice.one_of(list(dry_bounds(job))))
    for job in [random_operator(oracle, dice, 16) for _ in range(5)]:
        yield job.dry_job(None, job.count)
    yield from (job.dry_job(None, job.count) for job in large_operators(oracle, dice, 2))
    yield from refusals(True)
