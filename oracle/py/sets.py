"""The sets that jobs are recorded on: by hand, by the crate's operators, by chance, and damaged."""
import itertools

import paper
from dice import ordered_set
from driver import entries, text

MOST_ENTRIES = 40
# A set on the list comes with ten numbers for each entry where it is written as bytes.
MOST_WRITTEN = 24
SIZES = [0, 1, 2, 3, 4, 5, 8, 31, 100, 255, 256]
# Up to here a function of n options is written out by its settings.
SMALL = list(range(9))
TABLES = [table for table in itertools.product(range(3), repeat=9) if paper.good(table)]
# Tables that ask both sets, so that random sets do not fall back to a terminal at once.
JOINS = [t for t in TABLES if t[0:2] != t[3:5] and (t[0], t[3]) != (t[1], t[4])]
X0 = [(2, 0, 0), (2, 1, 1), (0, 0, 1)]
X1 = [(2, 0, 0), (2, 1, 1), (1, 0, 1)]


def terminal(n, on):
    return [(n, 0, 0), (n, 1, 1)][: 1 + on]


def grown(oracle, dice, n, steps):
    """A set of literals joined by random operators and flips, kept within the longest length."""
    made = oracle.set(dice.one_of(["false", "true"]), n)
    for _ in range(steps if n else 0):
        other = text(oracle.set("literal", n, dice.below(n), dice.below(2)))
        flips = [dice.one_of(["-", dice.below(n)]) for _ in range(3)]
        table = "".join(map(str, dice.one_of(JOINS)))
        answer = oracle.ask("apply", table, *flips, MOST_ENTRIES, text(made), other)
        # Terminals are let through seldom: the next join would start from nothing.
        if answer != "over" and (answer.count("|") > 3 or dice.below(8) == 0):
            made = entries(answer)
    return made


def reduced(oracle, dice, n, least, most):
    """Random sets joined by xor until the one array of the function has a length from least to most."""
    made = []
    while not least <= len(made) <= most:
        start = made if 0 < len(made) < least else terminal(n, 0)
        made = oracle.set("op", "xor", text(start), text(ordered_set(dice, n, most)))
    return made


def negated(oracle, made):
    return oracle.set("not", text(made))


def low_first(oracle, made):
    """Restricted by nothing: the same function, low side first."""
    return oracle.set("restrict", "2" * made[0][0] or "-", text(made))


def edge_sets():
    """Hand-made sets on both sides of each clause of `ordered`."""
    yield X0
    yield []
    for n in (256, 257, 65535):
        yield terminal(n, 0)
        yield terminal(n, 1)
        yield [*terminal(n, 1), (n - 1, 1, 0)]
    for first in ((2, 0, 1), (2, 1, 0), (2, 1, 1)):
        yield [first]
        yield [first, *X0[1:]]
    for second in ((2, 0, 0), (2, 0, 1), (2, 1, 0), (3, 1, 1), (1, 1, 1), (2, 2, 2)):
        yield [X0[0], second]
        yield [X0[0], second, X0[2]]
    for variable in (1, 2, 3, 256, 65535):
        yield [*X0[:2], (variable, 0, 1)]
    for link in (2, 3, 65536, 4294967295):
        yield [*X0[:2], (0, link, 1)]
        yield [*X0[:2], (0, 0, link)]
    for variable in (0, 1):
        yield [*X0, (variable, 2, 1)]
        yield [*X0, (variable, 0, 2)]
    yield [*terminal(3, 1), (1, 0, 3), (2, 0, 1), (0, 0, 2)]
    yield [*terminal(1, 1), (0, 0, 0)]
    yield [*X1, (1, 0, 1), (0, 2, 3)]


def damaged(dice, made):
    """One number of one entry replaced, often by a neighbour of what would be allowed."""
    place, part = dice.below(len(made)), dice.below(3)
    near = [place - 1, place, place + 1, made[0][0] - 1, made[0][0], made[0][0] + 1]
    far = [65535, 257, 256, 1, 0]
    numbers = near + far + ([] if part == 0 else [4294967295, 65536, 2147483648])
    entry = list(made[place])
    entry[part] = max(0, dice.one_of(numbers))
    return made[:place] + [tuple(entry)] + made[place + 1 :]


def written_sets(oracle, dice):
    yield from edge_sets()
    for n in SIZES:
        yield grown(oracle, dice, n, 2 + dice.below(4))
        yield ordered_set(dice, n, 4 + dice.below(5))
    yield ordered_set(dice, 256, MOST_WRITTEN)
    for _ in range(14):
        yield damaged(dice, grown(oracle, dice, dice.one_of(SIZES), 1 + dice.below(3)))


def negated_sets(oracle, dice):
    """The settled table's xor among them."""
    yield oracle.set("op", "xor", text(X0), text(X1))
    yield from edge_sets()
    for n in SIZES:
        yield from (terminal(n, 0), terminal(n, 1))
        made = grown(oracle, dice, n, 2 + dice.below(5))
        yield made
        yield negated(oracle, made)
        yield low_first(oracle, made)
        yield ordered_set(dice, n, 4 + dice.below(6))
    yield reduced(oracle, dice, 8, 30, MOST_ENTRIES)
    yield ordered_set(dice, 256, MOST_ENTRIES)
    for _ in range(10):
        yield damaged(dice, grown(oracle, dice, dice.one_of(SIZES), 2 + dice.below(3)))


def moved(made, place):
    """Entries place and place + 1 exchanged, with every link to them: an ordered set stays what it means."""
    swap = {place: place + 1, place + 1: place}
    order = [swap.get(i, i) for i in range(len(made))]
    return [(v, swap.get(l, l), swap.get(h, h)) for v, l, h in (made[i] for i in order)]


def repeated(dice, made):
    """One entry twice; the links behind it go to one or the other."""
    place = 2 + dice.below(len(made) - 2)
    up = lambda link: link + 1 if link > place or (link == place and dice.below(2)) else link
    return made[: place + 1] + [made[place]] + [(v, up(l), up(h)) for v, l, h in made[place + 1 :]]


def checked_sets(oracle, dice):
    """Sets that are in signing order, and sets that miss one thing only."""
    # Where the check of signing order would ask for the settings, n must be small.
    yield from (made for made in edge_sets() if made[2:] == [] or made[0][0] in SMALL)
    for n in SMALL:
        yield from (terminal(n, 0), terminal(n, 1))
        yield ordered_set(dice, n, 3 + dice.below(7))
    for n in SMALL[2:] + SMALL[5:]:
        made = reduced(oracle, dice, n, 5, 12)
        yield made
        yield negated(oracle, made)
        yield low_first(oracle, made)
        yield made[:-1]
        yield repeated(dice, made)
        yield damaged(dice, made)
        yield moved(made, 2 + dice.below(len(made) - 3))
    yield [*X0, (1, 0, 1)]
    yield [*X1, (1, 1, 0)]
    big = reduced(oracle, dice, 8, 30, MOST_ENTRIES)
    yield from (big, low_first(oracle, big), moved(big, len(big) // 2))


def lopsided(dice, made):
    """The three runs of a set, one of them cut or longer."""
    runs = [[entry[part] for entry in made] for part in range(3)]
    at = dice.below(3)
    runs[at] = dice.one_of([runs[at][:-1], runs[at][:1], [], runs[at] + [0], runs[at] + runs[at][-1:]])
    return runs
