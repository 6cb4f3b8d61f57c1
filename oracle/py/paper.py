"""Document 01 read afresh: what is ordered, what a set means, which array stands for it.

Nothing here looks at the Rust. Sets are lists of (variable, low, high); a function of n options
is a list of 2^n values, option 0 the highest bit of the place, so that off halves come first.
"""
import itertools

LARGEST_N = 256
LARGEST_L = 4096


def ordered(entries):
    if not 1 <= len(entries) <= LARGEST_L or entries[0][0] > LARGEST_N:
        return False
    n = entries[0][0]
    if entries[:2] != [(n, 0, 0), (n, 1, 1)][: len(entries)]:
        return False
    return all(entry_ordered(entries, i, n) for i in range(2, len(entries)))


def entry_ordered(entries, i, n):
    variable, low, high = entries[i]
    if variable >= n or low >= i or high >= i:
        return False
    return entries[low][0] > variable and entries[high][0] > variable


def tidy(entries):
    inner = entries[2:]
    return ordered(entries) and all(l != h for _, l, h in inner) and len(set(inner)) == len(inner)


def signing(entries):
    """One entry is false and two are true; else the array is the one array of its own value."""
    if not ordered(entries):
        return False
    return len(entries) < 3 or entries == signed(1, entries[0][0], function(entries))


def settings(n):
    return list(itertools.product((0, 1), repeat=n))


def value(entries, setting):
    i = len(entries) - 1
    while i > 1:
        variable, low, high = entries[i]
        i = high if setting[variable] else low
    return i


def function(entries):
    return [value(entries, setting) for setting in settings(entries[0][0])]


def signed(first, n, values):
    """The one array of a function; side `first` (1 high, 0 low) is written before the other."""
    terminals = [(n, 0, 0), (n, 1, 1)]
    if not any(values):
        return terminals[:1]
    written = []
    write(first, 0, values, written)
    return terminals + written


def write(first, variable, values, written):
    if len(values) == 1:
        return values[0]
    half = len(values) // 2
    sides = (values[:half], values[half:])
    ends = {first: write(first, variable + 1, sides[first], written)}
    ends[1 - first] = write(first, variable + 1, sides[1 - first], written)
    if ends[0] == ends[1]:
        return ends[0]
    entry = (variable, ends[0], ends[1])
    if entry not in written:
        written.append(entry)
    return 2 + written.index(entry)


def good(table):
    """Knowns have an answer; an answer stands at every filling; all unknown decides only if all agree."""
    for a, b in itertools.product(range(3), repeat=2):
        fillings = {table[3 * x + y] for x in fill(a) for y in fill(b)}
        answer = table[3 * a + b]
        if answer == 2 and 2 not in (a, b):
            return False
        between = {table[3 * x + y] for x in fill(a) | {a} for y in fill(b) | {b}}
        if answer != 2 and (fillings != {answer} or between != {answer}):
            return False
    return True


def fill(a):
    return {0, 1} if a == 2 else {a}


def operator(number):
    """Bit 2a+b at knowns; 2 exactly where the fillings disagree."""
    def at(a, b):
        fillings = {number >> (2 * x + y) & 1 for x in fill(a) for y in fill(b)}
        return fillings.pop() if len(fillings) == 1 else 2

    return [at(a, b) for a in range(3) for b in range(3)]


def switched(setting, option):
    if option is None:
        return setting
    return setting[:option] + (1 - setting[option],) + setting[option + 1 :]


def operated(table, flips, left, right):
    def at(setting):
        setting = switched(setting, flips[2])
        a = value(left, switched(setting, flips[0]))
        return table[3 * a + value(right, switched(setting, flips[1]))]

    return [at(setting) for setting in settings(left[0][0])]


def dry(table, flips, left, right):
    """Can it hold, and c: the different undecided pairs reached from the two roots."""
    holds, reached, waiting = 0, set(), [(len(left) - 1, len(right) - 1)]
    while waiting:
        a, b = pair = waiting.pop()
        answer = table[3 * min(a, 2) + min(b, 2)]
        if answer != 2:
            holds |= answer
        elif pair not in reached:
            reached.add(pair)
            variable = min(left[a][0], right[b][0])
            ways = zip(children(left, a, variable, flips[0]), children(right, b, variable, flips[1]))
            waiting.extend(ways)
    return holds, len(reached)


def children(entries, i, variable, flip):
    if entries[i][0] != variable:
        return i, i
    _, low, high = entries[i]
    return (high, low) if variable == flip else (low, high)


def quantified(entries, option, join):
    def at(setting):
        return join(value(entries, setting), value(entries, switched(setting, option)))

    return [at(setting) for setting in settings(entries[0][0])]


def selected(entries, option, wanted):
    every = settings(entries[0][0])
    return [value(entries, s) if s[option] == wanted else 0 for s in every]


def restricted(entries, values):
    put = lambda s: tuple(v if w == 2 else w for v, w in zip(s, values))
    return [value(entries, put(setting)) for setting in settings(entries[0][0])]


def picked(entries, options):
    """Of the allowed settings that agree elsewhere, the first when read from the smallest option."""
    kept, seen = [], set()
    for setting in settings(entries[0][0]):
        others = tuple(v for i, v in enumerate(setting) if i not in options)
        keep = value(entries, setting) == 1 and others not in seen
        kept.append(int(keep))
        if keep:
            seen.add(others)
    return kept


def negated(entries):
    n = entries[0][0]
    if len(entries) < 3:
        return [(n, 0, 0), (n, 1, 1)][: 3 - len(entries)]
    swap = lambda link: 1 - link if link < 2 else link
    return entries[:2] + [(v, swap(low), swap(high)) for v, low, high in entries[2:]]
