"""What one job of each kind is on the list, with the crate's answer; README.md has the table."""
import paper
from driver import entries, text

NAMES = {8: "and", 14: "or", 11: "imp", 9: "iff", 6: "xor", 4: "and_not"}


def flat(made):
    return [number for entry in made for number in entry]


def sized(made):
    return [len(made), *flat(made)]


def terminal(oracle, kind, n):
    return [kind, n, *sized(oracle.set({1: "false", 2: "true"}[kind], n))]


def literal(oracle, n, variable, on):
    return [3, n, variable, on, *sized(oracle.set("literal", n, variable, on))]


def written(oracle, made):
    """The crate writes any set; the port refuses the ones that document 01 does not call ordered."""
    answer = oracle.ask("bytes", text(made))
    file = b"" if answer == "-" else bytes.fromhex(answer)
    assert len(file) == 10 * len(made)
    return [4, *sized(made), 0 if paper.ordered(made) else 2, *file]


def read(oracle, file):
    made = oracle.set("read", file.hex() or "-")
    assert len(made) == len(file) // 10
    return [5, len(file), *file, len(made), len(file) % 10, *flat(made)]


def negation(oracle, made):
    """The crate negates anything; the port refuses as above."""
    if not paper.ordered(made):
        return [6, *sized(made), 2, 0]
    return [6, *sized(made), 0, *sized(oracle.set("not", text(made)))]


def checks(runs):
    """Document 01 alone: the crate has no such checks."""
    made = list(zip(*runs)) if len(set(map(len, runs))) == 1 else []
    verdicts = [paper.ordered(made), paper.tidy(made), paper.signing(made)]
    return [7, *map(len, runs), *sum(runs, []), *map(int, verdicts)]


def function(oracle, operator, a, b):
    return [8, operator, a, b, int(oracle.ask("function", NAMES[operator], a, b))]


# The places of a table on the list, so that one of another length than nine can be lent.
TABLE_PLACES = 10


def options(table, flips, limit):
    """The table with its length, then flips and limit as number + 1, 0 for none."""
    padding = [0] * (TABLE_PLACES - len(table))
    return [len(table), *table, *padding, *(0 if o is None else o + 1 for o in (*flips, limit))]


def refused(dry, table, flips, limit, rooms, sets):
    """A job that refusals 1 to 6 stop, so that the crate is not asked; None where none of them holds."""
    answer = early(table, flips, *sets) or short_run(dry, rooms, sets[0])
    if not answer:
        return None
    end = [0, 0] if dry else [0]
    return [10 if dry else 9, *options(table, flips, limit), *rooms, *sized(sets[0]), *sized(sets[1]), answer, *end]


class Operator:
    """A table, three flips and two sets, with what the crate makes of them and what it counts."""

    def __init__(self, oracle, table, flips, left, right):
        self.oracle, self.table, self.flips, self.sets = oracle, table, flips, (left, right)
        self.array = entries(self.ask("apply", None))
        self.holds, self.count = map(int, self.ask("dry", None).split())

    def ask(self, job, limit):
        shown = ["-" if option is None else option for option in (*self.flips, limit)]
        return self.oracle.ask(job, "".join(map(str, self.table)), *shown, *map(text, self.sets))

    def operands(self):
        return sized(self.sets[0]) + sized(self.sets[1])

    def height(self):
        """The shortest stack that is enough."""
        return 2 * self.sets[0][0][0] + 1

    def pairs(self):
        """T of document 01."""
        return max(self.count, 1)

    def size(self):
        return len(self.array)

    def job(self, limit, width, room):
        answer = refusal(self.pairs() > room, self.size(), limit, width)
        if limit is not None:
            over = self.size() > limit
            assert self.ask("apply", limit) == ("over" if over else text(self.array))
        made = [] if answer else self.array
        lent = [width, room, self.height(), width]
        return [9, *options(self.table, self.flips, limit), *lent, *self.operands(), answer, *sized(made)]

    def dry_job(self, limit, room):
        answer = 0
        if limit is not None and limit <= room:
            answer = 8 if self.count > limit else 0
        elif self.count > room:
            answer = 7
        if limit is not None:
            over = self.count > limit
            assert self.ask("dry", limit) == ("over" if over else f"{self.holds} {self.count}")
        told = [self.holds, self.count]
        lent = [room, self.height()]
        return [10, *options(self.table, self.flips, limit), *lent, *self.operands(), answer, *told]


def early(table, flips, left, right):
    """Rows 1 to 5 of document 01, in its order; 0 where none of them holds."""
    if len(table) != 9 or max(table) > 2 or not paper.good(table):
        return 1
    if not paper.ordered(left):
        return 2
    if not paper.ordered(right):
        return 3
    n = left[0][0]
    if right[0][0] != n:
        return 4
    return 5 if any(option is not None and option >= n for option in flips) else 0


def short_run(dry, rooms, left):
    """Row 6: the stack, and but for the dry run the index run."""
    height = rooms[1] if dry else rooms[2]
    if height < 2 * left[0][0] + 1:
        return 6
    return 6 if not dry and rooms[3] < rooms[0] else 0


def refusal(short, size, limit, width):
    """Rows 7, 8 and 9 of document 01, in its order; 0 where none of them holds."""
    if short:
        return 7
    if limit is not None and size > limit and limit <= width:
        return 8
    if size > width and (limit is None or width < limit):
        return 9
    return 0
