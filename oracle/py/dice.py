"""Chance from a fixed seed, the same on every machine and in every version of Python."""


class Dice:
    def __init__(self, seed):
        self.state = seed

    def word(self):
        """splitmix64."""
        self.state = (self.state + 0x9E3779B97F4A7C15) & (2**64 - 1)
        z = self.state
        z = ((z ^ (z >> 30)) * 0xBF58476D1CE4E5B9) & (2**64 - 1)
        z = ((z ^ (z >> 27)) * 0x94D049BB133111EB) & (2**64 - 1)
        return z ^ (z >> 31)

    def below(self, bound):
        return self.word() % bound

    def one_of(self, things):
        return things[self.below(len(things))]


def ordered_set(dice, n, length):
    """Any ordered set: not tidy as a rule, some entries not reached from the root."""
    variables = [dice.below(n) for _ in range(length - 2 if n > 0 else 0)]
    if dice.below(4):
        # Small variables last let the root reach far down; the rest leaves more entries unreached.
        variables.sort(reverse=True)
    entries = [(n, 0, 0), (n, 1, 1)][:length]
    for variable in variables:
        later = [i for i, entry in enumerate(entries) if entry[0] > variable]
        recent = later[-4:]
        entries.append((variable, dice.one_of(recent), dice.one_of(dice.one_of([recent, later]))))
    return entries
