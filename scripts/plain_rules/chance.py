"""A small generator of pseudo random numbers."""

MASK = (1 << 64) - 1


class Chance:
    """Numbers that look random, and are the same in each run from one seed on."""

    def __init__(self, seed):
        self.state = (seed * 0x9E37_79B9_7F4A_7C15 & MASK) | 1

    def next(self):
        """The next number, of 32 bits."""
        x = self.state
        x ^= x << 13 & MASK
        x ^= x >> 7
        x ^= x << 17 & MASK
        self.state = x
        return (x * 0x2545_F491_4F6C_DD1D & MASK) >> 32

    def below(self, count):
        """A number below this one: 0 below 0."""
        number = self.next()
        return number % count if count else 0

    def is_met(self, times):
        """Whether something happens that happens so many times in a thousand."""
        return self.below(1000) < times

    def one_of(self, numbers, otherwise):
        """One of the numbers, or else the other one where there is none."""
        at = self.below(len(numbers))
        return numbers[at] if numbers else otherwise
