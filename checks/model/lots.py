"""Numbers at random from a seed, the same on every machine."""

MASK = (1 << 64) - 1
LIMITS = (0, 1, 2, 4, 7, 8, 15, 16, 63, 64, 65, 255, 256, 1023, 1024, 1025, 65535, 65536, 2**32 - 1, 2**32, 2**62, 2**63, MASK)


class Lots:
    """A generator (splitmix64)."""

    def __init__(self, seed):
        self.state = seed

    def next(self):
        """Returns the next 64 bits."""
        self.state = self.state + 0x9E3779B97F4A7C15 & MASK
        mixed = (self.state ^ self.state >> 30) * 0xBF58476D1CE4E5B9 & MASK
        mixed = (mixed ^ mixed >> 27) * 0x94D049BB133111EB & MASK
        return mixed ^ mixed >> 31

    def below(self, limit):
        """Returns a number below a limit."""
        return self.next() % limit

    def once_in(self, times):
        """Returns whether something happens that does so once in `times` times, at random."""
        return self.below(times) == 0

    def pick(self, things):
        """Returns one of some things."""
        return things[self.below(len(things))]

    def weighed(self, weights):
        """Returns one of the keys, each as often as its weight says."""
        left = self.below(sum(weights.values()))
        for key, weight in weights.items():
            if left < weight:
                return key
            left -= weight
        raise AssertionError

    def near(self, usual, limit):
        """Returns a number that is mostly the usual one, now and then below a limit, and at times a limit of something."""
        if self.once_in(24):
            return self.pick(LIMITS)
        return self.below(limit) if self.once_in(5) else usual
