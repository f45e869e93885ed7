"""Chance that a seed decides: the same in every release of Python, so that a run can be repeated anywhere."""

import hashlib


class Chance:
    """A stream of bytes worked out from a seed, and the choices made with it."""

    BLOCK = 1 << 15

    def __init__(self, seed):
        self.seed = seed.encode("utf-8")
        self.blocks = 0
        self.block = b""
        self.at = 0

    def bytes(self, count):
        """The next bytes of the stream."""
        while len(self.block) - self.at < count:
            more = hashlib.shake_256(self.blocks.to_bytes(8, "big") + self.seed).digest(self.BLOCK)
            self.block, self.at = self.block[self.at :] + more, 0
            self.blocks += 1
        self.at += count
        return self.block[self.at - count : self.at]

    def below(self, bound):
        """A number from 0 up to, and without, the bound."""
        return int.from_bytes(self.bytes(8), "big") % bound

    def between(self, least, most):
        """A number from least to most, both among them."""
        return least + self.below(most - least + 1)

    def once_in(self, count):
        """True once in so many times."""
        return self.below(count) == 0

    def one(self, row):
        """One of a row, each as likely as the next."""
        return row[self.below(len(row))]

    def weighed(self, row):
        """One of a row of weights and things, each as likely as its weight says."""
        left = self.below(sum(weight for weight, _ in row))
        for weight, thing in row:
            if left < weight:
                return thing
            left -= weight
        raise AssertionError("the weights do not sum up")
