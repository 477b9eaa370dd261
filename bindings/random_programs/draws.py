"""The choices that a program makes: numbers, which can be made again, and made smaller where the program fails."""

import random

import numpy as np


class Draws:
    """Choices by a seed, or those that are given, and then the least ones. `kept`, shared numbers of which the first counts the
    others, has all that were made, also where the process was killed."""

    def __init__(self, seed, given=None, kept=None):
        self._random = random.Random(seed)
        self._given = given
        self._kept = np.zeros(1 << 16, np.uint64) if kept is None else kept
        self._count = 0
        self._kept[0] = 0

    def below(self, count):
        """A whole number from 0 on, below a count."""
        if count <= 1:
            return 0
        if self._given is None:
            made = self._random.randrange(count)
        else:
            made = min(self._given[self._count], count - 1) if self._count < len(self._given) else 0
        self._count += 1
        if self._count < len(self._kept):
            self._kept[self._count] = made
            self._kept[0] = self._count
        return made

    def between(self, low, high):
        """A whole number from the low one to the high one."""
        return low + self.below(high - low + 1)

    def one_of(self, things):
        """One of these, of which the first one is the simplest."""
        things = list(things)
        return things[self.below(len(things))]

    def chance(self, one_in):
        """Whether it is so, once in as many times."""
        return self.below(one_in) == one_in - 1

    def numbers(self):
        """A source of many numbers at once, for elements."""
        return np.random.default_rng(self.below(1 << 16))

    def order(self, things):
        """These in any order."""
        things, ordered = list(things), []
        while things:
            ordered.append(things.pop(self.below(len(things))))
        return ordered


def made(kept):
    """The choices that were kept."""
    return [int(one) for one in kept[1 : int(kept[0]) + 1]]


def smaller(choices):
    """Choices that are fewer, or less, the boldest first."""
    size = len(choices)
    length = size // 2
    while length:
        for first in range(0, size, length):
            yield choices[:first] + choices[first + length :]
        length //= 2
    for place, choice in enumerate(choices):
        for less in sorted({0, choice // 2, choice - 1}):
            if 0 <= less < choice:
                yield [*choices[:place], less, *choices[place + 1 :]]
