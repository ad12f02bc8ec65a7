"""The random words of a seed: ChaCha20 with the seed as key, and with the number of a stream as nonce."""
import struct

WORD = 0xFFFFFFFF
EACH = 16
MOST_WORDS = 256


class Spent(Exception):
    """An action asked for one word too many."""


def quarter(words, a, b, c, d):
    for one, other, third, turn in ((a, b, d, 16), (c, d, b, 12), (a, b, d, 8), (c, d, b, 7)):
        words[one] = (words[one] + words[other]) & WORD
        mixed = words[third] ^ words[one]
        words[third] = (mixed << turn & WORD) | mixed >> (32 - turn)


def block(seed, count, stream):
    """The words of a block."""
    start = [0x61707865, 0x3320646E, 0x79622D32, 0x6B206574, *struct.unpack("<8I", seed), count & WORD, count >> 32, stream & WORD, stream >> 32]
    words = list(start)
    for _ in range(10):
        for at in ((0, 4, 8, 12), (1, 5, 9, 13), (2, 6, 10, 14), (3, 7, 11, 15), (0, 5, 10, 15), (1, 6, 11, 12), (2, 7, 8, 13), (3, 4, 9, 14)):
            quarter(words, *at)
    return [(one + other) & WORD for one, other in zip(words, start)]


class Dice:
    """The words of a stream of a seed from a place on, at most 256 in an action."""

    def __init__(self, seed, stream=0, place=0):
        self.seed, self.stream, self.place, self.left = seed, stream, place, MOST_WORDS
        self.count, self.words = None, []

    def begin(self):
        """An action begins."""
        self.left = MOST_WORDS

    def word(self):
        if self.left == 0:
            raise Spent
        self.left -= 1
        count, at = divmod(self.place, EACH)
        if count != self.count:
            self.count, self.words = count, block(self.seed, count, self.stream)
        self.place += 1
        return self.words[at]

    def die(self, faces):
        return 1 + (self.word() * faces >> 32)

    def below(self, bound):
        """A number below another one, as an action of its own."""
        self.begin()
        return self.die(bound) - 1
