"""Keys of one hash, for whoever knows the seed: SipHash, the seed of a text, and numbers that bring a sum near another.

The memo hashes a key as a sum of its words, each times a word of the seed. So whoever knows the seed can solve for keys
whose sums agree in their upper bits. It is the seed of a program that begins with the source text and nothing else, as
the server's did.
"""
import hashlib
import random

WORDS = 1 << 64


def turned(x, by):
    return (x << by | x >> (64 - by)) % WORDS


class Sip:
    """SipHash with one round for each word and three at the end, by the key 0."""

    def __init__(self, data=b''):
        self.state = [0x736F6D6570736575, 0x646F72616E646F6D, 0x6C7967656E657261, 0x7465646279746573]
        self.data = data

    def then(self, *numbers):
        """The hash with more numbers of 64 bits."""
        return Sip(self.data + b''.join(it.to_bytes(8, 'little') for it in numbers))

    def round(self):
        a, b, c, d = self.state
        a, c = (a + b) % WORDS, (c + d) % WORDS
        b, d, a = turned(b, 13) ^ a, turned(d, 16) ^ c, turned(a, 32)
        c, a = (c + b) % WORDS, (a + d) % WORDS
        self.state = [a, turned(b, 17) ^ c, turned(c, 32), turned(d, 21) ^ a]

    def take(self, word):
        self.state[3] ^= word
        self.round()
        self.state[0] ^= word

    def value(self):
        whole = len(self.data) // 8 * 8
        for at in range(0, whole, 8):
            self.take(int.from_bytes(self.data[at : at + 8], 'little'))
        self.take(len(self.data) % 256 << 56 | int.from_bytes(self.data[whole:], 'little'))
        self.state[2] ^= 255
        for _ in range(3):
            self.round()
        return self.state[0] ^ self.state[1] ^ self.state[2] ^ self.state[3]


def words_of(text, count=16):
    """The words of the memo's seed where only this text has made it."""
    seed = Sip(hashlib.sha512(text.encode()).digest())
    start = Sip().then(seed.then(0).value(), seed.then(1).value())
    return [start.then(at).value() for at in range(count)]


def least(factor, low, high, modulus=WORDS):
    """The least x for which x times the factor is from low to high, modulo the modulus; None if there is none."""
    if low == 0:
        return 0
    factor %= modulus
    if factor == 0:
        return None
    if 2 * factor > modulus:
        factor, low, high = modulus - factor, modulus - high, modulus - low
    first = -(-low // factor)
    if first * factor <= high:
        return first
    more = least(-modulus % factor, low % factor, high % factor, factor)
    return None if more is None else -(-(low + modulus * more) // factor)


def number_near(words, at, target, draw):
    """A number whose halves, times two words of the seed, come to at most 2^32 more than the target."""
    while True:
        upper = draw.getrandbits(32)
        low = (target - words[at + 1] * upper) % WORDS
        if low + 2**32 <= WORDS:
            lower = least(words[at], low, low + 2**32 - 1)
            if lower is not None and lower < 2**32:
                return upper << 32 | lower


def signed(number):
    return number - WORDS if number >= WORDS // 2 else number


def colliding_keys(text, chain, count):
    """Pairs of pairs of arguments: any first pair with any second pair is a key, and all keys have one hash."""
    draw, words = random.Random(7 + chain), words_of(text)
    base = words[0] * 17 % WORDS
    for at in range(count):
        a = 2 * at + chain
        b = number_near(words, 5, -words[3] * a % WORDS, draw)
        d = number_near(words, 9, (-base - words[7] * a) % WORDS, draw)
        yield a, signed(b), a, signed(d)
