"""Numbers of a fixed generator, xoshiro256++ seeded by SplitMix64, as the crate `draws` has them."""

MASK = (1 << 64) - 1


def _splitmix(state: int) -> int:
    """The number that SplitMix64 gives at a state."""
    number = (state ^ state >> 30) * 0xBF58476D1CE4E5B9 & MASK
    number = (number ^ number >> 27) * 0x94D049BB133111EB & MASK
    return number ^ number >> 31


def _rotated(number: int, count: int) -> int:
    """A number of 64 bits, rotated to the left."""
    return (number << count | number >> 64 - count) & MASK


class Draws:
    """What is drawn from a generator."""

    def __init__(self, seed: int) -> None:
        self._state = [_splitmix(seed + place * 0x9E3779B97F4A7C15 & MASK) for place in range(1, 5)]

    def double_word(self) -> int:
        """A number of 64 bits."""
        a, b, c, d = self._state
        drawn = _rotated(a + d & MASK, 23) + a & MASK
        c, d = c ^ a, d ^ b
        self._state = [a ^ d, b ^ c, c ^ b << 17 & MASK, _rotated(d, 45)]
        return drawn

    def word(self) -> int:
        """A number of 32 bits."""
        return self.double_word() >> 32

    def below(self, bound: int) -> int:
        """A number below a bound."""
        return self.word() % bound
