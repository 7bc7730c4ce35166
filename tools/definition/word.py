"""The seeds of children and the random words of a shape, by the generator PCG XSH RR 64/32."""
from functools import lru_cache

MULTIPLIER = 6364136223846793005


def advanced(state, increment):
    return (state * MULTIPLIER + increment) % 2**64


def pcg32(state):
    """The word of 32 bits that a state gives."""
    word = (((state >> 18) ^ state) >> 27) % 2**32
    turn = state >> 59
    return (word >> turn | word << (32 - turn)) % 2**32


@lru_cache(maxsize=10000)
def word_of(seed, stream, n):
    """Word number n, from 0, of the generator that starts at this seed on this stream."""
    increment = (2 * stream + 1) % 2**64
    state = advanced((seed + increment) % 2**64, increment)
    for _ in range(n):
        state = advanced(state, increment)
    return pcg32(state)


def child_seed_of(seed, i):
    """The first two words of stream i + 1, the low half first."""
    return word_of(seed, i + 1, 0) + 2**32 * word_of(seed, i + 1, 1)


def shape_word_of(seed, n):
    """Word number n of a shape: that of stream 0 of its seed."""
    return word_of(seed, 0, n)
