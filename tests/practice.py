#!/usr/bin/env python3
"""Practice cards by document 02 section 1, written from its paragraph alone: prints the card of each start that is named, in hex."""
import sys
from itertools import accumulate

from cards import card


def draws(start):
    """The generator's numbers, one after the other: each is the new state of 32 bits."""
    s = start
    while True:
        s ^= (s << 13) % 2**32
        s ^= s >> 17
        s ^= (s << 5) % 2**32
        yield s


def practice_card(start):
    """The bytes of the practice card of a start from 1 to 4,294,967,295."""
    if not 0 < start < 2**32:
        raise ValueError(f"start {start} is not 1 to 4,294,967,295")
    numbers = draws(start)
    draw = lambda modulus: next(numbers) % modulus
    m, q, t = 1 + draw(200), 1 + draw(200), draw(65)
    up, down = draw(1001), draw(1001)
    first = draw(1001)
    differences = accumulate([draw(11), *(draw(4) for _ in range(q - 1))])
    table = list(accumulate(differences, initial=first))
    return card(m, q, up, down, table, [draw(m * q + 1) for _ in range(t)])


if __name__ == "__main__":
    for word in sys.argv[1:]:
        print(f"{word}: {practice_card(int(word)).hex(' ').upper()}")
