"""Random books of any shape, for scripts that compare the program with the definitions."""
import numpy

import adc_tools as tools


def cut(chance, total, count):
    """`count` lengths of at least 1 that add up to the total."""
    places = sorted(chance.sample(range(1, total), count - 1))
    return [b - a for a, b in zip([0, *places], [*places, total])]


def make_book(chance, numbers, shape, version, few, groups, d, coarse, residual=False):
    """A random book, written to the file `book`, and the greatest component of its vectors. A residual book has version 2."""
    widths = tools.SHAPES[shape] * groups
    scale = None if version == 1 else chance.choice([0, 1, 4, 8])
    greatest = 3 if few else 255
    limit = greatest * 2 ** (scale or 0) + 1
    lengths = cut(chance, d, len(widths))
    h = sum(lengths[: chance.randrange(1, len(lengths))]) if residual else chance.randrange(1, d)
    words = lambda count, length: numbers.integers(0, limit, (count, length))
    subs = [words(2**width, length) for width, length in zip(widths, lengths)]
    if residual:
        # (components of residuals are on both sides of 0)
        subs = [numpy.minimum(65535, tools.MIDDLE - limit // 2 + list) for list in subs]
    data = tools.book_bytes(d, h, shape, groups, scale, lengths, [words(coarse[0], h), words(coarse[1], d - h)], subs)
    with open("book", "wb") as it:
        it.write(data)
    return greatest
