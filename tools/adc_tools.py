"""What the scripts share: files of vectors and books as numpy arrays, made vectors, and exact neighbours.

A script that needs more than Python calls `need` first, which says what to install.
"""
import importlib.util
import os
import struct
import sys

PACKAGES = {"numpy": "python3-numpy", "faiss": "python3-faiss"}
MISSING = 3
SYSTEM = "/usr/bin/python3"

# the widths of the fields of a 16-bit word of a code, in the order of the shapes' numbers
SHAPES = {"4-4-4-4": (4, 4, 4, 4), "5-5-5": (5, 5, 5), "6-6-4": (6, 6, 4), "8-8": (8, 8)}

# what a component of a word of a residual book is above the number that it stands for
MIDDLE = 32768


def need(*names):
    """Goes on if these modules are there. Debian's belong to /usr/bin/python3, so that one is tried too."""
    # (threads that wait do not spin: beside other work, spinning makes k-means many times slower)
    os.environ.setdefault("OMP_WAIT_POLICY", "passive")
    missing = [name for name in names if importlib.util.find_spec(name) is None]
    if not missing:
        return
    if os.path.realpath(sys.executable) != os.path.realpath(SYSTEM) and os.path.exists(SYSTEM):
        os.execv(SYSTEM, [SYSTEM, *sys.argv])
    packages = " ".join(PACKAGES[name] for name in missing)
    fail(f"python3 has no {' and no '.join(missing)}; on Debian: apt-get install {packages}", MISSING)


def note(message):
    print(f"{os.path.basename(sys.argv[0])}: {message}", file=sys.stderr)


def fail(message, status=1):
    note(message)
    sys.exit(status)


# Files of vectors: rows that each begin with their length, as 4 bytes.


def read_rows(path, component):
    """The rows of a bvecs (component 'u1'), ivecs ('<i4') or fvecs ('<f4') file, as an array of rows."""
    import numpy

    raw = numpy.fromfile(path, dtype="u1")
    if not len(raw):
        return numpy.zeros((0, 0), component)
    if len(raw) < 4:
        fail(f"{path} ends within the length of a row")
    d = int(raw[:4].view("<u4")[0])
    size = 4 + d * numpy.dtype(component).itemsize
    if d == 0 or len(raw) % size or (raw.reshape(-1, size)[:, :4].copy().view("<u4") != d).any():
        fail(f"{path} is no file of rows of one length")
    return raw.reshape(-1, size)[:, 4:].copy().view(component)


def write_rows(path, rows, component):
    import numpy

    rows = numpy.ascontiguousarray(rows, dtype=component)
    lengths = numpy.full((len(rows), 1), rows.shape[1], "<u4")
    with open(path, "wb") as it:
        it.write(numpy.hstack([lengths.view("u1"), rows.view("u1")]).tobytes())


def read_bvecs(path):
    return read_rows(path, "u1")


def read_ivecs(path):
    return read_rows(path, "<i4")


def read_fvecs(path):
    return read_rows(path, "<f4")


def write_bvecs(path, rows):
    write_rows(path, rows, "u1")


# Books.


def book_bytes(d, h, shape, groups, scale, lengths, coarse, subs):
    """The file of a book: version 1 if the scale is None, else version 2. Words are arrays, a row each, of whole numbers."""
    version = 1 if scale is None else 2
    component = "u1" if version == 1 else "<u2"
    head = f"ADCBOOK{version}".encode()
    head += struct.pack("<4HBB", d, h, len(coarse[0]), len(coarse[1]), list(SHAPES).index(shape), groups)
    head += b"" if scale is None else bytes([scale])
    head += struct.pack(f"<{len(lengths)}H", *lengths)
    return head + b"".join(words.astype(component).tobytes() for words in [*coarse, *subs])


def read_book(path):
    """The parts of a book's file, by name. The file is taken to be valid."""
    import numpy

    with open(path, "rb") as it:
        data = it.read()
    version = int(data[7:8])
    d, h, k0, k1, number, groups = struct.unpack_from("<4HBB", data, 8)
    shape = list(SHAPES)[number]
    widths = SHAPES[shape] * groups
    at = 18 if version == 1 else 19
    lengths = struct.unpack_from(f"<{len(widths)}H", data, at)
    words = numpy.frombuffer(data, "u1" if version == 1 else "<u2", offset=at + 2 * len(widths)).astype("i8")
    sizes = [(k0, h), (k1, d - h), *[(2**width, length) for width, length in zip(widths, lengths)]]
    lists = [part.reshape(size) for part, size in zip(numpy.split(words, numpy.cumsum([a * b for a, b in sizes])), sizes)]
    scale = 0 if version == 1 else data[18]
    return dict(version=version, d=d, h=h, shape=shape, groups=groups, scale=scale, lengths=lengths, coarse=lists[:2], subs=lists[2:])


# Made vectors.


def made_vectors(count, d, seed, part=0):
    """Vectors of bytes in 256 clusters that overlap: centers, around each a plane of 24 dimensions, and noise beside it.

    The centers and planes come from the seed alone, and the vectors from the seed and the part: so a base, a training set
    and queries of one seed and different parts lie alike and have no vector in common.
    """
    import numpy

    clusters, across = 256, 24
    lie = numpy.random.default_rng(seed)
    centers = 128 + lie.normal(0, 25, (clusters, d))
    planes = lie.normal(0, 6, (clusters, across, d))
    chance = numpy.random.default_rng((seed, part + 1))
    cluster = chance.integers(0, clusters, count)
    along = chance.normal(0, 1, (count, across))
    vectors = centers[cluster] + chance.normal(0, 6, (count, d))
    for n in range(clusters):
        vectors[cluster == n] += along[cluster == n] @ planes[n]
    return numpy.clip(numpy.rint(vectors), 0, 255).astype("u1")


# Exact neighbours.


def nearest(base, queries, k):
    """For each query the numbers of the k nearest rows of the base, by (squared distance, number)."""
    import numpy

    rows = base.astype("f8")
    lengths = (rows * rows).sum(axis=1)
    found = []
    for query in queries.astype("f8"):
        distances = lengths - 2 * (rows @ query)
        # (sums of squares of bytes are whole numbers that a double holds exactly, so ties are ties)
        found.append(numpy.lexsort((numpy.arange(len(rows)), distances))[:k])
    return numpy.array(found, "<i4")


def recall(found, truth, k):
    """The share of the first k of each row of truth that are among the first k of the same row of found."""
    hits = sum(len(set(map(int, f[:k])) & set(map(int, t[:k]))) for f, t in zip(found, truth))
    return hits / max(1, sum(len(t[:k]) for t in truth))
