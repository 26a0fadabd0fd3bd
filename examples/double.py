"""The expected output and files of `adc`, computed by a plain program of the definitions (docs/DEFINITIONS.md) with numpy."""
import bisect
import struct

import numpy

import adc_tools as tools

MAX_ID, MAX_ROWS, MAX_K, MAX_WANTED = 2147483647, 4194304, 1000, 4194304


def distances(book, words, x):
    """The squared distance of some components of a vector to each word."""
    return ((x.astype("i8") * 2 ** book["scale"] - words) ** 2).sum(axis=1)


def parts(book, vector):
    return [vector[: book["h"]], vector[book["h"] :]]


def slices(book, vector):
    return numpy.split(vector, numpy.cumsum(book["lengths"])[:-1])


def nearest_words(book, lists, pieces):
    # (argmin gives the first of the least)
    return [int(distances(book, words, x).argmin()) for words, x in zip(lists, pieces)]


class Bounds:
    """Which visited rows of a query are full: the first k, and those whose bound is not above the threshold."""

    def __init__(self, tables, codes, k, pairs):
        self.k, self.pairs = k, pairs
        self.bases = [int(table.min()) for table in tables]
        self.tables, self.codes = tables, codes

    def count(self):
        if len(self.pairs) <= self.k:
            return len(self.pairs)
        nearest = sorted(distance for distance, _ in self.pairs[: self.k])
        base = sum(self.bases)
        step = (nearest[-1] - base) // 255 + 1
        small = [numpy.minimum(255, (table - least) // step) for table, least in zip(self.tables, self.bases)]
        bounds = numpy.minimum(255, sum(entries[self.codes[:, j]] for j, entries in enumerate(small)))
        full = self.k
        for n in range(self.k, len(self.pairs)):
            full += int(bounds[n]) <= (nearest[-1] - base) // step
            bisect.insort(nearest, self.pairs[n][0])
            nearest.pop()
        return full


class Double:
    """A book, vectors, and the live rows: ids in order of insertion, with the cell and the code of each."""

    def __init__(self, book, base, queries):
        self.book, self.base, self.queries = book, base, queries
        count = len(book["coarse"][1])
        words = [nearest_words(book, book["coarse"], parts(book, vector)) for vector in base]
        self.cells = [a * count + b for a, b in words]
        self.codes = numpy.array([nearest_words(book, book["subs"], slices(book, vector)) for vector in base])
        self.rows = {}

    def play(self, script):
        """The lines of a script, and the end line."""
        for line in script:
            verb, *words = line.split()
            yield from getattr(self, verb)(*words)
        yield f"end commands {len(script)} live {len(self.rows)}"

    def insert(self, id, row):
        id, row = int(id), int(row)
        cause = self.row_cause(id, row) or ("present" if id in self.rows else "full" if len(self.rows) >= MAX_ROWS else None)
        if cause:
            yield f"insert {id} refused {cause}"
            return
        self.rows[id] = row
        yield f"insert {id} cell {self.cells[row]}"

    def delete(self, id):
        id = int(id)
        cause = "id" if id > MAX_ID else None if id in self.rows else "absent"
        if cause:
            yield f"delete {id} refused {cause}"
            return
        del self.rows[id]
        yield f"delete {id}"

    def put(self, id, row):
        id, row = int(id), int(row)
        replaced = id in self.rows
        cause = self.row_cause(id, row) or ("full" if not replaced and len(self.rows) >= MAX_ROWS else None)
        if cause:
            yield f"put {id} refused {cause}"
            return
        self.rows.pop(id, None)
        self.rows[id] = row
        yield f"put {id} cell {self.cells[row]} {'replaced' if replaced else 'added'}"

    def row_cause(self, id, row):
        return "row" if row >= len(self.base) else "id" if id > MAX_ID else None

    def query(self, row, k, wanted, *ids):
        row, k, wanted = int(row), int(k), int(wanted)
        low, high = (int(ids[1]), int(ids[2])) if ids else (0, MAX_ID)
        if row >= len(self.queries) or not 1 <= k <= MAX_K or not 1 <= wanted <= MAX_WANTED:
            yield f"query {row} refused {'row' if row >= len(self.queries) else 'k' if not 1 <= k <= MAX_K else 'wanted'}"
            return
        cells, pairs, tables, codes = self.visited(self.queries[row], wanted, [id for id in self.rows if low <= id <= high])
        yield f"query {row} cells {cells} live {len(pairs)} full {Bounds(tables, codes, k, pairs).count()}"
        for distance, id in sorted(pairs)[:k]:
            yield f"hit {id} {distance}"

    def visited(self, vector, wanted, passing):
        """How many cells a query visits, the (distance, id) pairs of the passing rows in them in order, its tables and their codes."""
        cells = self.visit(vector, wanted, passing)
        visited = [id for _, ids in cells for id in ids]
        tables = [distances(self.book, words, x) for words, x in zip(self.book["subs"], slices(self.book, vector))]
        codes = self.codes[[self.rows[id] for id in visited]]
        far = sum((table[codes[:, j]] for j, table in enumerate(tables)), numpy.zeros(len(visited), "i8")) if visited else []
        return len(cells), [(int(distance), id) for distance, id in zip(far, visited)], tables, codes

    def visit(self, vector, wanted, passing):
        """The cells that a query visits, in order: the number of each, and its passing rows."""
        sums = [distances(self.book, words, x) for words, x in zip(self.book["coarse"], parts(self.book, vector))]
        # (a stable sort: equal sums go by number)
        order = (sums[0][:, None] + sums[1][None, :]).ravel().argsort(kind="stable")
        held = {}
        for id in passing:
            held.setdefault(self.cells[self.rows[id]], []).append(id)
        cells, count = [], 0
        while count < min(wanted, len(passing)):
            cell = int(order[len(cells)])
            cells.append((cell, held.get(cell, [])))
            count += len(cells[-1][1])
        return cells


def same_lines(printed, due):
    """The first line that is printed otherwise than is due, as (number, printed, due). Query lines may end before their full count."""
    has_full = any(line.startswith("query") and " full " in line for line in printed)
    due = [line if has_full or not line.startswith("query") else line.split(" full ")[0] for line in due]
    for n in range(max(len(printed), len(due))):
        pair = [lines[n] if n < len(lines) else "(no line)" for lines in (printed, due)]
        if pair[0] != pair[1]:
            return n + 1, *pair
    return None


# Index files, and what is asked of them.


def code_bytes(book, code):
    """The 16-bit words of a code: the fields of a word from its low bits up."""
    widths = tools.SHAPES[book["shape"]]
    words = []
    for at in range(0, len(code), len(widths)):
        word, shift = 0, 0
        for value, width in zip(code[at : at + len(widths)], widths):
            word |= int(value) << shift
            shift += width
        words.append(word)
    return struct.pack(f"<{len(words)}H", *words)


def ids_row(k, ids):
    """A row of an ivecs file: k numbers, the ids and then -1."""
    return struct.pack(f"<{k + 1}i", k, *(list(ids)[:k] + [-1] * k)[:k])


class IndexDouble(Double):
    """A base that was built: each row under its number."""

    def __init__(self, book, base, queries):
        super().__init__(book, base, queries)
        self.rows = {n: n for n in range(len(base))}

    def groups(self):
        """The ids of each cell that has one, by rising cell."""
        held = {}
        for id, row in self.rows.items():
            held.setdefault(self.cells[row], []).append(id)
        return sorted(held.items())

    def index(self, book_bytes, version):
        """The bytes of the index."""
        groups = self.groups()
        front = f"ADCINDX{version}".encode() + struct.pack("<I", len(book_bytes)) + book_bytes + struct.pack("<I", len(self.rows))
        row = lambda id: code_bytes(self.book, self.codes[self.rows[id]])
        if version == 1:
            return front + b"".join(struct.pack("<II", id, cell) + row(id) for cell, ids in groups for id in ids)
        parts = [struct.pack("<I", len(groups))]
        for cell, ids in groups:
            parts += [struct.pack("<II", cell, len(ids)), *(struct.pack("<I", id) + row(id) for id in ids)]
        return front + b"".join(parts)

    def built(self, verb):
        return [f"{verb} rows {len(self.rows)} cells {len(self.groups())}"]

    def info(self):
        b, (k0, k1) = self.book, [len(words) for words in self.book["coarse"]]
        scale = f" scale {b['scale']}" if b["version"] == 2 else ""
        used = len(self.groups())
        return [f"info d {b['d']} h {b['h']} k0 {k0} k1 {k1} shape {b['shape']} g {b['groups']} rows {len(self.rows)} cells {used}{scale}"]

    def asked(self, n, k, wanted, allowed=None):
        """The line of a query, and its ids."""
        cells, pairs, tables, codes = self.visited(self.queries[n], wanted, [id for id in self.rows if allowed is None or id in allowed])
        line = f"query {n} cells {cells} live {len(pairs)} full {Bounds(tables, codes, k, pairs).count()}"
        return line, [id for _, id in sorted(pairs)[:k]]

    def search(self, k, wanted, verb="search", allowed=None):
        """The lines and the bytes of a search, or of one over allowed ids."""
        asked = [self.asked(n, k, wanted, allowed) for n in range(len(self.queries))]
        return [line for line, _ in asked] + [f"{verb} queries {len(asked)}"], b"".join(ids_row(k, ids) for _, ids in asked)

    def rerank(self, r, k, wanted, base):
        """The same of a search whose ids are ordered by their exact distances to the rows of a base."""
        lines, rows = [], []
        for n, query in enumerate(self.queries):
            line, ids = self.asked(n, r, wanted)
            exact = sorted((exact_distance(query, base[id]), id) for id in ids if id < len(base))
            lines.append(line)
            rows.append(ids_row(k, [id for _, id in exact]))
        return lines + [f"rerank queries {len(lines)}"], b"".join(rows)

    def radius(self, r, wanted):
        """The lines of queries by radius."""
        for n, query in enumerate(self.queries):
            cells, pairs, tables, codes = self.visited(query, wanted, list(self.rows))
            base = sum(int(table.min()) for table in tables)
            full = 0
            if base <= r and pairs:
                step = (r - base) // 255 + 1
                small = [numpy.minimum(255, (table - table.min()) // step) for table in tables]
                bounds = numpy.minimum(255, sum(entries[codes[:, j]] for j, entries in enumerate(small)))
                full = int((bounds <= (r - base) // step).sum())
            hits = sorted(pair for pair in pairs if pair[0] <= r)
            yield f"query {n} cells {cells} live {len(pairs)} full {full} hits {len(hits)}"
            yield from (f"hit {id} {distance}" for distance, id in hits)
        yield f"radius queries {len(self.queries)}"


def exact_distance(x, y):
    return int(((x.astype("i8") - y.astype("i8")) ** 2).sum())


def exact(base, queries, k):
    """The lines and the bytes of an exact search."""
    near = [sorted((exact_distance(query, row), n) for n, row in enumerate(base))[:k] for query in queries]
    return [f"exact queries {len(queries)} rows {len(base)}"], b"".join(ids_row(k, [n for _, n in pairs]) for pairs in near)


def recall(found, truth, k):
    hits = sum(bool(len(t)) and int(t[0]) >= 0 and int(t[0]) in [int(id) for id in f[:k]] for f, t in zip(found, truth))
    return [f"recall {k} hits {hits} rows {len(found)}"]


# Residual codes.


class ResidualDouble(Double):
    """A play by a residual book: codes and distances of what is left of a vector after the words of its cell."""

    def __init__(self, book, base, queries):
        self.book, self.base, self.queries, self.rows = book, base, queries, {}
        count = len(book["coarse"][1])
        words = [nearest_words(book, book["coarse"], parts(book, vector)) for vector in base]
        self.cells = [a * count + b for a, b in words]
        self.codes = numpy.array([[int(table.argmin()) for table in self.tables(vector, cell)] for vector, cell in zip(base, self.cells)])

    def tables(self, vector, cell):
        """The squared distances from what is left of a vector in a cell to each word of each sub-quantizer."""
        count = len(self.book["coarse"][1])
        center = numpy.concatenate([self.book["coarse"][0][cell // count], self.book["coarse"][1][cell % count]])
        left = vector.astype("i8") * 2 ** self.book["scale"] - center
        return [((x - (words - tools.MIDDLE)) ** 2).sum(axis=1) for words, x in zip(self.book["subs"], slices(self.book, left))]

    def query(self, row, k, wanted, *ids):
        row, k, wanted = int(row), int(k), int(wanted)
        low, high = (int(ids[1]), int(ids[2])) if ids else (0, MAX_ID)
        if row >= len(self.queries) or not 1 <= k <= MAX_K or not 1 <= wanted <= MAX_WANTED:
            yield f"query {row} refused {'row' if row >= len(self.queries) else 'k' if not 1 <= k <= MAX_K else 'wanted'}"
            return
        vector = self.queries[row]
        cells = self.visit(vector, wanted, [id for id in self.rows if low <= id <= high])
        pairs, full = [], 0
        for cell, ids in cells:
            tables = self.tables(vector, cell)
            codes = self.codes[[self.rows[id] for id in ids]]
            far = [(int(sum(table[code[j]] for j, table in enumerate(tables))), id) for code, id in zip(codes, ids)]
            full += self.full_of(tables, codes, k, pairs, far)
            pairs += far
        yield f"query {row} cells {len(cells)} live {len(pairs)} full {full}"
        for distance, id in sorted(pairs)[:k]:
            yield f"hit {id} {distance}"

    def full_of(self, tables, codes, k, before, far):
        """How many rows of a cell are full, behind the rows before it."""
        if len(before) < k:
            return len(far)
        nearest = sorted(distance for distance, _ in before)[:k]
        base = sum(int(table.min()) for table in tables)
        if base > nearest[-1]:
            return 0
        step = (nearest[-1] - base) // 255 + 1
        full = 0
        for code, (distance, _) in zip(codes, far):
            bound = min(255, sum(min(255, int(table[code[j]] - table.min()) // step) for j, table in enumerate(tables)))
            full += bound <= (nearest[-1] - base) // step
            bisect.insort(nearest, distance)
            nearest.pop()
        return full


# Scripts with sessions.


class Session:
    """A session over the rows that were live when it began."""

    def __init__(self, double, row, k, wanted):
        self.k, self.c, self.over = k, 0, False
        vector = double.queries[row]
        self.sizes = [len(ids) for _, ids in double.visit(vector, wanted, list(double.rows))]
        _, self.pairs, self.tables, self.codes = double.visited(vector, wanted, list(double.rows))

    def step(self, cells):
        self.c = min(len(self.sizes), self.c + cells)
        self.over = self.c == len(self.sizes)

    def counts(self):
        live = sum(self.sizes[: self.c])
        full = Bounds(self.tables, self.codes[:live], self.k, self.pairs[:live]).count()
        return f"cells {self.c} live {live} full {full}"


class SessionDouble(Double):
    """A play with sessions. (No script has enough rows for the refusal `held`.)"""

    def __init__(self, book, base, queries):
        super().__init__(book, base, queries)
        self.stamp, self.open = 0, {}

    def changed(self, lines):
        lines = list(lines)
        self.stamp += "refused" not in lines[0]
        return lines

    def insert(self, *words):
        return self.changed(super().insert(*words))

    def delete(self, *words):
        return self.changed(super().delete(*words))

    def put(self, *words):
        return self.changed(super().put(*words))

    def begin(self, *words):
        sid, row, k, wanted = map(int, words)
        causes = dict(row=row >= len(self.queries), k=not 1 <= k <= MAX_K, wanted=not 1 <= wanted <= MAX_WANTED, taken=sid in self.open, sessions=len(self.open) >= 64)
        cause = next((name for name, holds in causes.items() if holds), None)
        if cause:
            yield f"begin {sid} refused {cause}"
            return
        self.open[sid] = Session(self, row, k, wanted)
        yield f"begin {sid} stamp {self.stamp}"

    def step(self, sid, cells):
        sid, cells = int(sid), int(cells)
        cause = "absent" if sid not in self.open else "cells" if not 1 <= cells <= 1048576 else None
        if cause:
            yield f"step {sid} refused {cause}"
            return
        session = self.open[sid]
        session.step(cells)
        yield f"step {sid} {session.counts()} {'ended' if session.over else 'more'}"

    def end(self, sid):
        sid = int(sid)
        session = self.open.pop(sid, None)
        if session is None:
            yield f"end {sid} refused absent"
        elif not session.over:
            yield f"session {sid} dropped"
        else:
            yield f"session {sid} {session.counts()}"
            for distance, id in sorted(session.pairs)[: session.k]:
                yield f"hit {id} {distance}"
