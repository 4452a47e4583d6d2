"""The scripts of the benchmarks: each a function of its size that gives the lines of an input."""

import random

SUM = """[[iterator]]
name = "sum"
priority = 10
kind = "sum"
columns = ["n"]
encoding = "string"
scopes = ["scan", "minc", "majc"]
%%"""
NEWEST = """[[iterator]]
name = "newest"
priority = 20
kind = "versions"
max = 1
scopes = ["scan", "minc", "majc"]
%%"""
SEARCH = """[[iterator]]
name = "search"
priority = 30
kind = "intersecting"
terms = ["each", "many", "rare"]
scopes = ["scan"]
%%"""
FLUSH = ["freeze", "flushed"]


def flushed(lines, times):
    """Puts so many flushes among the lines, at equal distances."""
    every = max(1, len(lines) // times)
    for i, line in enumerate(lines, 1):
        yield line
        if i % every == 0:
            yield from FLUSH


def mutations(size, rows, update):
    return [f"m r{random.randrange(rows)} +{update()}" for _ in range(size)]


def counters(size):
    """Mutations of one counter each, ten flushes, a full compaction and a scan."""
    lines = mutations(size, size // 20 + 1, lambda: f"n:q{random.randrange(4)}:={random.randrange(100)}")
    return [SUM, *flushed(lines, 10), "compactall j1", "finish j1", "scan"]


def newest(size):
    """The same with values of which the newest stays."""
    lines = mutations(size, size // 20 + 1, lambda: f"a:q{random.randrange(4)}:={random.randrange(1000)}")
    return [NEWEST, *flushed(lines, 10), "compactall j1", "finish j1", "scan"]


def scans(size):
    """One counter, added to in `size` mutations, and half as many scans."""
    return [SUM, *["m r +n:x:=1"] * size, *FLUSH, *["scan"] * (size // 2)]


def points(size):
    """Half of the lines are mutations, flushed into ten files, the others scans of one row each."""
    rows = size // 4 + 1
    lines = mutations(size // 2, rows, lambda: f"a:q{random.randrange(4)}:={random.randrange(1000)}")
    rows_asked = [f"r{random.randrange(rows)}" for _ in range(size // 2)]
    return [NEWEST, *flushed(lines, 10), *[f"scan [{row},{row}]" for row in rows_asked]]


def batches(size):
    """Mutations of 100 updates each, `size` updates in all, without a flush, and a scan."""
    lines = []
    for _ in range(size // 100):
        updates = " ".join(f"+n:q{i}:={random.randrange(100)}" for i in range(100))
        lines.append(f"m r{random.randrange(size // 1000 + 1)} {updates}")
    return [SUM, *lines, "scan"]


def large(size):
    """A value of 65,536 bytes, and `size` scans."""
    return [NEWEST, "m r +a:b:=" + "v" * 65536, *["scan"] * size]


def index(size):
    """An index of `size` documents in one partition, of which each has a term, half have another, and one in 1,000 has a rare one; and ten
    searches for all three."""
    lines = []
    for i in range(size):
        terms = ["each"] + ["many"] * (i % 2 == 0) + ["rare"] * (i % 1000 == 0)
        lines.append("m p " + " ".join(f"+{term}:d{i:07}:=" for term in terms))
    return [SEARCH, *flushed(lines, 10), *["scan"] * 10]


def files(size):
    """Mutations of random rows, flushed into 60 files, and ten scans of them all."""
    lines = [f"m r{random.randrange(10**7):07} +a:q:={random.randrange(1000)}" for _ in range(size)]
    return [NEWEST, *flushed(lines, 60), *["scan"] * 10]


# Each with its least size, and what its peers do with the values of a column; they have no searches.
ALL = {
    "counters": (counters, 100_000, "sums"),
    "newest": (newest, 100_000, "newest"),
    "scans": (scans, 50_000, "sums"),
    "points": (points, 25_000, "newest"),
    "batches": (batches, 50_000, "sums"),
    "large": (large, 10_000, "newest"),
    "index": (index, 50_000, None),
    "files": (files, 60_000, "newest"),
}


def input_of(work, size):
    random.seed(size)
    return ("\n".join(ALL[work][0](size)) + "\n").encode()
