#!/usr/bin/env python3
"""What the program crates/try_rows has to write, by a second program.

    python3 tools/expect_rows.py FOLDER > crates/try_rows/stdout

FOLDER holds second.py, whose operation w6_ask answers each question. The matrices and the choices are made here
by the same rules as in crates/try_rows/src/main.rt; no answer comes from there.
"""
import sys

# p, d, e, seed
CASES = [
    (17, 5, 3, 0),
    (2, 6, 4, 1),
    (3, 8, 5, 2),
    (5, 4, 6, 3),
    (31, 3, 1, 4),
    (2, 16, 12, 5),
    (257, 12, 12, 6),
    (8191, 16, 8, 7),
    (65521, 16, 8, 8),
    (65521, 32, 12, 9),
]


def numbers(x):
    """The generator, from seed x on."""
    while True:
        x = (x * 1103515245 + 12345) % 2147483648
        yield x


def matrix(p, d, e, seed):
    """Rows 1, k + 1, (k + 1)^2, .. for seed 0. Else about one entry in four is 0, every fourth row is the sum of the
    two rows before it, and rows 3, 11, 19, .. of those have the target added."""
    if seed == 0:
        return [[pow(k + 1, j, p) for j in range(e)] for k in range(d)]
    source = numbers(seed)
    rows = []
    for k in range(d):
        row = []
        for _ in range(e):
            x = next(source)
            row.append(0 if x // 65536 % 4 == 0 else x // 8192 % p)
        if k % 4 == 3:
            row = [(a + b) % p for a, b in zip(rows[k - 1], rows[k - 2])]
            if k % 8 == 3:
                row[0] = (row[0] + 1) % p
        rows.append(row)
    return rows


def sets(d, seed):
    """The sets of participants to ask: all of up to 8; else the empty one, the whole one and 48 others."""
    if d <= 8:
        return list(range(2 ** d))
    n = min(d, 16)
    source = numbers(seed)
    drawn = [next(source) // 8192 % 65536 // 2 ** (16 - n) for _ in range(50)]
    return [0, 2 ** n - 1] + drawn[2:]


def lines(second, p, d, e, seed):
    """A participant owns one row, or rows k and k + 16 where there are more than 16."""
    n = min(d, 16)
    labels = [k % n + 1 for k in range(d)]
    entries = [x for row in matrix(p, d, e, seed) for x in row]
    for s in sets(d, seed):
        got = second.answer({"op": "w6_ask", "p": p, "n": n, "d": d, "e": e, "labels": labels, "entries": entries,
                             "set": s, "r_len": d, "z_len": e})
        chosen = sum(2 ** k for k in range(d) if s >> (labels[k] - 1) & 1)
        verdict = "open" if "open" in got else "closed"
        yield " ".join(map(str, [p, d, e, chosen, verdict.upper(), got["rank"]] + got[verdict]))


def main():
    if len(sys.argv) != 2:
        raise SystemExit(__doc__)
    sys.dont_write_bytecode = True
    sys.path.insert(0, sys.argv[1])
    import second
    for case in CASES:
        for line in lines(second, *case):
            print(line)


if __name__ == "__main__":
    main()
