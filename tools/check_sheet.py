"""Checks a sheet by multiplying out: python3 tools/check_sheet.py SCHEME-FILE SHEET

Trusts neither prover nor compiler. OPEN: the set's rows weighted by the vector add up to 1, 0, .., 0. CLOSED: the vector begins with 1 and
each of the set's rows times it is 0, so that no combination of them is 1, 0, .., 0. It must also be the one vector that document 01 asks for:
0 at rows outside the set and at each row (column) that is a combination of earlier ones; so every changed digit is found."""

import sys

MODULI = (2, 3, 5, 7, 11, 13, 17, 19, 23, 29, 31, 127, 251, 257, 8191, 65521)


def refusal_or_scheme(data):
    """The number of a refused file's refusal, else 0; and p, n, labels, rows."""
    if len(data) not in (1024, 1536):
        return 17, None
    blocks = [data[i:i + 512] for i in range(0, len(data), 512)]
    p, (n, d, e) = int.from_bytes(blocks[0][8:10], "little"), blocks[0][10:13]
    content = b"".join(b[8:508] for b in blocks[1:])
    records = [content[25 * i:25 * i + 25] for i in range(d) if content[25 * i:]]
    spare = blocks[0][13:508] + content[25 * d:] + b"".join(r[1 + 2 * e:] for r in records)
    rows = [[int.from_bytes(r[1 + 2 * j:3 + 2 * j], "little") for j in range(e)] for r in records]
    tests = {
        18: all(sum(x * (i + 1) for i, x in enumerate(b[:508])) == int.from_bytes(b[508:], "little") for b in blocks),
        19: all(b[:8] == b"QRUL" + bytes([1 if i == 0 else 2, 1, i, 0]) for i, b in enumerate(blocks)),
        1: p in MODULI, 2: 1 <= n <= 16, 3: 1 <= d <= 32, 4: 1 <= e <= 12, 20: len(blocks) == 1 + -(-d // 20) and not any(spare),
        6: all(1 <= r[0] <= n for r in records), 7: all(x < p for row in rows for x in row)}
    return next((number for number, good in tests.items() if not good), 0), (p, n, [r[0] for r in records], rows)


def kept(p, vectors):
    """Which vectors are not a combination of those before them."""
    basis, keep = [], []
    for vector in vectors:
        v = list(vector)
        for at, b in basis:
            v = [(x - v[at] * y) % p for x, y in zip(v, b)]
        at = next((i for i, x in enumerate(v) if x), None)
        keep.append(at is not None)
        if at is not None:
            basis.append((at, [x * pow(v[at], -1, p) % p for x in v]))
    return keep


def right(p, labels, rows, number, verdict, vector):
    inside, e = [number >> (label - 1) & 1 for label in labels], len(rows[0])
    if verdict == "OPEN":
        keep = kept(p, [row if i else [0] * e for i, row in zip(inside, rows)])
        sums = [sum(v * row[j] for v, row in zip(vector, rows)) % p for j in range(e)]
        proved = sums == [1] + [0] * (e - 1)
    else:
        chosen = [row for i, row in zip(inside, rows) if i]
        keep = [True] + kept(p, [[row[j] for row in chosen] for j in range(1, e)])
        proved = vector[:1] == [1] and all(sum(x * v for x, v in zip(row, vector)) % p == 0 for row in chosen)
    return len(vector) == len(keep) and proved and all(-p < 2 * v <= p and (k or v == 0) for k, v in zip(keep, vector))


def is_line(line, p, labels, rows, number):
    words = line.split(" ")
    vector = [int(word) for word in words[2:] if word.removeprefix("-").isdecimal()]
    plain = line == " ".join([str(number)] + words[1:2] + [str(v) for v in vector])
    return plain and words[1:2] in (["OPEN"], ["CLOSED"]) and right(p, labels, rows, number, words[1], vector)


def first_wrong(data, lines):
    """The number of the first wrong line, counted from 1; 0 where every line is right."""
    refusal, scheme = refusal_or_scheme(data)
    if refusal:
        return int(lines != ["REFUSED %d" % refusal, ""])
    p, n, labels, rows = scheme
    if lines[0] != "SCHEME %d %d %d %d" % (p, n, len(rows), len(rows[0])):
        return 1
    wrong = (i for i in range(1 << n) if i + 1 >= len(lines) or not is_line(lines[i + 1], p, labels, rows, i))
    return next(wrong, -2 if lines[(1 << n) + 1:] == [""] else 1 << n) + 2


if __name__ == "__main__":
    with open(sys.argv[1], "rb") as file, open(sys.argv[2], newline="\n") as sheet:
        wrong = first_wrong(file.read(), sheet.read().split("\n"))
    sys.exit("wrong at line %d" % wrong if wrong else print("every line is right"))
