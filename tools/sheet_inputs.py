"""Inputs for crates/try_sheets, from the second program's files.

python3 tools/sheet_inputs.py second > crates/try_sheets/stdin, where `second` is the folder of the second program.
Each input has five bytes before it: 0 to print the sheet in full, 1 to print two checks of it; and its length, the lowest byte first."""

import random
import sys

sys.path.insert(0, sys.argv[1])
import second  # noqa: E402

draw = random.Random(8)


def of_rule(p, n, rule):
    made = second.answer({"op": "rule", "p": p, "n": n, "text": rule.encode().hex(), "labels_len": 32, "entries_len": 384})
    return file_of(p, n, made["labels"], made["entries"], made["e"])


def file_of(p, n, labels, entries, e):
    scheme = {"p": p, "n": n, "d": len(labels), "e": e, "labels": labels, "entries": entries}
    return bytes.fromhex(second.answer({"op": "write", **scheme, "file_len": 1024 if len(labels) <= 20 else 1536})["file"])


def drawn(p, n, d, e):
    return file_of(p, n, [draw.randrange(n) + 1 for _ in range(d)], [draw.randrange(p) for _ in range(d * e)], e)


def powers(p, n, e):
    return file_of(p, n, list(range(1, n + 1)), [pow(i, j, p) for i in range(1, n + 1) for j in range(e)], e)


def changed(data, *places):
    """Bytes changed, each given as place and value, and the checks made right."""
    data = bytearray(data)
    for place, value in places:
        data[place] = value
    for block in range(0, len(data), 512):
        data[block + 508:block + 512] = second.block_check(data[block:block + 512]).to_bytes(4, "little")
    return bytes(data)


S = powers(17, 5, 3)
FULL = [
    of_rule(17, 2, "1&2"), S, of_rule(17, 3, "(1|2)&3"),
    file_of(2, 2, [1], [1], 1), file_of(2, 2, [1], [0], 1), of_rule(2, 3, "1&2|2&3"), drawn(2, 4, 6, 3),
    drawn(3, 3, 5, 2), drawn(65521, 2, 32, 12), drawn(65521, 3, 20, 4), drawn(65521, 3, 21, 4), drawn(127, 1, 1, 1),
    b"", S[:1023], S + b"\0", S[:512], bytes(100000), S + bytes(512), bytes(1024),                      # five times 17, twice 19
    S[:100] + bytes([S[100] + 1]) + S[101:],                                                            # 18
    changed(S, (0, 82)), changed(S, (4, 2)), changed(S, (5, 2)), changed(S, (518, 2)),                  # 19
    changed(S, (8, 16)), changed(S, (10, 0)), changed(S, (10, 17)), changed(S, (11, 33)), changed(S, (12, 13)),   # 1 to 4
    changed(S, (13, 1)), changed(S, (11, 4)), changed(S, (527, 1)), changed(S, (1019, 1)),              # 20
    changed(S, (520, 6)), changed(S, (520, 0)), changed(S, (521, 17)),                                  # 6, 6, 7
]
SUMS = [powers(65521, 16, 8), of_rule(2, 16, "1&2|3&4|5&6|7&8|9&10|11&12|13&14|15&16"), drawn(8191, 11, 30, 7), drawn(65521, 9, 32, 12)]
for full, files in ((0, FULL), (1, SUMS)):
    for data in files:
        sys.stdout.buffer.write(bytes([full]) + len(data).to_bytes(4, "little") + data)
