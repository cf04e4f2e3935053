"""What the sheet programs are to print, from the second program.

python3 tools/expect_sheets.py second FILE       the sheet of one scheme file (crates/sheet/stdin)
python3 tools/expect_sheets.py second -t FILE    the answers to a file of inputs for crates/try_sheets
where `second` is the folder of the second program."""

import sys

sys.path.insert(0, sys.argv[1])
import second  # noqa: E402


def sheet(data):
    return second.answer({"op": "sheet", "file": data.hex()})["text"]


def checks(text):
    for by in (31, 257):
        check = 0
        for byte in text.encode():
            check = (check * by + byte) % 65521
        yield check


def inputs(data):
    at = 0
    while at < len(data):
        full, size = data[at] == 0, int.from_bytes(data[at + 1:at + 5], "little")
        yield full, data[at + 5:at + 5 + size]
        at += 5 + size


if sys.argv[2] == "-t":
    with open(sys.argv[3], "rb") as file:
        for full, data in inputs(file.read()):
            if full:
                print(sheet(data), end="")
            else:
                print(*checks(sheet(data)), sep="\n")
else:
    with open(sys.argv[2], "rb") as file:
        print(sheet(file.read()), end="")
