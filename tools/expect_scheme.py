"""What crates/mkscheme is to print for a file with a line `p n rule`, from the second program.

python3 tools/expect_scheme.py second FILE, where `second` is the folder of the second program."""

import sys

sys.path.insert(0, sys.argv[1])
import second  # noqa: E402


def number(word):
    return int(word) if word.isdigit() and int(word) < 2 ** 32 else 0


def scheme_file(line):
    p, _, rest = line.partition(b" ")
    n, _, rule = rest.partition(b" ")
    made = second.answer({"op": "rule", "p": number(p), "n": number(n), "text": rule.hex(), "labels_len": 32, "entries_len": 384})
    if "refused" in made:
        return b"REFUSED %d\n" % made["refused"]
    return bytes.fromhex(second.answer({"op": "write", **made, "file_len": 1024 if made["d"] <= 20 else 1536})["file"])


with open(sys.argv[2], "rb") as file:
    sys.stdout.buffer.write(scheme_file(file.read().partition(b"\n")[0]))
