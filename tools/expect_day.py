"""What crates/day_at_the_safe is to print, played with a second program.

python3 tools/expect_day.py FOLDER > crates/day_at_the_safe/stdout, where FOLDER has that program's second.py."""

import sys

sys.path.insert(0, sys.argv[1])
import second  # noqa: E402

SCHEME = {
    "p": 17, "n": 5, "d": 5, "e": 3, "labels": [1, 2, 3, 4, 5],
    "entries": [1, 1, 1, 1, 2, 4, 1, 3, 9, 1, 4, 16, 1, 5, 8],
}
DAY = [
    ("code",), ("put", 1, 8), ("put", 1, 9), ("take", 4), ("put", 6, 1), ("put", 2, 17), ("code",),
    ("put", 3, 10), ("code",), ("put", 5, 12), ("put", 2, 7), ("code",), ("take", 5), ("code",),
    ("put", 5, 11), ("code",), ("take", 1), ("code",), ("take", 2), ("code",),
]


def ask(call, **more):
    return second.answer({"op": call, **SCHEME, **more})


def told(words, answer):
    """The state after a call, and its line."""
    global state
    if "refused" in answer:
        words += ["REFUSED", answer["refused"]]
    else:
        words.append("OK")
        state = answer
    print(*words, state["cards"], "|", *state["stored"], *[0] * (32 - len(state["stored"])))


state = {}
told(["fresh"], ask("panel_new", stored_len=5))
for name, *numbers in DAY:
    if name == "put":
        told(["put", numbers[0]], ask("panel_put", **state, participant=numbers[0], shares=numbers[1:]))
    elif name == "take":
        told(["take", numbers[0]], ask("panel_take", **state, participant=numbers[0]))
    else:
        answer = ask("panel_code", **state)
        print("code", *(["REFUSED", answer["refused"]] if "refused" in answer else ["OK", answer["secret"]]))
