"""Further request lines for crates/trials, drawn by the second program: at most ten for each call and each kind of answer.

python3 tools/trial_requests.py second SEED COUNT, where `second` is the folder of the second program. The lines of calls with long lists
stay short enough to read. Lines that its draws leave out are written here."""

import collections
import subprocess
import sys

FOLDER, SEED, COUNT = sys.argv[1:]
MOST, LONGEST = 10, 1500
S = "17 5 5 3 5 1 2 3 4 5 15 1 1 1 1 2 4 1 3 9 1 4 16 1 5 8"
WRITTEN = [
    "panel_new 17 5 5 3 4 1 2 3 4 15 1 1 1 1 2 4 1 3 9 1 4 16 1 5 8",
    "panel_new 17 5 5 3 5 1 2 3 4 5 14 1 1 1 1 2 4 1 3 9 1 4 16 1 5",
    "panel_new 17 5 5 3 0 0",
    "panel_put %s 0 5 0 0 0 0 0 1 1 8" % S,
    "panel_put %s 0 5 0 0 0 0 0 1 2 8 7" % S,
    "panel_put %s 0 5 0 0 0 0 0 1 0" % S,
    "panel_put %s 0 5 0 0 0 0 0 5 3 8 7 10" % S,
    "panel_put %s 0 5 0 0 0 0 0 6 9 8 7 10 0 11 1 2 3 4" % S,
    "panel_put %s 1 5 8 0 0 0 0 1 1 9" % S,
    "panel_put %s 1 5 8 99 99 99 99 3 1 10" % S,
    "panel_put %s 3 5 8 99 0 0 0 3 1 10" % S,
    "panel_take %s 21 5 8 0 10 0 11 3" % S,
    "panel_take %s 21 5 8 0 10 0 11 2" % S,
    "panel_take %s 17 5 8 0 10 0 11 3" % S,
    "panel_code %s 21 5 8 0 10 0 11" % S,
    "panel_code %s 17 5 8 0 10 0 11" % S,
    "panel_code %s 15 5 8 7 10 1 0" % S,
    "panel_code %s 0 5 99 99 99 99 99" % S,
    "panel_code %s 32 5 8 7 10 0 11" % S,
]


def run(*words, given=""):
    return subprocess.run([sys.executable, *words], input=given, capture_output=True, text=True, check=True).stdout


def kind(answer):
    call, said, *rest = answer.split(" | ")[0].split()
    return call, said, rest[0] if said == "REFUSED" else ""


drawn = run(FOLDER + "/trials.py", "--from-json", given=run(FOLDER + "/requests.py", SEED, COUNT, "base"))
lines = [line for line in drawn.splitlines() if len(line) < LONGEST]
seen = collections.Counter()
print(*WRITTEN, sep="\n")
for line, answer in zip(lines, run(FOLDER + "/trials.py", given="".join(line + "\n" for line in lines)).splitlines()):
    seen[kind(answer)] += 1
    if seen[kind(answer)] <= MOST:
        print(line)
