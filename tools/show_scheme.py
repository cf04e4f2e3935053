"""Prints a scheme file's rows, as a person needs them to check a sheet by hand: python3 tools/show_scheme.py SCHEME-FILE"""

import sys

from check_sheet import refusal_or_scheme

with open(sys.argv[1], "rb") as file:
    refusal, scheme = refusal_or_scheme(file.read())
if refusal:
    sys.exit("REFUSED %d" % refusal)
p, n, labels, rows = scheme
print("modulus %d, %d participants" % (p, n))
for number, (label, row) in enumerate(zip(labels, rows), 1):
    print("row %d, participant %d: %s" % (number, label, " ".join(map(str, row))))
