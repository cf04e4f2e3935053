"""What crates/count_products is to print: source document 002's Example 4.2.9, counted with a second program.

python3 tools/expect_count.py FOLDER > crates/count_products/stdout, where FOLDER has that program's second.py."""

import itertools
import sys

sys.path.insert(0, sys.argv[1])
import second  # noqa: E402


def verdict(call, entries, **more):
    request = {"op": call, "p": 5, "n": 3, "d": 3, "e": 2, "labels": [1, 2, 3], "entries": list(entries), **more}
    return "yes" in second.answer(request)


matrices = products = both = 0
for entries in itertools.product(range(5), repeat=6):
    matrices += 1
    if verdict("product", entries, r_len=3, w_len=3):
        products += 1
        both += verdict("threshold", entries, t=1)
print("matrices", matrices)
print("product yes", products)
print("also threshold 1 yes", both)
