#!/usr/bin/env python3
"""Writes acceptance/many-rows.psg: an operator with 600 rows over 601 hole rows.

  python3 tests/many_rows.py >tests/acceptance/many-rows.psg

The specimen `up(up(any))` joins the 600 rows of `up` with the 600 rows of `up(any)`. Such a join weighs
2 * 600 * 600 + 600 * 600 = 1,080,000, so ten cases with this specimen are far below the bound of 2^28. A product of the
two sides in place of their sum would pass it at once.
"""
MANY = 600
cons = [f"c{n}" for n in range(MANY)]
lines = [
    "psg 1",
    "# An operator with 600 rows over 601 hole rows, ten of which are shown by 600 rows joined with 600 rows. It is accepted.",
    "# many_rows.py wrote it.",
    "sort Value = " + " ".join(cons),
    "phylum Exp : Value",
    'op any : Exp = "any"',
    "row ?V",
    'op up : Exp = "up" "(" Exp ")"',
    *(f"row {c} : {c}" for c in cons),
    "hole Exp ?V by any",
    *(f"hole Exp {c} by {'up(up(any))' if n < 10 else 'any'}" for n, c in enumerate(cons)),
]
print("\n".join(lines))
