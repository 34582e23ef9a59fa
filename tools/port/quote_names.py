#!/usr/bin/env python3
"""Before port.py: puts quotes round names of functions that port.py would take for names of its own new spelling, and then leave out its older steps.

usage: tools/port/quote_names.py FOLDER     (the folder that has crates/)

promises/specs/Uniqueness.antt brings functions in under their names in src/, as put_item, and some of these are names of the library's since it writes them in snake case.
"""

import re
import sys

NAMES = "put_item read_all lines_of item_of words_of two_at is_code reach_of put_word part_of set_m put_byte".split()
path = sys.argv[1] + "/crates/promises/specs/Uniqueness.antt"
with open(path, encoding="utf-8") as f:
    text = f.read()
for name in NAMES:
    text = re.sub(rf"(?m)^(use \S+ as ){name}$", rf"\1«{name}»", text)
with open(path, "w", encoding="utf-8") as f:
    f.write(text)
