#!/usr/bin/env python3
"""Tests what holds answers against the plain map: it takes right answers, and of wrong ones it says so. Run by
itself, its last line is 'N passed, M failed'."""
from __future__ import annotations

import sys
from typing import List, Tuple

from reading import MARK, MARKED, Held, Wrong, said_of

RIGHT: List[Tuple[str, str]] = [
    ("alone put 61 0=05", "done 0 1 put 1"),
    ("alone build range - none any", "done 1 1 built 1"),
    ("begin 1 put 62 0=06", "call 3"),
    ("alone get 61 all", "busy"),
    ("begin 2 get 62 all", "call 4"),
    ("step 3", "moved"),
    ("step 3", "commit 2"),
    ("finish 4", "done 1 2 absent"),
    ("finish 3", "done 1 2 put 2"),
    ("step 3", "refused 9"),
    ("view 1 0 - 10", "view 1 1 5 1 61:1:05"),
    ("view 1 2 - 10", "refused 12 1"),
    ("apply 0", "applied 2"),
    ("apply 1", "current"),
    ("view 1 2 - 10", "view 2 2 11 2 61:1:05 62:2:06"),
    ("begin 1 remove 61", "call 5"),
    ("begin 2 range - 10 all", "call 6"),
    ("begin 2 put 63 0=07", "call 7"),
    ("step 5", "commit 3"),
    ("finish 7", "refused 1"),
    ("finish 6", "done 2 3 rows 1 62:2:06"),
    ("finish 5", "done 2 3 removed 3"),
    ("feed 1 10", "delta 2 62 none 2:06\ndelta 3 61 1:05 none"),
    ("alone range - 10 0", "done 3 3 rows 1 62:2:06"),
    ("alone put 61 -", "refused 1"),
    ("advance", "epoch 1"),
    ("nonsense", "bad line"),
    ("drop 1", "dropped"),
    ("drop 1", "refused 11"),
    ("alone remove 61", "done 3 3 absent"),
    ("alone putif 61 0 -", "done 3 4 put 4"),
    ("begin 1 putif 62 2 0=08", "call 11"),
    ("begin 2 putif 62 2 0=09", "call 12"),
    ("finish 11", "done 4 5 put 5"),
    ("finish 12", "refused 16 5")]

# by the place of a line: what would be wrong there
WRONG: List[Tuple[int, str]] = [
    (0, "done 0 2 put 2"), (0, "done 0 0 put 1"), (0, "done 0 1 put 2"), (0, "done 0 1 absent"), (0, "refused 1"),
    (1, "done 1 1 built 2"), (1, "done 0 1 built 1"), (2, "call 4"), (2, "call 1"), (3, "done 1 1 row 1 05"),
    (6, "moved"), (6, "commit 3"), (7, "done 2 2 absent"), (7, "done 1 2 row 1 06"), (7, "done 1 2 row 2 07"),
    (8, "done 1 2 absent"), (8, "refused 1"), (9, "moved"), (10, "view 1 1 6 1 61:1:05"), (10, "view 1 2 5 1 61:1:05"),
    (10, "view 2 2 11 2 61:1:05 62:2:06"), (11, "refused 12 0"), (11, "view 1 1 5 1 61:1:05"), (12, "applied 3"),
    (12, "current"), (13, "applied 3"), (14, "view 2 2 11 1 61:1:05"), (18, "commit 4"), (18, "moved"),
    (19, "done 3 4 put 4"), (20, "done 2 3 rows 0"), (20, "done 2 3 rows 2 62:2:06 61:1:05"),
    (20, "done 2 3 rows 2 61:1:06 62:2:06"), (20, "done 2 3 rows 2 62:2:06 63:4:07"), (21, "done 2 3 absent"),
    (22, "delta 3 61 1:05 none"), (22, "delta 2 62 none 2:06"), (22, "delta 2 62 none 2:07\ndelta 3 61 1:05 none"),
    (22, ""), (23, "done 3 3 rows 2 61:1:05 62:2:06"), (23, "done 2 3 rows 1 62:2:06"), (25, "epoch 2"),
    (27, "refused 11"), (28, "dropped"), (29, "done 3 4 removed 4"),
    (30, "refused 16 0"), (30, "refused 16 3"), (33, "refused 16 4"), (34, "done 4 6 put 6"), (34, "refused 16 2"),
    (34, "refused 16 4"), (34, "refused 16 0")]


def is_held(lines: List[Tuple[str, str]]) -> bool:
    asked, answers = [], []
    for line, answer in lines:
        asked += [line, MARK] if line.startswith("feed") else [line]
        answers += answer.split("\n") if answer else []
        answers += [MARKED] if line.startswith("feed") else []
    try:
        Held(1, said_of(asked, answers))
        return True
    except Wrong:
        return False


def main() -> int:
    failed = 0
    if not is_held(RIGHT):
        print("FAILED: the right answers aren't taken")
        failed += 1
    for at, answer in WRONG:
        if is_held([*RIGHT[:at], (RIGHT[at][0], answer), *RIGHT[at + 1:]]):
            print(f"FAILED: {RIGHT[at][0]!r} is taken, answered {answer!r}")
            failed += 1
    print(f"{len(WRONG) + 1 - failed} passed, {failed} failed")
    return 1 if failed else 0


if __name__ == "__main__":
    sys.exit(main())
