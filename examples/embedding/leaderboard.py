#!/usr/bin/env python3
"""A leaderboard whose sum stays right: players with their points, a view of all of them, and one of a league."""
import random
import sys
from pathlib import Path

sys.path.insert(0, str(Path(__file__).resolve().parent.parent.parent / "clients" / "python"))

from rowanspan import AtLeast, Index, Prefix  # noqa: E402


def points(number: int) -> bytes:
    return number.to_bytes(4, "big")


def main() -> None:
    chance = random.Random(1)
    with Index() as index:
        everybody = index.build(Prefix(b"player/"))
        league = index.build(Prefix(b"player/", AtLeast(0, 900)))
        plain = {}
        for _ in range(3000):
            player = f"player/{chance.randrange(200):03d}".encode()
            if chance.random() < 0.1:
                plain.pop(player, None)
                index.remove(player)
            else:
                plain[player] = chance.randrange(1000)
                index.put(player, points(plain[player]))
            # at each moment, and not only at the end
            assert everybody.sums == (sum(plain.values()),)
        page = everybody.page(limit=1)
        print(f"{page.count} players have {page.sums[0]} points after {page.at} commits")
        best = sorted(league.rows(), key=lambda pair: pair[1].columns[0], reverse=True)
        for key, row in best[:3]:
            print(key.decode(), int.from_bytes(row.columns[0], "big"))


if __name__ == "__main__":
    main()
