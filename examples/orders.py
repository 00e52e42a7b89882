#!/usr/bin/env python3
"""Orders at random, written into a server until it is interrupted: something to look at with `rowan board`.

    rowan serve --port 7070 --columns 2 &
    python3 examples/orders.py -p 7070 &
    rowan board -p 7070 --text --columns-as number --build 'prefix open/ any' --build 'prefix closed/ any'

An order is a row under `open/CUSTOMER/NUMBER`, and later under `closed/CUSTOMER/NUMBER`. Column 0 is its amount in
cents, column 1 its number of items, so a view's sums are those of its orders.
"""
from __future__ import annotations

import argparse
import random
import sys
import time
from collections import deque
from pathlib import Path
from typing import Deque, Dict, List, NamedTuple

try:
    import rowanspan
except ImportError:
    # (in a checkout, without the wheel)
    sys.path.insert(0, str(Path(__file__).resolve().parent.parent / "clients" / "python"))
    import rowanspan

CUSTOMERS = ("ada", "blaise", "emmy", "grace", "kurt", "sofya")
# around how many orders are open, and how many closed ones are kept
OPEN, CLOSED = 40, 500


class Order(NamedTuple):
    customer: str
    number: int
    cents: int
    items: int

    def key(self, state: str) -> bytes:
        return f"{state}/{self.customer}/{self.number:06d}".encode()

    def columns(self) -> Dict[int, bytes]:
        return {0: self.cents.to_bytes(4, "big"), 1: self.items.to_bytes(2, "big")}


class Shop:
    """The orders, and what becomes of them by chance."""

    def __init__(self, index: rowanspan.Client, chance: random.Random) -> None:
        self.index, self.chance = index, chance
        self.opened: List[Order] = []
        self.closed: Deque[Order] = deque()
        self.count = 0

    def step(self) -> None:
        """Opens an order, changes one or closes one."""
        if self.opened and self.chance.random() < 0.2:
            self.change()
        elif self.chance.random() * (OPEN + len(self.opened)) < OPEN:
            self.open()
        else:
            self.close()

    def open(self) -> None:
        self.count += 1
        items = self.chance.randint(1, 9)
        order = Order(self.chance.choice(CUSTOMERS), self.count, items * self.chance.randint(250, 9_000), items)
        self.opened.append(order)
        self.index.put(order.key("open"), order.columns())

    def change(self) -> None:
        """One item more in an order."""
        place = self.chance.randrange(len(self.opened))
        before = self.opened[place]
        after = before._replace(items=before.items + 1, cents=before.cents + self.chance.randint(250, 9_000))
        self.opened[place] = after
        self.index.put(after.key("open"), after.columns())

    def close(self) -> None:
        """Moves an order from the open ones to the closed ones, of which the oldest leave."""
        order = self.opened.pop(self.chance.randrange(len(self.opened)))
        self.closed.append(order)
        with self.index.pipeline() as pipeline:
            pipeline.remove(order.key("open"))
            pipeline.put(order.key("closed"), order.columns())
            if len(self.closed) > CLOSED:
                pipeline.remove(self.closed.popleft().key("closed"))


def main() -> int:
    made = argparse.ArgumentParser(description=__doc__, formatter_class=argparse.RawDescriptionHelpFormatter)
    made.add_argument("-p", "--port", type=int, required=True, help="the server's port")
    made.add_argument("--rate", type=float, default=8.0, help="steps in a second (8)")
    made.add_argument("--seconds", type=float, default=float("inf"), help="how long (until it is interrupted)")
    made.add_argument("--seed", type=int, help="the same orders again for the same number")
    options = made.parse_args()
    if options.rate <= 0:
        made.error("--rate has to be more than 0")
    end = time.monotonic() + options.seconds
    try:
        with rowanspan.Client(options.port) as index:
            shop = Shop(index, random.Random(options.seed))
            while time.monotonic() < end:
                shop.step()
                time.sleep(1 / options.rate)
    except rowanspan.BadColumn:
        print("orders: the server has one column: start it with --columns 2", file=sys.stderr)
        return 1
    except rowanspan.RowanspanError as fault:
        print(f"orders: {fault}", file=sys.stderr)
        return 3
    except KeyboardInterrupt:
        return 130
    return 0


if __name__ == "__main__":
    sys.exit(main())
