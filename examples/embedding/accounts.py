#!/usr/bin/env python3
"""Accounts between which threads move amounts: a view's sum of all accounts is the same at each moment."""
import random
import sys
import threading
from pathlib import Path

sys.path.insert(0, str(Path(__file__).resolve().parent.parent.parent / "clients" / "python"))

from rowanspan import Index, Prefix, Transaction  # noqa: E402

ACCOUNTS, CENTS, THREADS, MOVES = 20, 1000, 4, 500


def account(number: int) -> bytes:
    return f"account/{number:02d}".encode()


def cents(number: int) -> bytes:
    return number.to_bytes(4, "big")


def read(transaction: Transaction, key: bytes) -> int:
    row = transaction.get(key)
    return 0 if row is None else int.from_bytes(row.columns[0], "big")


def move(transaction: Transaction, giver: bytes, taker: bytes, amount: int) -> None:
    """Moves an amount, or as much of it as is there. An account without cents has no row."""
    moved = min(amount, read(transaction, giver))
    for key, left in ((giver, read(transaction, giver) - moved), (taker, read(transaction, taker) + moved)):
        if left:
            transaction.put(key, cents(left))
        else:
            transaction.remove(key)


def move_often(index: Index, seed: int) -> None:
    chance = random.Random(seed)
    for _ in range(MOVES):
        giver, taker = map(account, chance.sample(range(ACCOUNTS), 2))
        amount = chance.randrange(CENTS)
        index.transact(lambda transaction: move(transaction, giver, taker, amount), tries=10_000)


def main() -> None:
    with Index() as index:
        with index.batch() as batch:
            for number in range(ACCOUNTS):
                batch.require_absent(account(number))
                batch.put(account(number), cents(CENTS))
        view = index.build(Prefix(b"account/"))
        threads = [threading.Thread(target=move_often, args=(index, seed)) for seed in range(THREADS)]
        for thread in threads:
            thread.start()
        while any(thread.is_alive() for thread in threads):
            # at each moment, and not only at the end
            assert view.sums == (ACCOUNTS * CENTS,)
        for thread in threads:
            thread.join()
        print(f"after {THREADS * MOVES} moves by {THREADS} threads the accounts have {view.sums[0]} cents")


if __name__ == "__main__":
    main()
