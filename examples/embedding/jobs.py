#!/usr/bin/env python3
"""Jobs that survive: workers take jobs off a queue in a folder, and each of them is killed after some of them.

A job is a row under `job/`, and its result a row under `done/`. A worker puts the result, then removes the job, and then
makes both durable. A job is done twice if a worker was killed in between, and never lost.
"""
import os
import signal
import subprocess
import sys
import tempfile
from pathlib import Path

sys.path.insert(0, str(Path(__file__).resolve().parent.parent.parent / "clients" / "python"))

from rowanspan import Index, Prefix  # noqa: E402

JOBS = 100
# after how many jobs a worker is killed
MOST = 30


def work(folder: str) -> None:
    """Takes jobs, the least key first, until there is none, or it is killed."""
    with Index(folder=folder) as index:
        for number, (key, row) in enumerate(index.range(prefix=b"job/")):
            if number == MOST:
                os.kill(os.getpid(), signal.SIGKILL)
            name = key[len(b"job/"):]
            index.put(b"done/" + name, row.columns[0].upper())
            index.remove(key)
            index.settle()


def main() -> None:
    with tempfile.TemporaryDirectory() as place:
        folder = f"{place}/jobs"
        with Index(folder=folder) as index:
            for number in range(JOBS):
                index.put(b"job/%04d" % number, b"job %d" % number)
        killed = 0
        while subprocess.run([sys.executable, __file__, folder], check=False).returncode != 0:
            killed += 1
        with Index(folder=folder) as index, index.build(Prefix(b"job/")) as left, index.build(Prefix(b"done/")) as done:
            print(f"{killed} workers were killed; {left.count} jobs are left, {done.count} are done")
            print(f"the last is {index.last_item()[1].columns[0].decode()}, of commit {index.durable()}")


if __name__ == "__main__":
    if len(sys.argv) > 1:
        work(sys.argv[1])
    else:
        main()
