"""Cases: a folder that an index and a server have in turn."""
from __future__ import annotations

from killing import Audit, LIMIT
from running import COLUMNS as SERVER_COLUMNS, Setting, Skipped, want_same
from working import COLUMNS, make, leave, work

from rowanspan import Index

ROUNDS, COMMITS = 4, 300


def folders_of_servers(setting: Setting) -> str:
    """What an index has put, a server has, with the same versions; and the other way round."""
    if not setting.serve:
        raise Skipped("no mtserve is named")
    want_same("how many columns a server has", SERVER_COLUMNS, COLUMNS)
    audit = Audit(setting.data, setting.seed)
    for _ in range(ROUNDS):
        # (the last index of the work isn't closed before it is dropped)
        audit.advance(max(number for _, number in work(setting.data, setting.seed, audit.commits + COMMITS, LIMIT)))
        with setting.server("--checkpoint", str(LIMIT)) as server, server.index() as client:
            want_same("the rows of the server", dict(client.range()), audit.rows)
            want_same("its commits", (client.ping(), client.durable()), (audit.commits,) * 2)
            for commit in range(audit.commits + 1, audit.commits + COMMITS):
                want_same("a commit", make(client, setting.seed, commit, audit.rows), commit)
                leave(setting.seed, commit, audit.rows)
                audit.commits = commit
            want_same("how many commits it says at its end", server.stop(), audit.commits)
        with Index(COLUMNS, folder=setting.data) as index:
            audit.want_rows_of(index)
    return f"{audit.commits} commits, {len(audit.rows)} rows"


CASES = (folders_of_servers,)
