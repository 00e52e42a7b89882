"""Tests of ranges of an embedded index against the order of keys, and of its first and last rows, over the built
library: by an index that uses the extension module, if it is there, and by ctypes alone. test_embedded.py runs them."""
from __future__ import annotations

import unittest
from typing import List, Optional

from back_cases import BackCases
from map_cases import keys_of
from rowanspan import native
from rowanspan.embedded import Index, NoMemory, Pairs, Row
from rowanspan.scans import scanned_back
from test_embedded_views import RefusingLibrary


class BackTest(BackCases, unittest.TestCase):
    index: Index

    def setUp(self) -> None:
        self.index = Index(columns=2)
        self.addCleanup(self.index.close)

    def test_out_of_memory(self) -> None:
        """A range that was refused ends, and another one has all rows."""
        self.fill([b"%04d" % number for number in range(100)])
        library = RefusingLibrary(self.index._library, "range_back")
        self.index._library, self.index._native = library, native.NoCalls()
        pairs = self.index.range(b"0", reverse=True)
        self.assertEqual(keys_of(next(pairs) for _ in range(60))[-1], b"0040")
        library.refusals = 1
        with self.assertRaises(NoMemory):
            next(pairs)
        self.assertEqual((list(pairs), len(list(self.index.range(reverse=True)))), ([], 100))


class BackByCtypesTest(BackTest):
    def setUp(self) -> None:
        super().setUp()
        self.index._native = native.NoCalls()


class ScannedTest(unittest.TestCase):
    def test_pages_that_end_at_the_start(self) -> None:
        asked: List[Optional[bytes]] = []

        def read(stop: Optional[bytes], limit: int) -> Pairs:
            asked.append(stop)
            return [(key, Row(1, (b"",))) for key in keys[::-1] if stop is None or key < stop][:limit]

        keys = [b"%03d" % number for number in range(100)]
        self.assertEqual(keys_of(scanned_back(read, b"040", None, None)), keys[:39:-1])
        self.assertEqual(asked, [None])
        self.assertEqual(keys_of(scanned_back(read, b"039", None, None)), keys[:38:-1])
        self.assertEqual(asked[1:], [None, b"040"])
        self.assertEqual(keys_of(scanned_back(read, b"040\0", b"041", None)), [])
        self.assertEqual(asked[3:], [b"041"])
