"""Tests of the names `Index` and `Client`: when the first is loaded, and calls of `Index` as of a client.
test_rowanspan.py runs them; none loads the library."""
from __future__ import annotations

import inspect
import os
import subprocess
import sys
import unittest
import warnings
from pathlib import Path
from typing import Any, Dict, List, Sequence, Tuple
from unittest import mock

import rowanspan
import rowanspan.embedded
from rowanspan import Client, NoLibrary, TooLong
from rowanspan.former import options_of
from stand_in import StandIn

HERE = Path(__file__).resolve().parent
SECONDS = 20.0

Arguments = Tuple[Sequence[Any], Dict[str, Any]]

# what is loaded by the package, by `Index`, and by a program that takes all names
LOADING = """import sys, rowanspan
print({"ctypes", "rowanspan.embedded"} & set(sys.modules), {"Index", "Client"} <= set(dir(rowanspan)))
from rowanspan import *
print(Index is rowanspan.Index is rowanspan.embedded.Index, Client is rowanspan.client.Client)
"""


class NameTest(unittest.TestCase):
    def test_one_name_for_each_class(self) -> None:
        self.assertIs(rowanspan.Index, rowanspan.embedded.Index)
        self.assertFalse(issubclass(rowanspan.Index, Client) or issubclass(Client, rowanspan.Index))
        with self.assertRaisesRegex(AttributeError, "^module 'rowanspan' has no attribute 'Indexes'$"):
            getattr(rowanspan, "Indexes")

    def test_when_the_index_is_loaded(self) -> None:
        done = subprocess.run([sys.executable, "-W", "error", "-c", LOADING], cwd=HERE, capture_output=True, text=True,
                              timeout=SECONDS, check=False)
        self.assertEqual((done.stdout, done.stderr), ("set() True\nTrue True\n", ""))

    def test_the_signature(self) -> None:
        own, of_init = inspect.signature(rowanspan.Index), inspect.signature(rowanspan.Index.__init__)
        self.assertEqual(list(own.parameters.values()), list(of_init.parameters.values())[1:-1])
        self.assertEqual(list(own.parameters), ["columns", "log_capacity", "log_retention", "keep_views", "folder",
                                                "checkpoint", "library"])


class FormerCallTest(unittest.TestCase):
    def setUp(self) -> None:
        # an index raises `NoLibrary`, after its arguments were checked
        missing = mock.patch.dict(os.environ, {"ROWANSPAN_LIBRARY": "/nowhere/librowanspan.so"})
        missing.start()
        self.addCleanup(missing.stop)

    def test_calls_as_of_a_client(self) -> None:
        with StandIn() as server:
            port, host = server.port, "127.0.0.1"
            calls: List[Arguments] = [
                ((port,), {}), ((port, host), {}), ((port, host, SECONDS), {}), ((port,), {"timeout": SECONDS}),
                ((port,), {"host": host, "timeout": None}), ((), {"port": port}), ((port, host), {"timeout": SECONDS})]
            for number, (arguments, named) in enumerate(calls, 1):
                with self.subTest(arguments=arguments, named=named):
                    with self.assertWarnsRegex(DeprecationWarning, "is a rowanspan.Client$") as met:
                        made: Any = rowanspan.Index(*arguments, **named)
                    with made:
                        self.assertEqual((type(made), made.put(b"a", b"v"), met.filename), (Client, number, __file__))

    def test_faults_of_a_client(self) -> None:
        wrong: List[Tuple[Arguments, type]] = [
            (((7070,), {"timeout": 0}), TooLong), (((7070, "127.0.0.1", "1"), {}), TypeError),
            (((), {"timeout": 1.0}), TypeError), (((7070, "127.0.0.1", 1.0, 5), {}), TypeError)]
        for (arguments, named), kind in wrong:
            with self.subTest(arguments=arguments, named=named), self.assertWarns(DeprecationWarning):
                with self.assertRaises(kind):
                    rowanspan.Index(*arguments, **named)

    def test_calls_as_of_an_index(self) -> None:
        """What is no client's call is made as one of an index, also if it is wrong, without a warning."""
        calls: List[Tuple[Arguments, type]] = [
            (((), {}), NoLibrary), (((1,), {}), NoLibrary), (((16, 4096, 5), {}), NoLibrary), (((17,), {}), NoLibrary),
            (((1023,), {}), NoLibrary), (((65536,), {}), NoLibrary), (((7070, 4096), {}), NoLibrary),
            (((), {"columns": 7070}), NoLibrary), (((7070,), {"keep_views": False}), NoLibrary),
            (((True,), {}), NoLibrary), (((7070,), {"timeout": 1, "feed": 5}), TypeError), (((7070.0,), {}), TypeError),
            ((("7070",), {}), TypeError)]
        for (arguments, named), kind in calls:
            with self.subTest(arguments=arguments, named=named), warnings.catch_warnings():
                warnings.simplefilter("error")
                with self.assertRaises(kind):
                    rowanspan.Index(*arguments, **named)

    def test_options_by_their_former_names(self) -> None:
        for name, now in (("feed", "log_capacity"), ("keep", "log_retention")):
            with self.subTest(name=name), self.assertWarnsRegex(DeprecationWarning, f"{name} .* is now {now}$") as met:
                with self.assertRaises(NoLibrary):
                    rowanspan.Index(**{name: 5})
            self.assertEqual(met.filename, __file__)
        self.assertEqual(options_of(4096, 0, {}), (4096, 0))
        with self.assertWarns(DeprecationWarning):
            self.assertEqual(options_of(4096, 0, {"feed": 7, "keep": 8}), (7, 8))

    def test_a_class_of_an_index(self) -> None:
        class Own(rowanspan.Index):
            """A class that takes what it takes."""

        with warnings.catch_warnings():
            warnings.simplefilter("error")
            with self.assertRaises(NoLibrary):
                Own(7070)
            with self.assertRaisesRegex(TypeError, "timeout"):
                Own(7070, timeout=1.0)  # type: ignore[call-arg]
