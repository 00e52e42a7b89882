"""Tests of the wheel, of what is installed from it, and of `rowan serve`. test_rowanspan.py runs them."""
from __future__ import annotations

import base64
import csv
import email
import hashlib
import importlib.util
import os
import re
import shutil
import signal
import subprocess
import sys
import tempfile
import unittest
import zipfile
from pathlib import Path
from typing import Dict, List, Optional, Tuple

import rowanspan

HERE = Path(__file__).resolve().parent
TOP = HERE.parents[1]
VERSION = (TOP / "VERSION").read_text(encoding="ascii").strip()
LIBRARY = TOP / "dist" / "librowanspan.so"
MTSERVE, MTFOLDER = (TOP / "crates" / name / "out" / name for name in ("mtserve", "mtfolder"))
SECONDS = 300.0
# says with which words it was run, and which signals it ignores: those that this process was started with
STAND_IN = "#!/bin/sh\necho \"$@\"\ngrep SigIgn: /proc/self/status\n"


def ignored() -> str:
    """The signals that this process ignores, as the kernel says it, but for those that Python ignores and those that
    `rowan serve` handles."""
    signals = int(re.findall("SigIgn:\\s*([0-9a-f]+)", Path("/proc/self/status").read_text(encoding="ascii"))[0], 16)
    for number in (signal.SIGPIPE, signal.SIGXFSZ, signal.SIGINT, signal.SIGTERM):
        signals &= ~(1 << number - 1)
    return f"SigIgn:\t{signals:016x}"


IGNORED = ignored()
# what `rowan serve` adds to the options
STOPS = "--stop-at-end-of-input"
# runs `rowan`, but no mode of a file can be set
WITHOUT_CHMOD = ("import os, pathlib, sys\n"
                 "def refused(*_, **__): raise PermissionError(1, 'refused')\n"
                 "os.chmod = pathlib.Path.chmod = refused\n"
                 "from rowanspan.shell import main\n"
                 "sys.exit(main(sys.argv[1:]))\n")

# notices that stand for those of scripts/release
NOTICES = "Parts that others wrote.\n\n== größe\n\nMIT\n"
LICENCE = "Rowanspan: MIT OR Apache-2.0\n"

# what the maker of the wheel says if there is no compiler, or no Python.h
NO_MODULE = "wheel: without the extension module: "

Ended = Tuple[int, str, str]


def run(words: List[str], **environment: str) -> Ended:
    """Runs a program; returns its status and what it wrote."""
    known = {name: value for name, value in os.environ.items() if not name.startswith(("ROWANSPAN_", "PYTHON"))}
    done = subprocess.run(words, env={**known, **environment}, stdin=subprocess.DEVNULL, capture_output=True, text=True,
                          timeout=SECONDS, check=False, cwd="/")
    return done.returncode, done.stdout, done.stderr


class Folder(unittest.TestCase):
    """Tests in a folder of their own, with files that stand for the library and the server."""

    def setUp(self) -> None:
        room = tempfile.TemporaryDirectory()
        self.addCleanup(room.cleanup)
        self.room = Path(room.name)
        self.library = self.room / "librowanspan.so"
        self.library.write_bytes(b"\x7fELF")
        self.server = self.room / "mtserve"
        self.server.write_text(STAND_IN)
        self.reader = self.room / "mtfolder"
        self.reader.write_text('#!/bin/sh\necho "reads $@"\n')
        self.third_party = self.room / "THIRD-PARTY"
        self.third_party.write_text(NOTICES, encoding="utf-8")

    def command(self) -> List[str]:
        return [sys.executable, str(TOP / "scripts" / "wheel"), "--library", str(self.library), "--mtserve",
                str(self.server), "--mtfolder", str(self.reader), "--third-party", str(self.third_party)]

    def wheel(self, *words: str) -> Ended:
        return run([*self.command(), *words])

    def made(self, folder: str = "out", *words: str) -> Path:
        """A wheel."""
        status, output, errors = self.wheel("--out", str(self.room / folder), *words)
        self.assertEqual((status, "" if errors.startswith(NO_MODULE) else errors), (0, ""))
        return Path(output.strip())


class WheelTest(Folder):
    def test_what_is_in_it(self) -> None:
        path = self.made("out", "--no-native")
        self.assertRegex(path.name, f"^rowanspan-{VERSION}-py3-none-linux_[a-z0-9_]+\\.whl$")
        with zipfile.ZipFile(path) as wheel:
            self.assertIsNone(wheel.testzip())
            names = wheel.namelist()
            packed = {name: wheel.read(name) for name in names}
            modes = {info.filename: info.external_attr >> 16 for info in wheel.infolist()}
        package, page = HERE / "rowanspan", "rowanspan/board/"
        folders = (package, package / "board", package / "mirror")
        sources = {str(file.relative_to(HERE)) for it in folders for file in it.glob("*.py")}
        sources |= {page + file for file in ("page.html", "board.css", "icon.svg", "board.js", "card.js", "form.js",
                                             "line.js", "notation.js")}
        info = f"rowanspan-{VERSION}.dist-info"
        self.assertEqual(set(names), sources | {
            "rowanspan/py.typed", "rowanspan/librowanspan.so", "rowanspan/bin/mtserve", "rowanspan/bin/mtfolder",
            f"{info}/METADATA", f"{info}/WHEEL", f"{info}/RECORD", f"{info}/entry_points.txt", "rowanspan/THIRD-PARTY",
            f"{info}/licenses/LICENSE-MIT", f"{info}/licenses/LICENSE-APACHE"})
        self.assertEqual(packed["rowanspan/core.py"], (HERE / "rowanspan" / "core.py").read_bytes())
        self.assertEqual(packed["rowanspan/librowanspan.so"], b"\x7fELF")
        self.assertEqual([modes[f"rowanspan/{name}"] for name in ("bin/mtserve", "bin/mtfolder", "core.py")],
                         [0o100755, 0o100755, 0o100644])
        self.assertIn(f"\nVersion: {VERSION}\n".encode(), packed[f"{info}/METADATA"])
        self.assertIn(b"\nRequires-Python: >=3.9\n", packed[f"{info}/METADATA"])
        self.assertIn(b'\nProvides-Extra: postgres\nRequires-Dist: psycopg2 >=2.9; extra == "postgres"\n',
                      packed[f"{info}/METADATA"])
        self.assertIn(f"\nTag: {path.stem.split('-', 2)[2]}\n".encode(), packed[f"{info}/WHEEL"])
        self.assertEqual(packed[f"{info}/entry_points.txt"], b"[console_scripts]\nrowan = rowanspan.shell:main\n")
        self.check_licences(packed, info)
        self.check_record(packed, f"{info}/RECORD")

    def check_licences(self, packed: Dict[str, bytes], info: str) -> None:
        """The metadata name each licence file by its path below licenses/, which is as in the repository."""
        metadata = email.message_from_bytes(packed[f"{info}/METADATA"])
        self.assertEqual((metadata["Metadata-Version"], metadata["Author"], metadata["License-Expression"]),
                         ("2.4", "the Rowanspan authors", "MIT OR Apache-2.0"))
        for name in ("LICENSE-APACHE", "LICENSE-MIT"):
            self.assertIn(name, metadata.get_all("License-File", []))
            self.assertEqual(packed[f"{info}/licenses/{name}"], (TOP / name).read_bytes())
        # (with an expression the standard, PEP 639, allows no such classifier)
        self.assertFalse([it for it in metadata.get_all("Classifier", []) if it.startswith("License")])
        self.assertEqual(packed["rowanspan/THIRD-PARTY"].decode(), NOTICES)

    def check_record(self, packed: Dict[str, bytes], record: str) -> None:
        """The record has each file once, with its hash and its size, and itself without."""
        lines = list(csv.reader(packed[record].decode().splitlines()))
        self.assertEqual(sorted(name for name, _, _ in lines), sorted(packed))
        for name, digest, size in lines:
            hashed = hashlib.sha256(packed[name]).digest()
            wanted = "sha256=" + base64.urlsafe_b64encode(hashed).decode().rstrip("=")
            self.assertEqual((digest, size), ("", "") if name == record else (wanted, str(len(packed[name]))))

    def test_the_extension_module(self) -> None:
        """It is in the wheel, whose tag says so; where it can't be made, the wheel is one for each Python."""
        with_module, without = self.made(), self.made("without", "--no-native")
        if "-py3-none-" in with_module.name:
            self.skipTest("the extension module can't be made here")
        self.assertRegex(with_module.name, f"^rowanspan-{VERSION}-cp39-abi3-linux_[a-z0-9_]+\\.whl$")
        with zipfile.ZipFile(with_module) as wheel, zipfile.ZipFile(without) as other:
            self.assertEqual(set(wheel.namelist()) - set(other.namelist()), {"rowanspan/_native.abi3.so"})
            self.assertEqual(wheel.read("rowanspan/_native.abi3.so")[:4], b"\x7fELF")
            told = wheel.read(f"rowanspan-{VERSION}.dist-info/WHEEL")
        self.assertIn(f"\nTag: {with_module.stem.split('-', 2)[2]}\n".encode(), told)
        done = subprocess.run([*self.command(), "--out", str(with_module.parent)], check=False, capture_output=True,
                              text=True, env={**os.environ, "CC": "no-such-compiler"}, timeout=SECONDS)
        made = list(with_module.parent.glob("*.whl"))
        self.assertEqual((done.returncode, made), (0, [with_module.parent / without.name]))
        self.assertEqual(made[0].read_bytes(), without.read_bytes())
        self.assertEqual(done.stderr, f"{NO_MODULE}build_native: there is no C compiler no-such-compiler\n")

    def test_two_are_the_same(self) -> None:
        first = self.made("one").read_bytes()
        os.utime(self.library, (1, 1))
        self.server.chmod(0o700)
        self.assertEqual(self.made("two").read_bytes(), first)

    def test_what_is_missing(self) -> None:
        for file, maker in ((self.library, "./build"), (self.server, "./build"),
                            (self.third_party, "scripts/release")):
            before = file.read_bytes()
            file.unlink()
            status, output, errors = self.wheel("--no-native", "--out", str(self.room))
            self.assertEqual((status, output, errors), (1, "", f"wheel: {file} is missing: {maker} makes it\n"))
            file.write_bytes(before)
        self.assertEqual(list(self.room.glob("*.whl")), [])

    def test_bad_command_lines(self) -> None:
        (self.room / "file").write_text("")
        status, output, errors = self.wheel("--no-native", "--out", str(self.room / "file"))
        self.assertEqual((status, output, errors.count("\n")), (1, "", 1))
        self.assertEqual(self.wheel("--nonsense")[0], 2)


class InstalledTest(Folder):
    def install(self) -> Path:
        """Installs the wheel, in an environment of its own; returns the package's folder."""
        if importlib.util.find_spec("venv") is None or importlib.util.find_spec("ensurepip") is None:
            self.skipTest("Debian package python3-venv is missing")
        status, _, errors = run([sys.executable, "-m", "venv", str(self.room / "venv")])
        self.assertEqual(status, 0, errors)
        self.python, self.rowan = (str(self.room / "venv" / "bin" / name) for name in ("python3", "rowan"))
        status, _, errors = run([self.python, "-m", "pip", "install", "--no-index", "--no-deps",
                                 "--disable-pip-version-check", str(self.made())])
        self.assertEqual(status, 0, errors)
        code = "import rowanspan; print(rowanspan.__file__, rowanspan.__version__)"
        status, output, _ = run([self.python, "-c", code])
        file, version = output.split()
        self.assertEqual((status, version), (0, VERSION))
        self.assertIn("site-packages", file)
        return Path(file).parent

    def test_an_installed_package(self) -> None:
        package = self.install()
        self.assertTrue((package / "py.typed").exists())
        self.assertEqual(run([self.rowan, "--version"]), (0, f"rowan {VERSION}\n", ""))
        self.assertEqual(run([self.rowan, "--licenses"]), (0, f"{LICENCE}\n{NOTICES}", ""))
        status, output, errors = run([self.rowan, "--help"])
        self.assertEqual((status, errors), (0, ""))
        self.assertIn("rowan serve", output)
        status, output, errors = run([self.rowan, "board", "--help"])
        self.assertEqual((status, errors), (0, ""))
        self.assertIn("--build SPEC", output)
        self.check_mirror()
        self.assertEqual(run([self.rowan, "serve", "--port", "7"])[:2], (0, f"--port 7 {STOPS}\n{IGNORED}\n"))
        self.assertEqual(run([self.rowan, "folder", "rows", "7"])[:2], (0, "reads rows 7\n"))
        # an installer that drops the mode
        (package / "bin" / "mtserve").chmod(0o644)
        self.assertEqual(run([self.rowan, "serve", "a b"])[:2], (0, f"a b {STOPS}\n{IGNORED}\n"))
        # which isn't allowed to be set again
        (package / "bin" / "mtserve").chmod(0o644)
        status, output, errors = run([self.python, "-c", WITHOUT_CHMOD, "serve", "x"])
        self.assertEqual((status, output.split("\n")[0], errors), (0, f"x {STOPS}", ""))
        self.assertFalse(os.access(package / "bin" / "mtserve", os.X_OK))
        # the library of the package's own folder is the first that is tried
        status, output, errors = run([self.rowan, "--embedded", "get", "61", "all"])
        self.assertEqual((status, output, errors.count("\n")), (3, "", 1))
        self.assertIn(str(package / "librowanspan.so"), errors)

    def check_mirror(self) -> None:
        """A mirror of etcd needs nothing, and one of PostgreSQL a package that isn't there."""
        of_all = ["-p", "1", "--name", "a"]
        of_table = [*of_all, "--dsn", "", "--table", "t", "--key", "t/{id}"]
        self.assertEqual(run([self.rowan, "mirror", "postgres", *of_table]), (
            1, "", "rowan mirror: the Python package psycopg2 isn't installed: pip install 'rowanspan[postgres]', or "
            "Debian's python3-psycopg2\n"))
        of_etcd = [*of_all, "--url", "http://127.0.0.1:1", "--prefix", "a"]
        status, output, errors = run([self.rowan, "mirror", "etcd", *of_etcd])
        self.assertEqual((status, output), (4, ""))
        self.assertIn("rowan mirror: the source: ", errors)

    def test_the_built_files(self) -> None:
        missing = [str(file) for file in (LIBRARY, MTSERVE, MTFOLDER) if not file.exists()]
        if missing:
            self.skipTest(f"not built: {', '.join(missing)}")
        self.library, self.server, self.reader = LIBRARY, MTSERVE, MTFOLDER
        self.install()
        self.assertEqual(run([self.rowan, "--embedded", "put", "61", "0=76"]), (0, "done 0 1 put 1\n", ""))
        self.assertEqual(run([self.rowan, "serve", "--sessions", "0"])[:2], (0, "events 0 commits 0\n"))


class ServeTest(Folder):
    def serve(self, named: Optional[Path], *options: str) -> Ended:
        environment = {} if named is None else {"ROWANSPAN_MTSERVE": str(named)}
        return run([sys.executable, str(HERE / "rowan"), "serve", *options], **environment)

    def test_the_named_server(self) -> None:
        self.assertEqual(self.serve(self.server, "--port", "70", "--forever")[1].split("\n")[0],
                         f"--port 70 --forever {STOPS}")
        self.assertEqual(self.serve(self.server, "--data", "a b", "--sync", "50")[1].split("\n")[0],
                         f"--data a b --sync 50 {STOPS}")
        self.assertEqual(self.serve(self.server, "--help")[1].split("\n")[0], "--help")
        self.server.write_text("#!/bin/sh\nexit 7\n")
        self.assertEqual(self.serve(self.server), (7, "", ""))

    def test_no_server(self) -> None:
        missing = self.room / "none"
        self.assertEqual(self.serve(missing), (3, "", f"rowan: there is no server at {missing}\n"))
        self.server.write_bytes(b"no program")
        status, output, errors = self.serve(self.server)
        self.assertEqual((status, output, errors.count("\n")), (3, "", 1))
        self.assertIn(f"{self.server} can't be run", errors)

    def test_signals(self) -> None:
        self.assertEqual(signal.getsignal(signal.SIGPIPE), signal.SIG_IGN)
        self.assertEqual(self.serve(self.server)[1].split("\n")[1], IGNORED)

    def started(self, text: str) -> subprocess.Popen[bytes]:
        """`rowan serve` over a server that is this script, after the script's first line."""
        self.server.write_text(f"#!/bin/sh\necho began\n{text}")
        process = subprocess.Popen([sys.executable, str(HERE / "rowan"), "serve"], stdin=subprocess.DEVNULL,
                                   stdout=subprocess.PIPE, env={**os.environ, "ROWANSPAN_MTSERVE": str(self.server)})
        self.addCleanup(process.kill)
        assert process.stdout is not None
        self.addCleanup(process.stdout.close)
        self.assertEqual(process.stdout.readline(), b"began\n")
        return process

    def test_a_graceful_end(self) -> None:
        for number in (signal.SIGTERM, signal.SIGINT):
            process = self.started("cat\necho ended\nexit 5\n")
            process.send_signal(number)
            output, _ = process.communicate(timeout=SECONDS)
            self.assertEqual((process.returncode, output), (5, b"ended\n"))

    def test_a_second_signal(self) -> None:
        process = self.started("cat\necho waits\nexec sleep 300\n")
        process.terminate()
        assert process.stdout is not None
        self.assertEqual(process.stdout.readline(), b"waits\n")
        process.terminate()
        self.assertEqual(process.wait(SECONDS), 128 + signal.SIGKILL)

    def test_the_end_of_rowan(self) -> None:
        process = self.started("cat\necho ended\n")
        process.kill()
        self.assertEqual(process.communicate(timeout=SECONDS)[0], b"ended\n")


class VersionTest(unittest.TestCase):
    def test_the_version_of_the_checkout(self) -> None:
        self.assertEqual(rowanspan.__version__, VERSION)
        self.assertEqual(run([sys.executable, str(HERE / "rowan"), "--version"]), (0, f"rowan {VERSION}\n", ""))
        with self.assertRaises(AttributeError):
            rowanspan.no_such_name  # type: ignore[attr-defined]

    def test_a_copy_without_notices(self) -> None:
        with tempfile.TemporaryDirectory() as room:
            shutil.copytree(HERE / "rowanspan", Path(room) / "rowanspan", ignore=shutil.ignore_patterns("__pycache__"))
            code = "import sys; sys.path.insert(0, sys.argv[1]); from rowanspan.shell import main; main(['--licenses'])"
            wanted = f"{LICENCE}THIRD-PARTY isn't here: scripts/release makes it\n"
            self.assertEqual(run([sys.executable, "-c", code, room]), (0, wanted, ""))

    def test_a_copy(self) -> None:
        with tempfile.TemporaryDirectory() as room:
            (Path(room) / "rowanspan").mkdir()
            for file in (HERE / "rowanspan").glob("*.py"):
                (Path(room) / "rowanspan" / file.name).write_bytes(file.read_bytes())
            code = ("import sys; sys.path.insert(0, sys.argv[1]); import rowanspan, rowanspan.embedded as embedded\n"
                    "print(rowanspan.__version__)\n"
                    "try: embedded.Index()\n"
                    "except embedded.NoLibrary as fault: print(fault)\n")
            wanted = f"unknown\nthere is no library at {Path(room).resolve()}/rowanspan/librowanspan.so\n"
            self.assertEqual(run([sys.executable, "-c", code, room]), (0, wanted, ""))
