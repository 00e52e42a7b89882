"""Checks a release from empty folders and without the Rattle kit: what the tarball and the wheel have can be used."""
from __future__ import annotations

import os
import re
import shutil
import subprocess
import sys
import tarfile
import tempfile
import threading
import zipfile
from dataclasses import dataclass
from pathlib import Path
from typing import Callable, List, Optional, Sequence, Tuple

import making
import notices

SECONDS = 600
# the Debian packages of the commands that a check needs
PACKAGES = {"cc": "gcc", "c++": "g++", "cargo": "cargo", "pkg-config": "pkg-config", "sha256sum": "coreutils",
            "ldd": "libc-bin"}
LICENCE = b"MIT OR Apache-2.0"
# where what a program may need is, but for the release
OF_SYSTEM = ("linux-vdso", "/lib/", "/lib64/", "/usr/lib/", "/usr/lib64/")
# a put and a get of the server at the port that is named, by the client of the wheel
ASKING = """import sys
from rowanspan import Client
with Client(int(sys.argv[1])) as index:
    commit = index.put(b"apple", b"red")
    print(commit, index.get(b"apple").version, index.get(b"apple").columns, index.get(b"pear"))
"""
ASKED = "1 1 (b'red',) None\n"
# whether an embedded index has the extension module
WHICH_CALLS = "from rowanspan import Index; print(type(Index()._native).__name__)"
# the board of the wheel over the server at the port that is named: each file of its page
LOOKING = """import re, subprocess, sys, urllib.request
board = ["board", "-p", sys.argv[1], "--http", "0", "--build", "prefix 61 any"]
command = [sys.executable, "-m", "rowanspan.shell", *board]
with subprocess.Popen(command, stdout=subprocess.PIPE, text=True) as board:
    address = re.fullmatch("board at (.*)\\n", board.stdout.readline())[1]
    page = urllib.request.urlopen(address).read().decode()
    for path in sorted({*re.findall('(?:src|href)="/([^"]+)"', page), "card.js", "form.js", "line.js", "notation.js"}):
        print(path, urllib.request.urlopen(address + path).status)
    board.terminate()
"""
FILES_OF_PAGE = ("board.css", "board.js", "card.js", "form.js", "icon.svg", "line.js", "notation.js")
LOOKED = "".join(f"{name} 200\n" for name in FILES_OF_PAGE)


@dataclass(frozen=True)
class Outcome:
    """What came of a command."""

    status: int
    output: str
    errors: str = ""

    def why(self) -> str:
        return f"status {self.status}\n{self.output}{self.errors}"


class Checks:
    """The cases, in a folder of their own, by commands whose environment has no kit."""

    def __init__(self, room: Path) -> None:
        self.room, self.passed, self.failed = room, 0, 0
        self.unpacked = room / "unpacked" / making.NAME
        self.python: Optional[Path] = None
        kept = ("HOME", "LANG", "TMPDIR", "CARGO_HOME", "RUSTUP_HOME")
        self.environment = {name: os.environ[name] for name in kept if name in os.environ}
        cargo = shutil.which("cargo")
        folders = ["/usr/bin", "/bin", *([str(Path(cargo).parent)] if cargo else [])]
        self.environment["PATH"] = ":".join(folders)

    def case(self, name: str, is_so: bool, why: str = "") -> bool:
        """Counts a case, and prints whether it passed."""
        self.passed, self.failed = self.passed + is_so, self.failed + (not is_so)
        print(f"ok {name}" if is_so else f"FAILED {name}: {why}", flush=True)
        return is_so

    def has(self, command: str) -> bool:
        return shutil.which(command, path=self.environment["PATH"]) is not None

    def run(self, command: Sequence[str], folder: Optional[Path] = None, **environment: str) -> Outcome:
        """Runs a command, which is found on the path without the kit."""
        found = shutil.which(command[0], path=self.environment["PATH"])
        if found is None:
            package = PACKAGES.get(command[0])
            return Outcome(127, f"there is no {command[0]}" + (f" (Debian package {package})" if package else ""))
        try:
            done = subprocess.run([found, *command[1:]], cwd=folder or self.room, text=True, stdin=subprocess.DEVNULL,
                                  env={**self.environment, **environment}, capture_output=True, timeout=SECONDS,
                                  check=False)
        except (OSError, subprocess.TimeoutExpired) as fault:
            return Outcome(126, str(fault))
        return Outcome(done.returncode, done.stdout, done.stderr)

    def succeeds(self, name: str, command: Sequence[str], folder: Optional[Path] = None, **environment: str) -> bool:
        outcome = self.run(command, folder, **environment)
        return self.case(name, outcome.status == 0, outcome.why())

    def writes(self, name: str, command: Sequence[str], wanted: str, **environment: str) -> None:
        outcome = self.run(command, None, **environment)
        self.case(name, outcome.status == 0 and outcome.output == wanted, outcome.why())


# ---- the files

def unpack(checks: Checks) -> bool:
    folder = checks.unpacked.parent
    folder.mkdir()
    with tarfile.open(making.TARBALL) as tar:
        names = tar.getnames()
        tar.extractall(folder)
    is_one = [path.name for path in folder.iterdir()] == [making.NAME]
    return checks.case("unpacked", is_one and len(names) > 20, str(names))


def check_sums(checks: Checks) -> None:
    """Each file is in SHA256SUMS, and is as it says. Each link leads to a file."""
    checks.succeeds("sums", ["sha256sum", "--check", "--strict", "--quiet", making.SUMS], checks.unpacked)
    links = {path for path in checks.unpacked.rglob("*") if path.is_symlink()}
    there = {str(path.relative_to(checks.unpacked)) for path in {*checks.unpacked.rglob("*")} - links if path.is_file()}
    summed = {line.partition("  ")[2] for line in (checks.unpacked / making.SUMS).read_text().splitlines()}
    checks.case("each file has a sum", summed == there - {making.SUMS}, str(summed ^ there))
    leads = {str(path.relative_to(checks.unpacked)): os.readlink(path) for path in links if path.is_file()}
    checks.case("links", leads == making.LINKS and len(links) == len(leads), str(leads))


def check_notices(checks: Checks, where: str, text: str) -> None:
    """A THIRD-PARTY names each crate of the kit that is linked, and has the licences of each port."""
    try:
        folder = notices.kit()
    except notices.NoNotice as fault:
        print(f"skipped: what is linked isn't known: {fault}", flush=True)
        return
    try:
        missing = notices.without_notice(text, notices.linked(folder, making.LINKED), folder)
    except notices.NoNotice as fault:
        missing = [str(fault)]
    checks.case(f"notices of {where}", not missing, f"{notices.NAME} has no notice of {', '.join(missing)}")


def check_licences(checks: Checks, where: str, found: Callable[[str], bytes]) -> None:
    """An artefact has the licences of the repository, as they are there, and a THIRD-PARTY with all notices."""
    for name in making.LICENCES:
        checks.case(f"{name} of {where}", found(name) == (making.TOP / name).read_bytes(), "it isn't there, or differs")
    text = found(notices.NAME).decode()
    if checks.case(f"{notices.NAME} of {where}", text != "", "it isn't there"):
        check_notices(checks, where, text)


def check_licences_of_tarball(checks: Checks) -> None:
    def found(name: str) -> bytes:
        path = checks.unpacked / name
        return path.read_bytes() if path.is_file() else b""

    check_licences(checks, "the tarball", found)
    for name in ("lib/pkgconfig/rowanspan.pc", "rust/Cargo.toml"):
        checks.case(f"licence in {name}", LICENCE in found(name), f"it doesn't say {LICENCE.decode()}")


def check_licences_of_wheel(checks: Checks, path: Path) -> None:
    info = f"{making.NAME}.dist-info"
    with zipfile.ZipFile(path) as wheel:
        packed = {name: wheel.read(name) for name in wheel.namelist()}
    check_licences(checks, "the wheel", lambda name: packed.get(
        f"rowanspan/{name}" if name == notices.NAME else f"{info}/licenses/{name}", b""))
    checks.case("licence in METADATA", b"\nLicense-Expression: " + LICENCE in packed[f"{info}/METADATA"],
                f"it doesn't say {LICENCE.decode()}")


def check_programs(checks: Checks) -> None:
    """Each program says how it is used, and it and the library need nothing but what the system has."""
    for name in making.PROGRAMS:
        outcome = checks.run([str(checks.unpacked / "bin" / name), "--help"])
        checks.case(f"{name} --help", outcome.status == 0 and name in outcome.output, outcome.why())
    for path in [*(checks.unpacked / "bin" / name for name in making.PROGRAMS),
                 checks.unpacked / "lib" / making.SHARED]:
        outcome = checks.run(["ldd", str(path)])
        is_static = re.search("statically linked|not a dynamic executable", outcome.output + outcome.errors) is not None
        needed = [line.partition("=>")[2].strip() or line.strip() for line in outcome.output.splitlines()]
        is_of_system = bool(needed) and all(place.startswith(OF_SYSTEM) for place in needed)
        checks.case(f"{path.name} needs no kit", is_static or is_of_system, outcome.why())


# ---- Python and the server

def install_wheel(checks: Checks) -> None:
    """Installs the wheel in an environment of its own."""
    wheels = making.wheels()
    if not checks.case("there is a wheel", len(wheels) == 1, "dist/ has none of this version, or more than one"):
        return
    check_licences_of_wheel(checks, wheels[0])
    folder = checks.room / "environment"
    if checks.run([sys.executable, "-m", "venv", str(folder)]).status != 0:
        print("skipped: Debian package python3-venv is missing", flush=True)
        return
    python = folder / "bin" / "python"
    if checks.succeeds("install the wheel", [str(python), "-m", "pip", "install", "--no-index", "--quiet",
                                             "--disable-pip-version-check", str(wheels[0])]):
        checks.python = python


def check_server(checks: Checks) -> None:
    """The server answers a put and a get of the wheel's client, and its board, and ends after both sessions."""
    command = [str(checks.unpacked / "bin" / "mtserve"), "--port", "0", "--sessions", "2"]
    with subprocess.Popen(command, cwd=checks.room, env=checks.environment, text=True, stdin=subprocess.DEVNULL,
                          stdout=subprocess.PIPE, stderr=subprocess.PIPE) as server:
        # (if it names no port, or doesn't end)
        timer = threading.Timer(60, server.kill)
        timer.start()
        listening = re.fullmatch("listening ([0-9]+)\n", server.stderr.readline())
        if checks.case("mtserve listens", listening is not None, "it names no port"):
            checks.writes("a put and a get of mtserve", [str(checks.python), "-c", ASKING, listening[1]], ASKED)
            checks.writes("the page of the board", [str(checks.python), "-c", LOOKING, listening[1]], LOOKED)
        else:
            server.kill()
        output, errors = server.communicate()
        timer.cancel()
    checks.case("mtserve ends", server.returncode == 0 and output.endswith("commits 1\n"), output + errors)


def check_board(checks: Checks) -> None:
    """The command of the wheel says how the board is used."""
    outcome = checks.run([str(checks.python.parent / "rowan"), "board", "--help"])
    checks.case("rowan board --help", outcome.status == 0 and "--http PORT" in outcome.output, outcome.why())


def check_mirror(checks: Checks) -> None:
    """The command of the wheel says how a mirror is used; without psycopg2 it says what is missing."""
    rowan = str(checks.python.parent / "rowan")
    outcome = checks.run([rowan, "mirror", "etcd", "--help"])
    checks.case("rowan mirror etcd --help", outcome.status == 0 and "--prefix PREFIX" in outcome.output, outcome.why())
    outcome = checks.run([rowan, "mirror", "postgres", "-p", "1", "--name", "a", "--dsn", "", "--table", "t", "--key",
                          "t/{id}"])
    checks.case("rowan mirror postgres without psycopg2", outcome.status == 1 and "psycopg2" in outcome.errors,
                outcome.why())


def check_printed_licences(checks: Checks) -> None:
    """The command of the wheel prints the notices."""
    outcome = checks.run([str(checks.python.parent / "rowan"), "--licenses"])
    begins, slab = f"Rowanspan: {LICENCE.decode()}\n\n", "\n" + notices.HEADING.format("slab")
    is_whole = outcome.output.startswith(begins) and slab in outcome.output
    checks.case("rowan --licenses", outcome.status == 0 and is_whole, outcome.why())


def check_python(checks: Checks) -> None:
    """The example in Python, away from the repository, so that it imports the package of the wheel; by the extension
    module that the wheel has, and without it."""
    example = making.TOP / "examples" / "embedding" / "leaderboard.py"
    copied = checks.room / example.name
    shutil.copyfile(example, copied)
    printed = example.with_suffix(".out").read_text()
    checks.writes("leaderboard", [str(checks.python), "-I", str(copied)], printed)
    checks.writes("leaderboard by ctypes", [str(checks.python), "-I", str(copied)], printed, ROWANSPAN_NO_NATIVE="1")
    kind = "Calls" if "-cp39-abi3-" in making.wheels()[0].name else "NoCalls"
    checks.writes("the extension module", [str(checks.python), "-I", "-c", WHICH_CALLS], f"{kind}\n")


# ---- C and Rust

def flags_of(checks: Checks) -> List[str]:
    """How a program is compiled with the shared library of the tarball."""
    library, include = checks.unpacked / "lib", checks.unpacked / "include"
    if not checks.has("pkg-config"):
        print("pkg-config is missing (Debian package pkg-config): by -I and -L", flush=True)
        return [f"-I{include}", f"-L{library}", "-lrowanspan"]
    outcome = checks.run(["pkg-config", "--cflags", "--libs", "rowanspan"], None,
                         PKG_CONFIG_PATH=str(library / "pkgconfig"))
    version = checks.run(["pkg-config", "--modversion", "rowanspan"], None,
                         PKG_CONFIG_PATH=str(library / "pkgconfig"))
    checks.case("pkg-config", outcome.status == 0 and version.output.strip() == making.VERSION, outcome.why())
    return outcome.output.split()


def example_of_readme(checks: Checks) -> Tuple[Path, str]:
    """The program that README.md has first, as a file, and what it prints."""
    text = (checks.unpacked / "README.md").read_text(encoding="utf-8")
    program, printed = re.search(r"```c\n(.*?)```", text, re.S), re.search(r"```text\n(.*?)```", text, re.S)
    path = checks.room / "hello.c"
    path.write_text(program[1] if program else "")
    return path, printed[1] if printed else "nothing"


def check_c(checks: Checks) -> None:
    """The example of README.md as C and as C++, with both libraries, and the examples of the tarball."""
    source, wanted = example_of_readme(checks)
    flags, warnings = flags_of(checks), ["-Wall", "-Wextra", "-Werror"]
    library = checks.unpacked / "lib"
    static = [f"-I{checks.unpacked / 'include'}", str(library / "librowanspan.a")]
    word_count = checks.unpacked / "examples" / "word_count.c"
    for name, compiler, path, linked, printed in (
            ("hello", ["cc"], source, flags, wanted), ("hello-static", ["cc"], source, static, wanted),
            ("hello-c++", ["c++", "-x", "c++"], source, flags, wanted),
            ("word_count", ["cc", "-std=c99"], word_count, flags, word_count.with_suffix(".out").read_text())):
        program = checks.room / name
        command = [*compiler, *warnings, str(path), "-x", "none", *linked, "-o", str(program)]
        if checks.succeeds(f"compile {name}", command):
            checks.writes(name, [str(program)], printed, LD_LIBRARY_PATH="" if linked is static else str(library))


def check_rust(checks: Checks) -> None:
    examples = checks.unpacked / "examples"
    checks.writes("cache", ["cargo", "run", "--offline", "--quiet", "--manifest-path",
                            str(examples / "cache" / "Cargo.toml"), "--target-dir", str(checks.room / "target")],
                  (examples / "cache.out").read_text())
    checks.succeeds("tests of the crate", ["cargo", "test", "--offline", "--quiet", "--target-dir",
                                           str(checks.room / "target")], checks.unpacked / "rust")


def check() -> int:
    """Checks what was made, and returns the status."""
    if not making.TARBALL.is_file():
        print(f"release: there is no dist/{making.TARBALL.name}; scripts/release makes it", file=sys.stderr)
        return 1
    with tempfile.TemporaryDirectory() as folder:
        checks = Checks(Path(folder))
        checks.case("no kit on the path", not checks.has("rt"), checks.environment["PATH"])
        if unpack(checks):
            check_sums(checks)
            check_licences_of_tarball(checks)
            check_programs(checks)
            check_c(checks)
            check_rust(checks)
            install_wheel(checks)
            if checks.python is not None:
                check_server(checks)
                check_board(checks)
                check_mirror(checks)
                check_printed_licences(checks)
                check_python(checks)
    print(f"{checks.passed} passed, {checks.failed} failed")
    return 1 if checks.failed else 0
