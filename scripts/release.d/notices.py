"""Makes THIRD-PARTY: the notices of what is linked into the programs and the library, and isn't of this repository.

That is the closure of what crates.txt names, through the libraries of the Rattle kit. A port of a Rust crate has its
licence texts beside it in the kit, and has a heading with these. What the kit has without a licence text is the
toolchain's own: it is named, with what its sources say of licences. A port without a licence text isn't handed out.
"""
from __future__ import annotations

import re
import shutil
import subprocess
from pathlib import Path
from typing import Callable, Dict, List, Mapping, Sequence, Set, Tuple

TOP = Path(__file__).resolve().parent.parent.parent
NAME = "THIRD-PARTY"
# the crate that the library is made of
LIBRARY = "rowanspan_c"
STANDARD = "std"
# what begins a notice
HEADING = "== {}\n"
TOOLCHAIN = HEADING.format("The Rattle toolchain")
# what a comment says of a licence, and the file of the kit that has its text
SAYS_LICENCE = re.compile("licen[cs]e|copyright", re.I)
TEXTS = {"Unicode License v3": "unicode/LICENSE-UNICODE"}

HEAD = """\
Rowanspan is under the MIT licence or the Apache License 2.0, at your option (LICENSE-MIT, LICENSE-APACHE).

Linked into its programs and its library are parts of the Rattle kit, which others wrote: ports of Rust crates, each
under the licences of the crate, and parts of the Rattle toolchain, which are named after them. The kit is
{kit}.
"""
OWN = """\
These crates of the kit are parts of the Rattle toolchain, as are its objects libos_c.a and liblibc_c.a:

    {names}

The kit has no licence text for them, so none is here, and none of the licences above is theirs. What some of their
sources say of licences follows.

The linkers add start files of the C library and of GCC's runtime (crt*.o, libgcc.a, libc_nonshared.a). By an exception
in their licences these may be in a program of any licence. The C library itself is the system's, and not linked in.
"""


class NoNotice(Exception):
    """What is linked can't be found out, or has no notice."""


# ---- what is linked

def kit() -> Path:
    """The folder of the Rattle kit, as its rt names it."""
    rt = shutil.which("rt")
    if rt is None:
        raise NoNotice("the kit's rt is not on the path")
    done = subprocess.run([rt, "doc"], capture_output=True, text=True, check=False)
    folder = Path(done.stdout.strip()).parent
    if done.returncode != 0 or not (folder / "rlibs").is_dir():
        raise NoNotice(f"rt doc names no kit: {done.stdout}{done.stderr}")
    return folder


def own_crates() -> Dict[str, List[str]]:
    """The crates of the repository, each with what it uses: the lines of crates.txt."""
    lines = (line.partition("#")[0] for line in (TOP / "crates.txt").read_text(encoding="utf-8").splitlines())
    named = (line.partition(":") for line in lines if ":" in line)
    return {head.split()[0]: uses.split() for head, _, uses in named}


def uses_of_kit(folder: Path, name: str) -> List[str]:
    """What a library of the kit uses."""
    path = folder / "rlibs" / f"{name}.rlib" / "format"
    lines = path.read_text(encoding="utf-8").splitlines() if path.is_file() else []
    if lines[:1] != ["rattle rlib"]:
        raise NoNotice(f"{path} isn't there, or isn't as it was when this was written")
    return [line.split()[1] for line in lines if line.startswith("dep ")]


def closure(names: Sequence[str], uses: Callable[[str], Sequence[str]]) -> Set[str]:
    """These names and all that they use."""
    found: Set[str] = set()
    left = list(names)
    while left:
        name = left.pop()
        if name not in found:
            found.add(name)
            left += uses(name)
    return found


def linked(folder: Path, roots: Sequence[str]) -> Dict[str, List[str]]:
    """The crates of the kit that are linked, each with the programs that have it, in the order of their names."""
    own = own_crates()
    found: Dict[str, List[str]] = {}
    for root in roots:
        if root not in own:
            raise NoNotice(f"crates.txt has no {root}")
        # (each crate uses the standard library, and crates.txt doesn't say so)
        for name in closure([root, STANDARD], lambda it: own[it] if it in own else uses_of_kit(folder, it)):
            if name not in own:
                found.setdefault(name, []).append("librowanspan" if root == LIBRARY else root)
    return dict(sorted(found.items()))


# ---- the notices

def licences(folder: Path, name: str) -> List[Path]:
    """The licence texts that a crate of the kit has."""
    return sorted((folder / "rattle" / name).glob("LICENSE*"))


def ports(folder: Path, names: Sequence[str]) -> List[str]:
    """Those of these crates that have a licence text. Fails at a port that has none."""
    known = "".join((folder / "rattle" / page).read_text(encoding="utf-8") for page in ("CARGO_NAMES.md", "CRATES.md"))
    standard = closure([STANDARD], lambda it: uses_of_kit(folder, it))
    for name in names:
        if not licences(folder, name) and name not in standard and f"`{name}`" in known:
            raise NoNotice(f"{name}, which is linked, stands for a Rust crate, and has no licence text in the kit")
    return [name for name in names if licences(folder, name)]


def origin(folder: Path, name: str) -> str:
    """Which Rust crate a port is of, as its page says."""
    page = (folder / "rattle" / name / "README.md").read_text(encoding="utf-8")
    named = re.search(r"Rust crate `([^`]+)`( [0-9][0-9.]*[0-9])?", page)
    return f"{named[1]}{named[2] or ''}" if named else name


def said_in_sources(folder: Path, name: str) -> List[Tuple[str, str]]:
    """The first comment of each file of a crate that says something of a licence, after the file's name."""
    found = []
    for path in sorted((folder / "rattle" / name / "src").rglob("*.rt")):
        comment = re.match(r"(?://.*\n)*", path.read_text(encoding="utf-8"))
        if comment is not None and SAYS_LICENCE.search(comment[0]):
            found.append((f"{name}/{path.relative_to(folder / 'rattle' / name)}",
                          re.sub(r"^//[/!]? ?", "", comment[0], flags=re.M)))
    return found


class Texts:
    """Licence texts, each once, with the names of what it is for. Texts with the same words are the same."""

    def __init__(self) -> None:
        self._texts: Dict[str, str] = {}
        self._names: Dict[str, List[str]] = {}

    def number(self, text: str, what: str) -> int:
        """The number of a text, from 1 on, which is for this too."""
        words = words_of(text)
        self._texts.setdefault(words, text)
        self._names.setdefault(words, []).append(what)
        return list(self._texts).index(words) + 1

    def __str__(self) -> str:
        return "\n".join(HEADING.format(f"Text {number}: {', '.join(self._names[words])}") + f"\n{text}\n"
                         for number, (words, text) in enumerate(self._texts.items(), 1))


def words_of(text: str) -> str:
    return " ".join(text.split())


def text_of(path: Path) -> str:
    """A licence text, without empty lines around it. Fails if there is none."""
    text = path.read_text(encoding="utf-8").strip("\n").rstrip() if path.is_file() else ""
    if not text:
        raise NoNotice(f"{path} isn't there, or is empty")
    return text


def notice_of(folder: Path, name: str, programs: Sequence[str], texts: Texts) -> str:
    """A port's notice, with the numbers of its texts."""
    numbers = [f"{path.name}: text {texts.number(text_of(path), f'{name} ({path.name})')}\n"
               for path in licences(folder, name)]
    said = f"\nA port of the Rust crate {origin(folder, name)}. Linked into {', '.join(programs)}.\n"
    return "".join([HEADING.format(name), said, *numbers])


def notice_of_toolchain(folder: Path, names: Sequence[str], texts: Texts) -> str:
    """What is said of the toolchain's own parts."""
    said = [it for name in names for it in said_in_sources(folder, name)]
    parts = [f"-- {path}\n\n{comment}" for path, comment in said]
    for name, path in TEXTS.items():
        if any(name in comment for _, comment in said):
            number = texts.number(text_of(folder / "rattle" / path), f"the toolchain ({name})")
            parts.append(f"{name}: text {number}\n")
    return "\n".join([TOOLCHAIN, OWN.format(names=" ".join(names)), *parts])


def third_party(folder: Path, roots: Sequence[str]) -> str:
    """The text of THIRD-PARTY."""
    found, texts = linked(folder, roots), Texts()
    ported = ports(folder, list(found))
    head = HEAD.format(kit=(folder / "KIT-ID").read_text(encoding="utf-8").strip())
    notices = [notice_of(folder, name, found[name], texts) for name in ported]
    own = notice_of_toolchain(folder, [name for name in found if name not in ported], texts)
    return "\n".join([head, *notices, own, str(texts)])


def without_notice(text: str, found: Mapping[str, Sequence[str]], folder: Path) -> List[str]:
    """Which of the linked crates a THIRD-PARTY doesn't have: ports without a heading or a text, other parts without
    their name."""
    named = re.findall("^    (.*)$", text.partition(TOOLCHAIN)[2].partition("\n-- ")[0], re.M)
    own, words, missing = " ".join(named).split(), words_of(text), []
    for name in found:
        notice = text.partition("\n" + HEADING.format(name))[2].partition("\n== ")[0]
        held = [f"\n{path.name}: text " in notice and words_of(text_of(path)) in words
                for path in licences(folder, name)]
        if not (all(held) if held else name in own):
            missing.append(name)
    return missing
