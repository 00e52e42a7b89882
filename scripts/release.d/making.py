"""Makes the release: THIRD-PARTY, the tarball, which is the same for the same files, and by scripts/wheel the wheel."""
from __future__ import annotations

import gzip
import hashlib
import io
import os
import subprocess
import sys
import tarfile
from dataclasses import dataclass
from pathlib import Path
from typing import Dict, List

import notices

TOP = Path(__file__).resolve().parent.parent.parent
HERE = Path(__file__).resolve().parent
DIST = TOP / "dist"
VERSION = (TOP / "VERSION").read_text(encoding="utf-8").strip()
NAME = f"rowanspan-{VERSION}"
TARBALL = DIST / f"{NAME}-x86_64-linux.tar.gz"
WHEEL = TOP / "scripts" / "wheel"
PROGRAMS = ("mtserve", "mtfolder", "mtdrive", "mtcheck")
# what others' code is linked into
LINKED = (*PROGRAMS, notices.LIBRARY)
LICENCES = ("LICENSE-MIT", "LICENSE-APACHE")
THIRD_PARTY = DIST / notices.NAME
SUMS = "SHA256SUMS"
# the shared library, and the link by which programs are linked with it
SHARED = "librowanspan.so.0"
LINKS = {"lib/librowanspan.so": SHARED}
# the time that each file of the tarball has, in seconds since 1970: the beginning of 1980
TIME = 315532800


class Missing(Exception):
    """Files that the release needs, a line for each."""


@dataclass(frozen=True)
class Packed:
    """A file of the tarball."""

    content: bytes
    is_program: bool = False


def sources() -> Dict[str, Path]:
    """The files that are packed as they are, by their paths in the tarball."""
    crate, examples = TOP / "bindings" / "rust", TOP / "examples" / "embedding"
    rust = [crate / "Cargo.toml", crate / "build.rs", *crate.glob("src/*.rs"), *crate.glob("tests/**/*.rs")]
    return {
        **{name: TOP / name for name in LICENCES},
        notices.NAME: THIRD_PARTY,
        **{f"bin/{name}": TOP / "crates" / name / "out" / name for name in PROGRAMS},
        **{f"lib/{name}": DIST / name for name in ("librowanspan.a", SHARED)},
        "include/rowanspan.h": DIST / "rowanspan.h",
        **{f"rust/{path.relative_to(crate)}": path for path in rust},
        **{f"examples/{name}": examples / name for name in (
            "word_count.c", "word_count.out", "counters.c", "counters.out", "cache.out")},
        "examples/cache/src/main.rs": examples / "cache" / "src" / "main.rs",
    }


def replaced(path: Path, old: str, new: str) -> Packed:
    """A file in which a text, which has to be there, is replaced."""
    text = path.read_text(encoding="utf-8")
    if old not in text:
        raise Missing(f"{path.relative_to(TOP)} doesn't have '{old}'")
    return Packed(text.replace(old, new).encode())


def packed_files() -> Dict[str, Packed]:
    """The files of the tarball by their paths in it, but for the sums."""
    absent = [path.relative_to(TOP) for path in sources().values() if not path.is_file()]
    missing = [f"there is no {path}" + ("; ./build makes it" if {"out", "dist"} & {*path.parts} else "")
               for path in absent]
    if missing:
        raise Missing("\n".join(missing))
    if f'#define ROWANSPAN_VERSION "{VERSION}"' not in (DIST / "rowanspan.h").read_text(encoding="utf-8"):
        raise Missing(f"dist/rowanspan.h isn't of version {VERSION}, which the file VERSION has; ./build makes it")
    manifest = TOP / "examples" / "embedding" / "cache" / "Cargo.toml"
    return {
        **{name: Packed(path.read_bytes(), name.startswith("bin/")) for name, path in sources().items()},
        "examples/cache/Cargo.toml": replaced(manifest, '"../../../bindings/rust"', '"../../rust"'),
        "lib/pkgconfig/rowanspan.pc": replaced(HERE / "rowanspan.pc", "@VERSION@", VERSION),
        "README.md": replaced(HERE / "README.md", "@VERSION@", VERSION),
    }


def make_third_party() -> None:
    """Makes THIRD-PARTY, which the tarball and the wheel have."""
    try:
        text = notices.third_party(notices.kit(), LINKED)
    except notices.NoNotice as fault:
        raise Missing(f"no {notices.NAME} was made: {fault}") from fault
    DIST.mkdir(exist_ok=True)
    THIRD_PARTY.write_text(text, encoding="utf-8")


def sums_of(files: Dict[str, Packed]) -> Packed:
    """The sums of files, as sha256sum writes them."""
    lines = [f"{hashlib.sha256(file.content).hexdigest()}  {name}\n" for name, file in sorted(files.items())]
    return Packed("".join(lines).encode())


def entry(name: str, mode: int) -> tarfile.TarInfo:
    """An entry of the tarball, with a fixed time and owner."""
    it = tarfile.TarInfo(f"{NAME}/{name}".rstrip("/"))
    it.mode, it.mtime = mode, TIME
    it.uname = it.gname = "root"
    return it


def write_tarball(files: Dict[str, Packed], to: Path) -> None:
    """Writes the files and the links, in the order of their names, each folder before what is in it."""
    names = {*files, *LINKS}
    folders = {""} | {str(above) for name in names for above in Path(name).parents if str(above) != "."}
    with to.open("wb") as raw, gzip.GzipFile(filename="", mode="wb", fileobj=raw, mtime=0) as zipped, \
            tarfile.open(fileobj=zipped, mode="w", format=tarfile.GNU_FORMAT) as tar:
        for name in sorted(folders | names):
            if name in folders:
                it = entry(name, 0o755)
                it.type = tarfile.DIRTYPE
                tar.addfile(it)
            elif name in LINKS:
                it = entry(name, 0o777)
                it.type, it.linkname = tarfile.SYMTYPE, LINKS[name]
                tar.addfile(it)
            else:
                it = entry(name, 0o755 if files[name].is_program else 0o644)
                it.size = len(files[name].content)
                tar.addfile(it, io.BytesIO(files[name].content))


def wheels() -> List[Path]:
    """The wheels of this version that were made."""
    return sorted(DIST.glob(f"{NAME}-*.whl"))


def make_wheel() -> bool:
    """Makes the wheel; whether that was done."""
    if not os.access(WHEEL, os.X_OK):
        print("release: there is no scripts/wheel that can be run, so there is no wheel", file=sys.stderr)
        return False
    return subprocess.run([str(WHEEL)], cwd=TOP, check=False).returncode == 0


def make() -> int:
    """Makes the tarball and the wheel, and returns the status."""
    try:
        make_third_party()
        files = packed_files()
    except Missing as missing:
        for line in str(missing).splitlines():
            print(f"release: {line}", file=sys.stderr)
        return 1
    files[SUMS] = sums_of(files)
    write_tarball(files, TARBALL)
    print(f"made {TARBALL.relative_to(TOP)}, of {len(files)} files", flush=True)
    return 0 if make_wheel() else 1
