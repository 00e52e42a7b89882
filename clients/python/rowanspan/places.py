"""Where the package is, installed or in a checkout of the repository, and which version it has."""
from __future__ import annotations

from pathlib import Path
from typing import List, Optional

PACKAGE = Path(__file__).resolve().parent


def checkout() -> Optional[Path]:
    """The root of the checkout that the package is in; None if it is installed, or was copied out."""
    above = PACKAGE.parents
    if len(above) < 3 or PACKAGE.parent != above[2] / "clients" / "python" or not (above[2] / "VERSION").is_file():
        return None
    return above[2]


def none_at(what: str, tried: List[Path]) -> str:
    """A message: there is no such thing at any of these paths, and if one is in the checkout, how to make it."""
    top = checkout()
    is_built = top is not None and any(top in path.parents for path in tried)
    return f"there is no {what} at {' or '.join(map(str, tried))}{': ./build makes it' if is_built else ''}"


def third_party() -> Optional[Path]:
    """The notices of what is linked into the library and the server: in the package, or in the folder dist of the
    checkout; None if they aren't there."""
    top = checkout()
    tried = [PACKAGE / "THIRD-PARTY"] if top is None else [PACKAGE / "THIRD-PARTY", top / "dist" / "THIRD-PARTY"]
    return next((path for path in tried if path.is_file()), None)


def version() -> str:
    """The version of the package: that of the checkout, or of the installed distribution; 'unknown' for a copy."""
    from importlib import metadata

    top = checkout()
    if top is not None:
        return (top / "VERSION").read_text(encoding="ascii").strip()
    try:
        found = metadata.distribution("rowanspan")
    except metadata.PackageNotFoundError:
        return "unknown"
    is_this_one = Path(str(found.locate_file("rowanspan"))).resolve() == PACKAGE
    return found.version if is_this_one else "unknown"
