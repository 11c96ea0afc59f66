"""Which program is started if nothing else is said."""

from __future__ import annotations

import json
import os
import pathlib
import shutil
import subprocess
import urllib.parse

from .errors import NotBuilt

TOP = pathlib.Path(__file__).resolve().parents[2]
# The program in a wheel of this package.
PACKED = pathlib.Path(__file__).parent / "bin/diag"


def find_program() -> str:
    """The path of what is started if nothing else is said.

    It is what DIAG_PROGRAM in the environment names, or the program in a wheel of this package, or the built program of the checkout that
    this module is in or was installed from, or `diag` on the path. Raises `NotBuilt` if there is none.
    """
    if named := os.environ.get("DIAG_PROGRAM"):
        return named
    if PACKED.exists():
        return str(PACKED)
    for top in (TOP, installed_from()):
        if top is not None and (top / "diag").exists():
            return program_of(top)
    if found := shutil.which("diag"):
        return found
    raise NotBuilt("there is no program `diag`: set DIAG_PROGRAM to the path of the built program, or give it as program=")


def program_of(top: pathlib.Path) -> str:
    """The built program of a checkout, whose launcher knows whether it is built from the sources there."""
    launcher, built = top / "diag", top / "crates/diag/out/diag"
    asked = subprocess.run([launcher, "--path"], stdout=subprocess.PIPE, encoding="utf-8", errors="surrogateescape", check=False)
    if asked.returncode == 0:
        return asked.stdout.rstrip("\n")
    why = f"the program is not built from these sources; DIAG_PROGRAM={built} runs it as it is" if built.exists() else "it is not built"
    make = f"`{launcher} --build` proves and builds it, which takes about 20 minutes and needs the kit"
    raise NotBuilt(f"{why}: {make}; DIAG_PROGRAM names a program that was built elsewhere")


def installed_from() -> pathlib.Path | None:
    """The checkout that the installed package was made from, which `pip` notes for a folder; None if there is none."""
    # It takes as long to load as half of this package.
    from importlib import metadata

    try:
        noted = metadata.distribution("diag-client").read_text("direct_url.json")
    except metadata.PackageNotFoundError:
        return None
    url = urllib.parse.urlsplit(str(json.loads(noted or "{}").get("url", "")))
    return pathlib.Path(urllib.parse.unquote(url.path)).parent if url.scheme == "file" else None
