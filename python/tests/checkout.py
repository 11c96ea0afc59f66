"""A small checkout for tests of the launcher: the launcher itself, the sources of three crates, and a program."""

import pathlib
import shutil

from support import TOP, wait_until

# Ends as FAKE says: with a status, or by a signal. Else it copies standard input to standard output.
FAKE_PROGRAM = """#!/bin/sh
case ${FAKE-} in
  '') exec cat ;;
  [0-9]) echo "${FAKE_LINE-told}"; exit $FAKE ;;
  *) kill -s $FAKE $$ ;;
esac
"""
# Does what the kit does that the launcher looks at: headings on its way, and at last the program; or how it says that an unproved run ended.
FAKE_RT = """#!/bin/sh
echo "$PWD: rt $*" >>"$RT_SAID"
case $1 in
  all)
    printf '== low\\nfn low::f: proved\\n'
    until [ -e "${RT_GOES_ON-/}" ]; do sleep 0.1; done
    printf '== diag\\n== summary\\nlow: ok\\ndiag: ok\\n2 of 2 crates ok\\n'
    exit ${RT_FAILS-0}
    ;;
  run)
    printf '%s' "$RT_PROGRAM" >out/diag
    chmod 755 out/diag
    ;;
  try)
    printf '%s\\n' "${RT_WRITES-told}"
    printf 'checked: said\\n%s\\n' "$RT_ENDS" >&2
    exit 6
    ;;
esac
"""
# What is stored of the run of a program that copies its input.
STORED_RUN = {"args": "any\n", "stdin": "copied\n", "stdout": "copied\n", "data/any": ""}


def make_checkout(folder, program=None):
    """Makes the checkout. The program, a text or a path, is there as `rt ci` leaves it, if it is given."""
    top = pathlib.Path(folder)
    shutil.copy(TOP / "diag", top)
    # What tools leave in that folder, caches and builds, stays there.
    shutil.copytree(TOP / "python/diag_client", top / "python/diag_client", ignore=shutil.ignore_patterns("__pycache__", "bin"))
    for name in ("build-wheel", "pyproject.toml", "setup.py"):
        shutil.copy(TOP / "python" / name, top / "python")
    files = {
        "crates.txt": "# Lines in any order\ndiag: low std\nlow staticlib: std\ndiag_tests: diag\n", "HANDLES": "Handles allowed: none.\n",
        "crates/diag/src/main.rt": "fn main() {}\n", "crates/low/src/lib.rt": "fn low() {}\n", "crates/low/specs/Low.antt": "low\n",
        "crates/diag_tests/src/lib.rt": "fn test() {}\n", "crates/diag/proofs/Main.antt": "main\n",
    }
    if isinstance(program, pathlib.Path):
        for name in ("args", "stdin", "stdout"):
            files[f"crates/diag/{name}"] = (TOP / "crates/diag" / name).read_text()
        shutil.copytree(TOP / "crates/diag/data", top / "crates/diag/data")
    else:
        files |= {f"crates/diag/{name}": text for name, text in STORED_RUN.items()}
    for name, text in files.items():
        path = top / name
        path.parent.mkdir(parents=True, exist_ok=True)
        path.write_text(text)
    if program is not None:
        leave_program(top, program)
    return top


def leave_program(top, program):
    """Leaves a program as `rt ci` does, which has no record: it is compiled in a second way, and both are run."""
    out = top / "crates/diag/out"
    out.mkdir(exist_ok=True)
    (out / "diag.sources").unlink(missing_ok=True)
    wait_past(out, out)
    put_program(top, program)
    wait_past(out, out / "diag")
    for name in ("diag.by-rattle", "stdout", "stdout.by-rattle"):
        (out / name).touch()


def wait_past(out, file):
    """Waits until what is written now is newer than a file, by the clock of the file system, whose ticks may be long."""
    probe = out / "clock"

    def is_past():
        probe.touch()
        return probe.stat().st_ctime_ns > max(written.st_mtime_ns, written.st_ctime_ns)

    written = file.stat()
    wait_until(is_past)
    probe.unlink()


def put_program(top, program):
    """Puts a program, a text or a path, where the kit would."""
    path = top / "crates/diag/out/diag"
    if isinstance(program, pathlib.Path):
        shutil.copyfile(program, path)
    else:
        path.write_text(program)
    path.chmod(0o755)
