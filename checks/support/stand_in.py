"""A stand-in for rt, for checks/launcher: notes what it builds, and proves nothing.

As rt does, it keeps others out of the folders of a crate and of those below it, builds first what is missing below,
and takes over what was built in another copy of the repository, unless SHARES is 0.
"""
import fcntl
import os
import sys
import time
from pathlib import Path

HERE = Path.cwd()
CRATES = HERE.parent
SHARED = Path(os.environ["STAND_IN"])
PROGRAM = """#!/bin/sh
if [ $# = 0 ]; then echo 'usage: streamscope check' >&2; exit 2; fi
printf '%s' "$PWD"; printf '|%s' "$@"; echo
"""


def below(name, listed):
    found = []
    for it in listed[name]:
        if it in listed:
            found += [its for its in [*below(it, listed), it] if its not in found]
    return found


def note(what, name, jobs):
    with open(SHARED / "log", "a") as log:
        log.write(f"{time.monotonic():.6f} {what} {name} {CRATES / name} {jobs}\n")


def text_of(names):
    return "".join(file.read_text() for it in names for file in sorted((CRATES / it / "src").iterdir()))


def build(name, listed, jobs):
    """Builds a crate where its text or that of a crate below is new, in this copy and in each other one."""
    text = text_of([*below(name, listed), name])
    built = [CRATES / name / "out/built"] + [SHARED / f"built-{name}"] * (os.environ.get("SHARES") != "0")
    is_new = not any(it.exists() and it.read_text() == text for it in built)
    if is_new:
        note("begin", name, jobs)
        time.sleep(60 if name == os.environ.get("SLOW") else 0.3)
        if name == os.environ.get("FAILS"):
            note("fail", name, jobs)
            print(f"{name} is not proved")
            sys.exit(int(os.environ.get("STATUS", 1)))
    for it in built:
        it.parent.mkdir(exist_ok=True)
        it.write_text(text)
    if is_new:
        note("end", name, jobs)
        print("logic=proved functions=1")


def main():
    verb, *words = sys.argv[1:]
    jobs = words[1] if words[:1] == ["--jobs"] else "1"
    listed = {}
    for line in (CRATES.parent / "crates.txt").read_text().splitlines():
        head, colon, uses = line.partition("#")[0].partition(":")
        if colon:
            listed[head.strip()] = uses.split()
    names = [*below(HERE.name, listed), HERE.name]
    held = [os.open(CRATES / it, os.O_RDONLY) for it in sorted(names)]
    for it in held:
        fcntl.flock(it, fcntl.LOCK_EX)
    for name in names:
        build(name, listed, jobs)
    if verb == "run":
        program = HERE / "out/streamscope"
        program.write_text(PROGRAM)
        program.chmod(0o755)
        print("usage: streamscope check", file=sys.stderr)
        return 2
    return 0


if __name__ == "__main__":
    sys.exit(main())
