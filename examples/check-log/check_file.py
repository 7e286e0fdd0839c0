#!/usr/bin/env python3
"""Checks the proof of a source by check_log.py: makes its log and its sequents, and judges the one by the other.

    check_file.py FILE [LOG]
    check_file.py --help

Without LOG the log is what `dfy prove FILE` makes. Where the programs `dfy` and `dfy_examples` (which prints sequents) are
built and no older than their sources, they are run; else `rt try` runs the unproved ones, in some minutes each, and that is
told. A log needs no trust, since it is checked; of the sequents that are made unproved, only a run of the built program
tells that they are those of the source. The statuses are those of check_log.py, and of `dfy prove` where there is no log.
"""
import os
import pathlib
import re
import shutil
import subprocess
import sys
import tempfile

sys.dont_write_bytecode = True

import check_log

CRATES = pathlib.Path(__file__).resolve().parent.parent.parent / "crates"
SOURCE = "source.dfy"
ENDED = re.compile(r"^run=ended status=(\d+) ", re.M)
# The lines of rt try that follow what the program wrote on standard error.
ABOUT_THE_RUN = re.compile(r"^(rt: .*\n|interpreter: |checked: |races: |run=)", re.M)
NOT_RUN = 70


def newest_source():
    files = [path for part in ("src", "specs", "proofs") for path in CRATES.glob(f"*/{part}/**/*") if path.is_file()]
    return max(path.stat().st_mtime for path in [*files, CRATES.parent / "crates.txt"])


def is_built(name):
    built = CRATES / name / "out" / name
    return built.is_file() and built.stat().st_mtime >= newest_source()


def built_run(name, words, folder):
    """The status and the streams of the built program, over the source in this folder."""
    done = subprocess.run([CRATES / name / "out" / name, *words], cwd=folder, stdin=subprocess.DEVNULL, capture_output=True)
    return done.returncode, done.stdout, done.stderr.decode(errors="replace")


def unproved_run(name, words, folder):
    """The status and the streams of the unproved program."""
    print(f"check_file.py: running {name} unproved, in some minutes", file=sys.stderr, flush=True)
    words = ["rt", "try", "--data", f"{SOURCE}={folder / SOURCE}", "--", *words]
    done = subprocess.run(words, cwd=CRATES / name, stdin=subprocess.DEVNULL, capture_output=True)
    said = done.stderr.decode(errors="replace")
    ended = ENDED.search(said)
    if not ended:
        return NOT_RUN, b"", said
    return int(ended[1]), done.stdout, ABOUT_THE_RUN.split(said)[0]


def output_of(name, words, folder):
    """What a program prints of the source in this folder; where it ends otherwise than well, what it tells, and its status."""
    run = built_run if is_built(name) else unproved_run
    status, printed, told = run(name, words, folder)
    if status:
        print(told.strip() or f"check_file.py: {name} ended with status {status}", file=sys.stderr)
    return status, printed


def judge(folder, name, log):
    """Makes what is missing, and checks the log of this name."""
    status = 0
    if log is None:
        status, log = output_of("dfy", ["prove", SOURCE], folder)
    if status == 0:
        status, text = output_of("dfy_examples", ["sequents", SOURCE.removesuffix(".dfy")], folder)
    if status:
        return status
    sequents = check_log.sequents_of(text)
    return check_log.told(*sequents, name, log) if sequents else check_log.fails(f"{name}: no sequents", check_log.USAGE)


def main(words):
    if words in (["--help"], ["-h"]):
        print(__doc__.strip())
        return 0
    if not 1 <= len(words) <= 2:
        return check_log.fails("usage: check_file.py FILE [LOG]", check_log.USAGE)
    for word in words:
        if not os.path.isfile(word):
            return check_log.fails(f"{word}: cannot read", check_log.UNREAD)
    if not shutil.which("rt") and not (is_built("dfy_examples") and is_built("dfy")):
        return check_log.fails("check_file.py: rt, of the Rattle kit, is not on the path", NOT_RUN)
    log = pathlib.Path(words[1]).read_bytes() if words[1:] else None
    with tempfile.TemporaryDirectory() as folder:
        shutil.copyfile(words[0], os.path.join(folder, SOURCE))
        return judge(pathlib.Path(folder), words[-1], log)


if __name__ == "__main__":
    sys.exit(check_log.deep(main, sys.argv[1:]))
