#!/usr/bin/env python3
"""Tries check_log.py, and dfy beside it where its path is given.

    test.py [DFY [EXAMPLES]]
    test.py --write

The logs by hand in `data` must be accepted, and each log of the examples `logs/down` and `logs/middle` (docs/contributing.md) must
be answered as these say. Of each log its mutants are tried: it without one of its lines, and it with two neighbours swapped.
Each must be answered by a status 0 or 10. With DFY, `dfy check` must give the same line; so it must of the logs that
`dfy prove` makes of other examples and of the source of `bulk 0 3`, and of their mutants, where check_log.py has the sequents
of their sources from EXAMPLES, the path of the program `dfy_examples`. And logs that are too long, or have ten million
literals in a line, must be answered. Nothing of this is part of the gate, but for the mutants of the logs by hand, which are
examples too: `--write` writes them with what check_log.py answers.
"""
import os
import re
import subprocess
import sys
import tempfile
import time

sys.dont_write_bytecode = True

import check_log

HERE = os.path.dirname(os.path.abspath(__file__))
DATA = os.path.join(HERE, "..", "..", "crates", "dfy_examples", "data")
BY_HAND = {"down": "Down", "middle": "Mid"}
PROVED = ("rows/middle", "rows/counting", "rows/even-and-odd", "six", "abs_mended", "programs/collatz")
ESCAPES = {"n": "\n", "t": "\t", "r": "\r", "0": "\0", "s": " ", "\\": "\\"}


class Failed(Exception):
    pass


def require(condition, *told):
    if not condition:
        raise Failed(*told)


def bytes_of(path):
    with open(path, "rb") as file:
        return file.read()


# ---- examples

def unescaped(text):
    return re.sub(r"\\(.)", lambda found: ESCAPES[found[1]], text).encode()


def escaped(text):
    return text.decode("ascii").replace("\\", "\\\\").replace("\n", "\\n")


def examples(name):
    """The files of an example, and its tries of `check` with them: the log's name, the status and the line on `err`."""
    files, tries = {}, []
    for line in bytes_of(os.path.join(DATA, name + ".expected")).decode().split("\n"):
        word, _, rest = line.partition(" ")
        word, _, times = word.partition("*")
        if word == "file":
            file, _, text = rest.partition(" ")
            files[file] = files.get(file, b"") + unescaped(text) * int(times or 1)
        elif word == "try":
            tries.append({"words": rest.split(" "), "status": 0, "err": b"", "fails": False})
        elif word == "status":
            tries[-1]["status"] = int(rest)
        elif word == "err":
            tries[-1]["err"] += rest.replace("\\n", "\n").encode()
        elif word == "fail":
            tries[-1]["fails"] = True
    source = os.path.basename(name) + ".dfy"
    checks = [t for t in tries if t["words"][:2] == ["check", source] and t["words"][2:3] and t["words"][2] in files
              and len(t["words"]) == 3 and not t["fails"] and t["status"] in (0, 10)]
    return files, checks


def mutants(text):
    """The text with each line dropped, and with each line and the next one swapped."""
    lines = text.splitlines(keepends=True)
    for at in range(len(lines)):
        yield f"without-{at + 1}.log", b"".join(lines[:at] + lines[at + 1:])
    for at in range(len(lines) - 1):
        yield f"swapped-{at + 1}.log", b"".join(lines[:at] + [lines[at + 1], lines[at]] + lines[at + 2:])


def generated(seed, methods):
    """The source that `bulk SEED N` makes."""
    lines, sums = ["newtype u = x: int | 0 <= x < 1000000000"], []
    for k in range(methods):
        seed = (seed * 6364136223846793005 + 1442695040888963407) % 2**64
        c = seed // 2**33 % 100
        lines.append(
            f"method m{k}(n: u) returns (r: u) requires n < 1000 ensures r == n * {c} "
            f"{{ r := 0; var i: u := 0; while i < n invariant i <= n && r == i * {c} {{ r := r + {c}; i := i + 1; }} }}"
        )
        sums.append(f"a := m{k}(10); t := t + a;")
    lines += ["method Main() { var t: u := 0; var a: u := 0;", *sums, 'print t, "\\n"; }']
    return "".join(line + "\n" for line in lines)


# ---- answers

def answer(command, folder):
    """The status, and the line on `err`."""
    done = subprocess.run(command, capture_output=True, cwd=folder)
    return done.returncode, done.stderr


class Checked:
    """What check_log.py answers of logs of one source. A part that it had before it doesn't check anew."""

    def __init__(self, sequents):
        self.sequents, self.types = check_log.read_sequents(sequents.decode("ascii"))
        self.places = {}

    def judge(self, sequent, types, steps):
        key = id(sequent), repr(steps)
        if key not in self.places:
            self.places[key] = check_log.refused_at(sequent, types, steps)
        return self.places[key]

    def answer(self, name, text):
        fault = check_log.check(self.sequents, self.types, text.decode("latin-1"), self.judge)
        return (0, b"") if fault is None else (10, f"{name}:{fault}\n".encode())


def expected(name, method):
    """The example with the mutants of a log by hand."""
    source, sequents, log = (bytes_of(os.path.join(HERE, "data", name + end)) for end in (".dfy", ".sequents", ".log"))
    checked = Checked(sequents)
    lines = [f"# The log of `{name}` by hand, without each of its lines in turn, and with each swapped with the next one.",
             "source " + escaped(source)]
    for file, text in mutants(log):
        status, told = checked.answer(file, text)
        lines += [f"file {file} {escaped(text)}", f"try check {name}-mutants.dfy {file}"]
        lines += [f"status {status}", "err " + escaped(told)] if status else [f"out {method}: verified\\n", "out 1 verified, 0 unproved\\n"]
    return ("\n".join(lines) + "\n").encode()


def mutants_path(name):
    return os.path.join(DATA, "logs", name + "-mutants.expected")


def try_logs(dfy, folder, source, logs, checked):
    """How many logs are answered by a status 0 or 10, and by check_log.py and dfy alike."""
    count = 0
    for name, text in logs:
        found = [checked.answer(name, text)] if checked is not None else []
        if dfy is not None:
            with open(os.path.join(folder, name), "wb") as file:
                file.write(text)
            found.append(answer([dfy, "check", source, name], folder))
        require(all(one[0] in (0, 10) and one == found[0] for one in found), source, found, text)
        count += 1
    return count


def try_by_hand(dfy, folder, name):
    """A log by hand, those of its example, and its mutants."""
    begin = time.monotonic()
    source, sequents, path = (os.path.join(HERE, "data", name + end) for end in (".dfy", ".sequents", ".log"))
    files, checks = examples("logs/" + name)
    log, checked = bytes_of(path), Checked(bytes_of(sequents))
    require(log in files.values(), f"logs/{name}.expected has another log")
    require(checked.answer("p.log", log)[0] == 0, path)
    require(bytes_of(mutants_path(name)) == expected(name, BY_HAND[name]), f"logs/{name}-mutants.expected says otherwise")
    for tried in checks:
        file = tried["words"][2]
        found = checked.answer(file, files[file])
        require(found == (tried["status"], tried["err"]), file, found)
    count = len(checks) + try_logs(dfy, folder, source, mutants(log), checked)
    print(f"{name}: {count} logs, {time.monotonic() - begin:.1f} s")


def try_proved(dfy, rows, folder, source):
    """A log that dfy makes, which it takes, and its mutants."""
    begin = time.monotonic()
    proved = subprocess.run([dfy, "prove", source], capture_output=True)
    require(proved.returncode == 0, source, proved)
    checked = None
    if rows is not None:
        command = [rows, "sequents", source.removesuffix(".dfy")]
        checked = Checked(subprocess.run(command, capture_output=True, check=True).stdout)
    count = try_logs(dfy, folder, source, [("p.log", proved.stdout), *mutants(proved.stdout)], checked)
    require(answer([dfy, "check", source, "p.log"], folder) == (0, b""), source)
    print(f"{os.path.basename(source)}: {count} logs, {time.monotonic() - begin:.1f} s")


def try_long(dfy, folder, source):
    """Logs of the greatest length, of one byte more, and with a long line."""
    most = 268435456
    for text, told in (
        (b"\n" * most, "1: not a log"),
        (b"\n" * (most + 1), " too large"),
        (b"dfylog 1\no 1\nh 0\nu 0 :" + b" +2" * 10**7 + b"\n.\nend\n", " obligation 1 step 3"),
        (b"dfylog 1\no 1\nh 0\nu 1 :" + b" +2" * 10**7 + b"\n.\nend\n", " obligation 1 step 2"),
    ):
        with open(os.path.join(folder, "l.log"), "wb") as file:
            file.write(text)
        begin = time.monotonic()
        found = answer([dfy, "check", source, "l.log"], folder)
        print(f"{len(text)} bytes: {time.monotonic() - begin:.2f} s")
        require(found == (10, f"l.log:{told}\n".encode()), told, found)


def write():
    for name, method in BY_HAND.items():
        with open(mutants_path(name), "wb") as file:
            file.write(expected(name, method))


def main(dfy, rows):
    with tempfile.TemporaryDirectory() as folder:
        for name in BY_HAND:
            try_by_hand(dfy, folder, name)
        if dfy is not None:
            bulk = os.path.join(folder, "bulk.dfy")
            with open(bulk, "w", encoding="ascii") as file:
                file.write(generated(0, 3))
            for source in [*(os.path.abspath(os.path.join(DATA, e + ".dfy")) for e in PROVED), bulk]:
                try_proved(dfy, rows, folder, source)
            try_long(dfy, folder, os.path.join(HERE, "data", "down.dfy"))
    print("none answered wrongly")


def run():
    if sys.argv[1:] == ["--write"]:
        write()
    else:
        paths = [os.path.abspath(word) for word in sys.argv[1:3]]
        main(*paths, *[None] * (2 - len(paths)))
    return 0


if __name__ == "__main__":
    sys.exit(check_log.deep(run))
