#!/usr/bin/env python3
"""Checks a proof log against sequents, without any of dfy's code.

    check_log.py SEQUENTS LOG
    check_log.py --help

SEQUENTS has lines `have FORMULA` and `show PLACE: FORMULA` (docs/contributing.md): each `show` is an obligation, and the `have`
lines before it in its method are its hypotheses. A line `newtype NAME LOW HIGH` gives the ends of a type. LOG is the text
of docs/proof-log.md. It prints what `dfy check` tells of a log (status 10), or how many obligations are derived (status 0).
check_file.py makes both for a source and checks them. Other statuses: 2 for other words or no sequents, 4 for what can't
be read.
"""
import re
import sys
import threading

USAGE, UNREAD, REFUSED = 2, 4, 10
LEAST, MOST = -2**127, 2**127 - 1
NUMBER, TRUTH, CHARACTER = "number", "truth", "character"


class Refused(Exception):
    """A line is no line of a derivation."""


class NotALog(Exception):
    """The text is the text of no log, from this line on."""


def require(condition):
    if not condition:
        raise Refused()


# ---- sequents

def parse_formula(text):
    """A formula as nested tuples: an operation and its parts."""
    words = re.findall(r"[^\s(),]+|[(),]", text)
    place = 0

    def term():
        nonlocal place
        op, parts = words[place], []
        place += 1
        if place < len(words) and words[place] == "(":
            place += 1
            while words[place] != ")":
                if words[place] == ",":
                    place += 1
                else:
                    parts.append(term())
            place += 1
        return (op, *parts)

    found = term()
    if place != len(words):
        raise ValueError(text)
    return found


def read_sequents(text):
    """The sequents as hypotheses, goal and the free terms that are characters, and the ends of the newtypes."""
    methods, known, types = [[]], [], {}
    for line in text.split("\n"):
        if line.startswith("newtype "):
            _, name, low, high = line.split()
            types[name] = (int(low), int(high))
        elif line.startswith("have "):
            known.append(parse_formula(line[5:]))
        elif line.startswith("show "):
            methods[-1].append((list(known), parse_formula(line[5:].split(": ", 1)[1])))
        elif line and not line.startswith("#"):
            if not line.endswith(":"):
                raise ValueError(line)
            known = []
            methods.append([])
    return [(*sequent, characters_of(method)) for method in methods for sequent in method], types


def terms_in(formulas):
    """All terms and formulas of these, with those within them."""
    found, left = [], list(formulas)
    while left:
        term = left.pop()
        found.append(term)
        left.extend(term[1:])
    return found


def is_free(term):
    return re.fullmatch(r"t\d+", term[0]) is not None


def characters_of(sequents):
    """The free terms of a method that are characters: those that have a code, and what is equal to a character."""
    last = sequents[-1:]
    terms = terms_in([formula for hypotheses, goal in last for formula in hypotheses] + [goal for _, goal in sequents])
    found = {part[0] for term in terms if term[0] == "code" for part in term[1:] if is_free(part)}
    while True:
        more = {side[0] for term in terms if term[0] == "eq" for side, other in (term[1:], term[:0:-1])
                if is_free(side) and (other[0] == "chr" or other[0] in found)}
        if more <= found:
            return found
        found |= more


# ---- schemas

QUOTIENT = ["+eq(y, 0)", "+eq(x, plus(times(y, div(x, y)), mod(x, y)))"]

# The nodes that a line names, and its clauses, each a list of literals; `k` stands for a number, other letters for any node.
SCHEMAS = {
    1: [(["div(x, y)"], [QUOTIENT]), (["mod(x, y)"], [QUOTIENT])],
    2: [(["mod(x, y)"], [["+eq(y, 0)", "+le(0, mod(x, y))"]])],
    3: [(["mod(x, y)"], [["-le(1, y)", "+le(plus(mod(x, y), 1), y)"]])],
    4: [(["mod(x, y)"], [["-le(y, -1)", "+le(plus(mod(x, y), 1), times(-1, y))"]])],
    5: [(["times(x, y)"], [["+eq(times(x, y), times(y, x))"]])],
    6: [(["times(times(x, y), z)"], [["+eq(times(times(x, y), z), times(x, times(y, z)))"]])],
    7: [(["times(x, plus(y, z))"], [["+eq(times(x, plus(y, z)), plus(times(x, y), times(x, z)))"]])],
    8: [(["times(x, k)"], [["+eq(times(x, k), times(k, x))"]])],
    9: [(["times(x, y)"], [["-le(0, x)", "-le(0, y)", "+le(0, times(x, y))"]])],
    10: [(["times(x, z)", "times(y, z)"], [["-le(x, y)", "-le(0, z)", "+le(times(x, z), times(y, z))"]])],
    109: [(["code(c)"], [["+le(0, code(c))"], ["+le(code(c), 127)"], ["+eq(chr(code(c)), c)"]])],
    110: [(["chr(x)"], [["-le(0, x)", "-le(x, 127)", "+eq(code(chr(x)), x)"]])],
}


# ---- nodes

class Nodes:
    """Operations on earlier nodes, each once, with their sorts."""

    def __init__(self, characters):
        self.nodes, self.numbers, self.sorts, self.characters = [], {}, [], characters

    def sort_of(self, op, parts):
        """The sort of a node, where its parts are of the sorts that it takes."""
        sorts = [self.sorts[p] for p in parts]
        word = op[0]
        two = sorts in ([NUMBER] * 2, [CHARACTER] * 2)
        if word in ("num", "free"):
            return op[2] if word == "free" else NUMBER if not parts else None
        if word in ("plus", "times", "div", "mod"):
            return NUMBER if sorts == [NUMBER] * 2 else None
        if word == "code":
            return NUMBER if sorts == [CHARACTER] else None
        if word == "chr":
            return CHARACTER if sorts == [NUMBER] else None
        if word == "is":
            wanted = {"bool": None, "char": CHARACTER}.get(op[1], NUMBER)
            return TRUTH if sorts == [wanted] else None
        if word == "eq":
            return TRUTH if two else None
        if word == "le":
            return TRUTH if sorts == [NUMBER] * 2 else None
        if word in ("and", "or"):
            return TRUTH if all(s == TRUTH for s in sorts) else None
        arity = {"not": 1, "imp": 2, "iff": 2}.get(word)
        return TRUTH if sorts == [TRUTH] * (arity or -1) else None

    def find(self, op, parts):
        return self.numbers.get((op, parts))

    def add(self, op, parts):
        """A new node; one that stands already is refused."""
        require(all(0 <= p < len(self.nodes) for p in parts) and self.find(op, parts) is None)
        sort = self.sort_of(op, parts)
        require(sort is not None)
        self.numbers[(op, parts)] = len(self.nodes)
        self.nodes.append((op, parts))
        self.sorts.append(sort)
        return len(self.nodes) - 1

    def made(self, op, *parts):
        """The node, made where it does not stand yet."""
        found = self.find(op, parts)
        return self.add(op, parts) if found is None else found

    def enter(self, formula, sort=TRUTH):
        """The number of a formula, its parts first; free terms take the sort that is wanted."""
        word, *parts = formula
        if re.fullmatch(r"-?\d+", word):
            return self.made(("num", int(word)))
        if is_free(formula):
            return self.made(("free", int(word[1:]), CHARACTER if word in self.characters else sort))
        name, _, ty = word.partition(":")
        wanted = {"bool": TRUTH, "char": CHARACTER}.get(ty, NUMBER) if name == "is" else (
            TRUTH if name in ("not", "and", "or", "imp", "iff") else CHARACTER if name == "code" else NUMBER)
        numbers = [self.enter(p, wanted) for p in parts]
        return self.made((name, ty) if name == "is" else (name,), *numbers)


# ---- one log

class Checker:
    def __init__(self, sequent, types):
        hypotheses, goal, characters = sequent
        self.types, self.nodes, self.clauses = types, Nodes(characters), []
        self.hypotheses = [self.nodes.enter(h) for h in hypotheses]
        self.goal = self.nodes.enter(goal)

    def node(self, number, word=None):
        require(number < len(self.nodes.nodes))
        op, parts = self.nodes.nodes[number]
        require(word is None or op[0] == word)
        return op, parts

    def at_most(self, left, right):
        return self.nodes.made(("le",), left, right)

    def number(self, value):
        require(LEAST <= value <= MOST)
        return self.nodes.made(("num", value))

    # each method gives the clause of a line: a list of pairs of sign and node

    def connective(self, n, k):
        op, parts = self.node(n)
        yes, no, word = [(True, n)], [(False, n)], op[0]
        if word == "eq" and self.nodes.sorts[parts[0]] == NUMBER:
            sides = [(parts[0], parts[1]), (parts[1], parts[0])]
            require(k < 3)
            if k < 2:
                return no + [(True, self.at_most(*sides[k]))]
            return yes + [(False, self.at_most(*side)) for side in sides]
        a, b = (list(parts) + [None, None])[:2]
        clauses = {
            "not": lambda: [no + [(False, a)], yes + [(True, a)]],
            "and": lambda: [no + [(True, p)] for p in parts] + [yes + [(False, p) for p in parts]],
            "or": lambda: [no + [(True, p) for p in parts]] + [yes + [(False, p)] for p in parts],
            "imp": lambda: [no + [(False, a), (True, b)], yes + [(True, a)], yes + [(False, b)]],
            "iff": lambda: [no + [(False, a), (True, b)], no + [(True, a), (False, b)],
                            yes + [(True, a), (True, b)], yes + [(False, a), (False, b)]],
        }
        require(word in clauses)
        found = clauses[word]()
        require(k < len(found))
        return found[k]

    def of_type(self, k, n):
        (_, ty), (x,) = self.node(n, "is")
        if ty in ("int", "char"):
            require(k == 0)
            return [(True, n)]
        low, high = (0, None) if ty == "nat" else self.types[ty]
        sides = [lambda: self.at_most(self.number(low), x)]
        if high is not None:
            sides.append(lambda: self.at_most(x, self.number(high)))
        require(k <= len(sides))
        if k < len(sides):
            return [(False, n), (True, sides[k]())]
        return [(True, n)] + [(False, side()) for side in sides]

    def fits(self, pattern, n, letters):
        """Whether a node is of the pattern; what the pattern's letters stand for is added."""
        word, *parts = pattern
        if len(word) == 1:
            op, _ = self.nodes.nodes[n]
            return letters.setdefault(word, n) == n and (word != "k" or op[0] == "num")
        op, found = self.nodes.nodes[n]
        return op[0] == word and all(self.fits(p, f, letters) for p, f in zip(parts, found))

    def enter(self, formula, letters):
        """The number of a formula of a schema, its parts first."""
        word, *parts = formula
        if len(word) == 1 and word.isalpha():
            return letters[word]
        if not parts:
            return self.number(int(word))
        numbers = [self.enter(p, letters) for p in parts]
        return self.nodes.made((word,), *numbers)

    def schema(self, schema, k, terms):
        require(all(n < len(self.nodes.nodes) for n in terms))
        if schema == 74:
            require(len(terms) == 1)
            return self.of_type(k, *terms)
        for patterns, clauses in SCHEMAS.get(schema, []):
            letters = {}
            if (len(patterns) == len(terms) and k < len(clauses)
                    and all(self.fits(parse_formula(p), n, letters) for p, n in zip(patterns, terms))):
                return [(literal[0] == "+", self.enter(parse_formula(literal[1:]), letters)) for literal in clauses[k]]
        raise Refused()

    def propagation(self, numbers, conclusion):
        true = {(not sign, node) for sign, node in conclusion}
        require(numbers)
        for place, number in enumerate(numbers):
            require(number < len(self.clauses))
            left = {(s, n) for s, n in self.clauses[number] if (not s, n) not in true}
            last = place == len(numbers) - 1
            require(len(left) == (0 if last else 1))
            true.update(left)

    def congruence(self, conclusion, pairs):
        classes = list(range(len(self.nodes.nodes)))

        def root(n):
            while classes[n] != n:
                n = classes[n]
            return n

        for sign, n in conclusion:
            op, parts = self.node(n)
            if not sign and op[0] == "eq":
                classes[root(parts[0])] = root(parts[1])
        for a, b in pairs:
            (one, ps), (other, qs) = self.node(a), self.node(b)
            require(one == other and len(ps) == len(qs) and all(root(p) == root(q) for p, q in zip(ps, qs)))
            classes[root(a)] = root(b)
        values = {}
        for n, (op, _) in enumerate(self.nodes.nodes):
            if op[0] == "num":
                values.setdefault(root(n), set()).add(op[1])
        positive = [n for sign, n in conclusion if sign]
        negative = {root(n) for sign, n in conclusion if not sign}
        equal = [self.nodes.nodes[n][1] for n in positive if self.nodes.nodes[n][0][0] == "eq"]
        require(any(root(a) == root(b) for a, b in equal) or any(root(n) in negative for n in positive)
                or any(len(found) > 1 for found in values.values()))

    def sum_of(self, n):
        """A number as a sum: coefficients of nodes, and a constant."""
        op, parts = self.nodes.nodes[n]
        if op[0] == "num":
            return {}, op[1]
        if op[0] == "plus":
            return added(self.sum_of(parts[0]), self.sum_of(parts[1]))
        if op[0] == "times" and self.nodes.nodes[parts[0]][0][0] == "num":
            return scaled(self.sum_of(parts[1]), self.nodes.nodes[parts[0]][0][1])
        return {n: 1}, 0

    def rows_of(self, sign, n):
        """The rows of the negation of a literal."""
        op, parts = self.node(n)
        if op[0] == "le" or (op[0] == "eq" and not sign and self.nodes.sorts[parts[0]] == NUMBER):
            a, b = (self.sum_of(p) for p in parts)
            if sign:
                return [added(added(a, scaled(b, -1)), ({}, -1))]
            first = added(b, scaled(a, -1))
            return [first] if op[0] == "le" else [first, scaled(first, -1)]
        return []

    def linear(self, conclusion, combinations):
        rows = [row for sign, n in conclusion for row in self.rows_of(sign, n)]
        for row in rows:
            fits(row)
        for divisor, members in combinations:
            total = ({}, 0)
            for factor, number in members:
                require(factor >= 0 and number < len(rows))
                total = fits(added(total, fits(scaled(rows[number], factor))))
            require(divisor >= 1 and all(c % divisor == 0 for c in total[0].values()))
            rows.append(({n: c // divisor for n, c in total[0].items()}, total[1] // divisor))
        require(combinations and not rows[-1][0] and rows[-1][1] < 0)

    def take(self, step):
        kind, arguments = step
        if kind == "n":
            self.nodes.add(*arguments)
            return
        if kind == "h":
            require(arguments < len(self.hypotheses))
            clause = [(True, self.hypotheses[arguments])]
        elif kind == "g":
            clause = [(False, self.goal)]
        elif kind == "x":
            clause = self.connective(*arguments)
        elif kind == "a":
            clause = self.schema(*arguments)
        elif kind == "s":
            n, k = arguments
            require(n < len(self.nodes.nodes) and self.nodes.sorts[n] == NUMBER and k + 1 <= MOST)
            below = self.at_most(n, self.number(k))
            clause = [(True, below), (True, self.at_most(self.number(k + 1), n))]
        else:
            first, clause = arguments if kind == "u" else reversed(arguments)
            for _, n in clause:
                require(n < len(self.nodes.nodes) and self.nodes.sorts[n] == TRUTH)
            {"u": self.propagation, "e": lambda p, c: self.congruence(c, p), "l": lambda r, c: self.linear(c, r)}[kind](first, clause)
        self.clauses.append(clause)


def added(a, b):
    sums = {n: a[0].get(n, 0) + b[0].get(n, 0) for n in {**a[0], **b[0]}}
    return {n: c for n, c in sums.items() if c}, a[1] + b[1]


def scaled(a, factor):
    return ({n: c * factor for n, c in a[0].items()} if factor else {}), a[1] * factor


def fits(row):
    require(all(LEAST <= c <= MOST for c in [*row[0].values(), row[1]]))
    return row


# ---- text

def natural(word, most=2**64 - 1):
    if not re.fullmatch(r"0|[1-9][0-9]*", word) or int(word) > most:
        raise ValueError(word)
    return int(word)


def integer(word):
    if not re.fullmatch(r"0|-?[1-9][0-9]*", word) or not LEAST <= int(word) <= MOST:
        raise ValueError(word)
    return int(word)


def literal(word):
    if word[:1] not in ("+", "-"):
        raise ValueError(word)
    return word[0] == "+", natural(word[1:])


def combinations(words):
    found = []
    while words:
        divisor, members = integer(words.pop(0)), []
        if words and "*" in words[0]:
            for part in words.pop(0).split("+"):
                factor, number = part.split("*")
                members.append((integer(factor), natural(number)))
        found.append((divisor, members))
    return found


def read_step(line, types):
    kind, *words = line.split(" ")
    if kind in ("u", "e", "l"):
        at = words.index(":")
        front, back = words[:at], words[at + 1:]
        if kind == "u":
            return kind, ([natural(w) for w in front], [literal(w) for w in back])
        clause = [literal(w) for w in front]
        if kind == "l":
            return kind, (clause, combinations(back))
        if len(back) % 2:
            raise ValueError(line)
        numbers = [natural(w) for w in back]
        return kind, (clause, list(zip(numbers[::2], numbers[1::2])))
    if kind == "n":
        word, *parts = words
        if word == "num":
            return kind, (("num", integer(parts[0])), tuple(natural(p) for p in parts[1:]))
        name, colon, ty = word.partition(":")
        if bool(colon) != (name == "is") or (colon and ty not in ("int", "nat", "bool", "char", *types)):
            raise ValueError(line)
        if name not in ("is", "plus", "times", "div", "mod", "chr", "code", "eq", "le", "not", "and", "or", "imp", "iff"):
            raise ValueError(line)
        return kind, ((name, ty) if colon else (name,), tuple(natural(p) for p in parts))
    forms = {"h": 1, "g": 0, "x": 2, "s": 2}
    if kind == "a":
        return kind, (natural(words[0], 255), natural(words[1], 2**32 - 1), [natural(w) for w in words[2:]])
    if len(words) != forms[kind]:
        raise ValueError(line)
    if kind == "s":
        return kind, (natural(words[0]), integer(words[1]))
    numbers = [natural(w) for w in words]
    return kind, numbers[0] if kind == "h" else tuple(numbers)


def read_log(text, types):
    """The parts of a log, each a list of steps."""
    lines = text.split("\n")
    parts, steps, stage = [], None, "before"
    for number, line in enumerate(lines[:-1], 1):
        try:
            if stage == "before" and line == "dfylog 1":
                stage = "between"
            elif stage == "between" and line == "end":
                stage = "after"
            elif stage == "between" and line == f"o {len(parts) + 1}":
                stage, steps = "within", []
            elif stage == "within" and line == ".":
                stage = "between"
                parts.append(steps)
            elif stage == "within":
                steps.append(read_step(line, types))
            else:
                raise ValueError(line)
        except (ValueError, IndexError, KeyError):
            raise NotALog(number) from None
    if stage != "after" or lines[-1]:
        raise NotALog(len(lines))
    return parts


def refused_at(sequent, types, steps):
    """The first step, from 1, that is refused; one past the last where only the empty clause is missing; none where all is well."""
    checker = Checker(sequent, types)
    for number, step in enumerate(steps, 1):
        try:
            checker.take(step)
        except Refused:
            return number
    return None if checker.clauses and not checker.clauses[-1] else len(steps) + 1


def check(sequents, types, text, judge=refused_at):
    """What `dfy check` tells of the log, behind its name; none where it derives all."""
    try:
        parts = read_log(text, types)
    except NotALog as fault:
        return f"{fault.args[0]}: not a log"
    for k in range(max(len(sequents), len(parts))):
        if k >= len(parts):
            step = 1
        elif k >= len(sequents):
            step = len(parts[k]) + 1
        else:
            step = judge(sequents[k], types, parts[k])
        if step is not None:
            return f" obligation {k + 1} step {step}"
    return None


def told(sequents, types, name, text):
    """Tells of the log of this name how many obligations it derives, or where it is refused; the status."""
    fault = check(sequents, types, text.decode("latin-1"))
    if fault is None:
        print(f"{len(sequents)} derived")
        return 0
    return fails(f"{name}:{fault}", REFUSED)


def fails(why, status):
    print(why, file=sys.stderr)
    return status


def sequents_of(text):
    """The sequents and types of a text, if it is one."""
    try:
        return read_sequents(text.decode("ascii"))
    except (ValueError, IndexError):
        return None


def main(words):
    if words in (["--help"], ["-h"]):
        print(__doc__.strip())
        return 0
    if len(words) != 2:
        return fails("usage: check_log.py SEQUENTS LOG", USAGE)
    texts = []
    for word in words:
        try:
            with open(word, "rb") as file:
                texts.append(file.read())
        except OSError:
            return fails(f"{word}: cannot read", UNREAD)
    sequents = sequents_of(texts[0])
    if sequents is None:
        return fails(f"{words[0]}: no sequents", USAGE)
    return told(*sequents, words[1], texts[1])


def deep(work, *arguments):
    """What the work gives, done where there is room for deep recursion: terms are gone through by it."""
    sys.setrecursionlimit(10**6)
    threading.stack_size(2**29)
    answers = []
    thread = threading.Thread(target=lambda: answers.append(work(*arguments)))
    thread.start()
    thread.join()
    return answers[0] if answers else 1


if __name__ == "__main__":
    sys.exit(deep(main, sys.argv[1:]))
