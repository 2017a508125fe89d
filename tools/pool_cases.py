#!/usr/bin/env python3
"""Inputs for the program `pool_check`, made at random: a sheet, and lines of nodes, steps and a ticket behind it.

    tools/pool_cases.py SEED > INPUT           the input of this number; one number always gives the same input

The rules drop, copy, move, swap and collapse, overlap each other, and need not end. Pools are often just large enough, or just
too small, and so are the steps allowed.
"""
import random
import sys

# leaves nothing behind in tools/
sys.dont_write_bytecode = True

from pool_oracle import MOST_NODES, MOST_STEPS, deeply, filled, is_variable, next_term, symbols_of, text_of

VARIABLES = "ABCDEFGH"
MOST_SYMBOLS = 32
MOST_LEVELS = 16
MOST_RULES = 32
TICKET_BYTES = 4_096
# how far a term is followed to find out where its pool and its steps get tight
FOLLOWED_STEPS = 300
FOLLOWED_WORK = 60_000


def levels_of(term):
    return 1 + max((levels_of(arg) for arg in term[1]), default=0)


def variables_of(term):
    """In reading order."""
    if is_variable(term[0]):
        return [term[0]]
    return [x for arg in term[1] for x in variables_of(arg)]


def is_side(term):
    return symbols_of(term) <= MOST_SYMBOLS and levels_of(term) <= MOST_LEVELS


class Maker:
    """Makes terms over a signature."""

    def __init__(self, r, arities):
        self.r = r
        self.arities = arities
        self.flat = [name for name, arity in arities.items() if arity == 0]
        self.grown = [name for name, arity in arities.items() if arity > 0]
        # few different leaves, so that rules that name them match
        self.instruments = [f"#{n}" for n in r.sample([0, 1, 2, 7, 10, 999_999], r.choice([1, 2, 3]))]

    def leaf(self):
        if self.flat and self.r.random() < 0.6:
            return (self.r.choice(self.flat), ())
        return (self.r.choice(self.instruments), ())

    def spread(self, symbols, arity):
        """So many symbols, shared among so many arguments."""
        left = max(symbols - arity, 0)
        parts = []
        for n in range(arity):
            more = left if n == arity - 1 else self.r.choice([0, left, self.r.randint(0, left), left // arity])
            left -= more
            parts.append(1 + more)
        self.r.shuffle(parts)
        return parts

    def term(self, symbols, leaf):
        """A term of about so many symbols; `leaf` makes its leaves."""
        if symbols < 2 or not self.grown:
            return leaf()
        name = self.r.choice(self.grown)
        return (name, tuple(self.term(part, leaf) for part in self.spread(symbols - 1, self.arities[name])))

    def headed(self, symbols, leaf):
        """The same, with an operator in front."""
        names = self.grown if symbols > 1 and self.grown else self.flat or self.grown
        name = self.r.choice(names)
        return (name, tuple(self.term(part, leaf) for part in self.spread(symbols - 1, self.arities[name])))


# Rules


def left_side(maker):
    r = maker.r
    while True:
        fresh = list(VARIABLES)
        r.shuffle(fresh)
        shares = r.choice([0.5, 0.8, 1.0])

        def leaf():
            return (fresh.pop(), ()) if fresh and r.random() < shares else maker.leaf()

        side = maker.headed(r.choice([1, 2, 2, 3, 3, 3, 4, 4, 5, 6, 8, 12, 20, 32]), leaf)
        if is_side(side):
            return side


def right_leaf(maker, bound):
    r = maker.r
    return lambda: (r.choice(bound), ()) if bound and r.random() < 0.8 else maker.leaf()


def moved(term, names):
    """The term with its variables replaced by these in turn."""
    if is_variable(term[0]):
        return (names.pop(0), ())
    return (term[0], tuple(moved(arg, names) for arg in term[1]))


def right_side(maker, left):
    r = maker.r
    bound = variables_of(left)
    kind = r.choice(["any", "any", "small", "small", "collapse", "drop", "copy", "copy", "swap", "leaf", "wrap", "large", "same", "subterm"])
    if kind == "collapse" and bound:
        return (r.choice(bound), ())
    if kind == "drop" and bound:
        return maker.term(r.choice([1, 2, 3]), right_leaf(maker, bound[:1]))
    if kind == "copy" and bound:
        # one variable, two to five times or more
        return maker.term(r.choice([3, 4, 5, 7, 10]), lambda: (bound[0], ()))
    if kind == "swap" and len(bound) > 1:
        names = bound[1:] + bound[:1] if r.random() < 0.5 else r.sample(bound, len(bound))
        return moved(left, names)
    if kind == "leaf":
        return maker.leaf()
    if kind == "wrap" and maker.grown:
        name = r.choice(maker.grown)
        return (name, tuple(left if n == 0 else maker.leaf() for n in range(maker.arities[name])))
    if kind == "large":
        return maker.term(r.choice([16, 24, 31, 32]), right_leaf(maker, bound))
    if kind == "same":
        return left
    if kind == "subterm":
        return r.choice(parts_of(left))
    return maker.term(r.choice([1, 2, 3, 4, 5, 6, 8]) if kind == "any" else r.choice([1, 2, 3]), right_leaf(maker, bound))


def parts_of(term):
    return [term] + [part for arg in term[1] for part in parts_of(arg)]


def more_general(maker, left):
    """A left side that overlaps another: some part of it made a variable."""
    r = maker.r
    free = [x for x in VARIABLES if x not in variables_of(left)]

    def walk(term, root):
        if not root and free and r.random() < 0.3:
            return (free.pop(), ())
        return (term[0], tuple(walk(arg, False) for arg in term[1]))

    return walk(left, True)


def rules(maker):
    r = maker.r
    made = []
    for _ in range(r.choice([1, 2, 3, 4, 5, 6, 8, 12, 20, 32])):
        left = more_general(maker, r.choice(made)[0]) if made and r.random() < 0.2 else left_side(maker)
        right = right_side(maker, left)
        if is_side(right):
            made.append((left, right))
    return made[:MOST_RULES]


def signature(r):
    names = r.choice([["f", "g", "h", "k", "a", "b"], ["nil", "neg", "both", "mix", "x1y2", "abcdefghijkl"]])[: r.choice([1, 2, 3, 4, 6, 6])]
    if r.random() < 0.05:
        names = [f"n{n}" for n in range(32)]
    arities = {name: r.choice([0, 1, 1, 2, 2, 3]) for name in names}
    if not any(arities.values()) and r.random() < 0.9:
        arities[names[0]] = r.choice([1, 2, 3])
    return arities


def sheet_text(arities, made):
    counts = list(arities.values())
    lines = [" ".join(arities), " ".join(map(str, counts)), " ".join("0" for _ in counts)]
    for argument in range(3):
        lines.append(" ".join("1" if argument < count else "-" for count in counts))
    lines.append("rules")
    lines += [f"{text_of(left)}={text_of(right)}" for left, right in made]
    return "".join(line + "\n" for line in lines)


# Tickets


def filled_up(maker, left, symbols):
    """A left side with tickets in the place of its variables."""
    bound = {x: maker.term(maker.r.choice([1, 1, symbols]), maker.leaf) for x in variables_of(left)}
    return filled(left, bound)


def ticket(maker, made):
    r = maker.r
    symbols = r.choice([1, 2, 3, 4, 5, 6, 8, 10, 15, 20, 30, 50, r.choice([50, 100, 200, 400, 800])])

    def leaf():
        if made and r.random() < 0.4:
            return filled_up(maker, r.choice(made)[0], r.choice([1, 2, 3]))
        return maker.leaf()

    if r.random() < 0.02:
        return deep(maker)
    if made and r.random() < 0.3:
        return filled_up(maker, r.choice(made)[0], symbols)
    return maker.term(symbols, leaf)


def deep(maker):
    """A ticket of many levels."""
    r = maker.r
    term = maker.leaf()
    for _ in range(r.choice([100, 300, 600]) if maker.grown else 0):
        name = r.choice(maker.grown)
        at = r.randrange(maker.arities[name])
        term = (name, tuple(term if n == at else maker.leaf() for n in range(maker.arities[name])))
    return term


# Lines


def followed(made, term):
    """The numbers of symbols of the term and of those that its next steps lead to, and whether that is all of them."""
    sizes = [symbols_of(term)]
    work = 0
    while len(sizes) <= FOLLOWED_STEPS and work < FOLLOWED_WORK and sizes[-1] <= MOST_NODES:
        term = next_term(made, term)
        if term is None:
            return sizes, True
        sizes.append(symbols_of(term))
        work += sizes[-1]
    return sizes, False


def pools(r, sizes):
    """Numbers of nodes: ample ones, and such as the term just fits in, or just does not, at some time."""
    peak = max(sizes)
    chosen = [sizes[0] + r.choice([-1, 0, 0, 1, 1, 2, 3, 5, 8]), peak + r.choice([-1, -1, 0, 0, 1])]
    chosen.append(r.choice([MOST_NODES, MOST_NODES, r.choice(sizes), r.randint(sizes[0], 2 * peak), r.randint(1, MOST_NODES)]))
    return [min(max(nodes, 1), MOST_NODES) for nodes in chosen]


def steps_allowed(r, sizes, ends):
    made = len(sizes) - 1
    chosen = [0, 1, made, max(made - 1, 0), r.randint(0, made), 2 * made]
    if ends:
        chosen += [made + 1, MOST_STEPS, MOST_STEPS, MOST_STEPS, 1_000]
    return min(r.choice(chosen), MOST_STEPS)


def odd_line(r, line):
    """A line that is mostly of another form, or has no ticket."""
    at = r.randrange(len(line) + 1)
    return r.choice(
        [
            line[:at],
            line[:at] + r.choice([" ", "0", "1", "x", "(", "\t", "#", ",", "-", "+", "A"]) + line[at:],
            line[:at] + line[at + 1 :],
            "0" + line,
            line.replace(" ", "  ", 1),
            line.replace(" ", " 0", 1),
            "16385" + line[line.index(" ") :],
            "0" + line[line.index(" ") :],
            line[: line.index(" ")] + " 4294967296" + line[line.rindex(" ") :],
            "99999999999999999999" + line[line.index(" ") :],
            " " + line,
            line + " ",
            line + "x" * r.choice([1, 4090, 4200]),
            "",
        ]
    )


def lines(maker, made, count):
    r = maker.r
    found = []
    while len(found) < count:
        term = ticket(maker, made)
        text = text_of(term)
        if len(text) > TICKET_BYTES and r.random() < 0.9:
            continue
        sizes, ends = followed(made, term)
        for nodes in pools(r, sizes):
            line = f"{nodes} {steps_allowed(r, sizes, ends)} {text}"
            found.append(odd_line(r, line) if r.random() < 0.04 else line)
    return found


def case(seed):
    """The input of a number."""
    r = random.Random(seed)
    arities = signature(r)
    maker = Maker(r, arities)
    made = rules(maker)
    text = sheet_text(arities, made) + ".\n" + "".join(line + "\n" for line in lines(maker, made, 36))
    return text.encode("latin-1")


if __name__ == "__main__":
    deeply(lambda: sys.stdout.buffer.write(case(int(sys.argv[1]))))
