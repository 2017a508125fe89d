#!/usr/bin/env python3
"""Sound sheets made at random, whose rules are often near to being balanced.

    tools/order_cases.py SEED > SHEET          the sheet of this number; one number always gives the same sheet
"""
import random
import sys

VARIABLES = "ABCDEFGH"
MOST_SYMBOLS = 32
MOST_LEVELS = 16

# a term is its symbol and the list of its arguments


def symbols_of(term):
    return 1 + sum(symbols_of(arg) for arg in term[1])


def levels_of(term):
    return 1 + max((levels_of(arg) for arg in term[1]), default=0)


def text_of(term):
    symbol, args = term
    return symbol + ("(" + ",".join(text_of(arg) for arg in args) + ")" if args else "")


def small(term):
    return symbols_of(term) <= MOST_SYMBOLS and levels_of(term) <= MOST_LEVELS


def variables_of(term):
    if term[0] in VARIABLES:
        return {term[0]}
    return {x for arg in term[1] for x in variables_of(arg)}


class Maker:
    def __init__(self, r):
        self.r = r
        count = r.choice([1, 2, 3, 4, 6])
        self.operators = {name: r.choice([0, 1, 1, 2, 2, 3]) for name in "fghijk"[:count]}

    def leaf(self, variables):
        flat = [name for name, arity in self.operators.items() if arity == 0]
        kinds = flat + [f"#{self.r.randrange(3)}"]
        if variables and self.r.random() < 0.8:
            kinds = list(variables)
        return (self.r.choice(kinds), [])

    def term(self, symbols, variables, head=False):
        """A term of about so many symbols; `variables` may be a set that it takes its variables out of."""
        fitting = [name for name, arity in self.operators.items() if arity > 0]
        if head and (not fitting or symbols < 2):
            return (self.r.choice(list(self.operators)), []) if not fitting else self.headed(fitting, symbols, variables)
        if symbols < 2 or not fitting:
            leaf = self.leaf(sorted(variables))
            if isinstance(variables, set):
                variables.discard(leaf[0])
            return leaf
        return self.headed(fitting, symbols, variables)

    def headed(self, fitting, symbols, variables):
        name = self.r.choice(fitting)
        left = symbols - 1
        args = []
        for _ in range(self.operators[name]):
            more = self.r.randint(1, max(1, left))
            args.append(self.term(more, variables))
            left -= more
        return (name, args)

    def chain(self, levels, leaf):
        """Operators of one argument around a leaf, as far as there are any."""
        unary = [name for name, arity in self.operators.items() if arity == 1]
        for _ in range(levels - 1 if unary else 0):
            leaf = (self.r.choice(unary), [leaf])
        return leaf

    def changed(self, term, variables):
        """The term with something else somewhere."""
        r = self.r
        symbol, args = term
        if args and r.random() < 0.6:
            n = r.randrange(len(args))
            return (symbol, args[:n] + [self.changed(args[n], variables)] + args[n + 1 :])
        alike = [name for name, arity in self.operators.items() if arity == len(args)]
        way = r.randrange(5)
        if way == 0 and len(args) > 1:
            return (symbol, r.sample(args, len(args)))
        if way == 1 and args:
            return r.choice(args)
        if way == 2 and variables:
            return (r.choice(variables), [])
        if way == 3 and args:
            return (symbol, [r.choice(args) for _ in args])
        return (r.choice(alike), args) if alike and symbol not in VARIABLES else term

    def rule(self):
        r = self.r
        while True:
            if r.random() < 0.15:
                left = self.chain(r.randint(10, 16), ("A", []))
            else:
                left = self.term(r.choice([1, 2, 3, 5, 8, 16, 30]), set(VARIABLES), head=True)
            variables = sorted(variables_of(left))
            right = left
            if r.random() < 0.2:
                right = self.term(r.choice([1, 2, 3, 5, 8, 16, 30]), variables)
            for _ in range(r.choice([0, 1, 1, 2, 2, 3, 4])):
                right = self.changed(right, variables)
            if left[0] in self.operators and len(left[1]) == self.operators[left[0]] and small(left) and small(right):
                return left, right

    def weighing(self):
        most_base, most_factor = self.r.choice([(0, 1), (1, 1), (1, 2), (3, 2), (3, 4), (100, 4)])
        arities = self.operators.values()
        lines = [" ".join(str(self.r.randint(0, most_base)) for _ in arities)]
        for n in range(3):
            lines.append(" ".join(str(self.r.randint(1, most_factor)) if n < arity else "-" for arity in arities))
        return lines


def sheet(seed):
    r = random.Random(seed)
    maker = Maker(r)
    lines = [" ".join(maker.operators), " ".join(str(arity) for arity in maker.operators.values())]
    for _ in range(r.choice([1, 2])):
        lines += maker.weighing()
    lines.append("rules")
    for _ in range(r.choice([1, 8, 32])):
        left, right = maker.rule()
        lines.append(f"{text_of(left)}={text_of(right)}")
    return "".join(line + "\n" for line in lines)


if __name__ == "__main__":
    sys.stdout.write(sheet(int(sys.argv[1])))
