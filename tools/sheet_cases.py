#!/usr/bin/env python3
"""Inputs for the program `book`, made at random: a sheet, mostly damaged, and tickets behind it.

    tools/sheet_cases.py SEED > INPUT          the input of this number; one number always gives the same input

Half of the sheets are sound or have a limit just reached or passed; the others are damaged in one to three ways.
"""
import random
import re
import sys

VARIABLES = "ABCDEFGH"
LETTERS = "abcdefghijklmnopqrstuvwxyz"
ODD = [bytes([n]) for n in (0, 9, 13, 32, 33, 34, 46, 47, 58, 59, 63, 64, 73, 90, 91, 95, 96, 123, 126, 127, 128, 195, 255)]
PIECES = [b"(", b")", b",", b"=", b"-", b" ", b"\n", b"#", b"#0", b"#00", b"#7", b"#07", b"#999999", b"#1000000", b"#18446744073709551617"]
PIECES += [b"0", b"00", b"1", b"01", b"2", b"3", b"4", b"5", b"99", b"100", b"101", b"256", b"257", b"4294967297", b"18446744073709551616"]
PIECES += [b"A", b"B", b"H", b"I", b"rules", b"rule", b"rulesx", b"a", b"nil", b"abcdefghijkl", b"abcdefghijklm", b".", b"\n.\n", b"..", b"\r\n"]
TOKEN = re.compile(rb"[a-z][a-z0-9]{0,11}|[0-9]+|#[0-9]*|[A-H]|.", re.DOTALL)


def cut(text):
    return TOKEN.findall(text)


# Sound sheets


def name(r):
    length = r.choice([1, 1, 2, 3, 4, 11, 12, 12])
    return r.choice(LETTERS) + "".join(r.choice(LETTERS + "0123456789") for _ in range(length - 1))


def names(r, count):
    chosen = {}
    if r.random() < 0.1:
        chosen["rules"] = None
    while len(chosen) < count:
        near = r.choice(list(chosen)) if chosen and r.random() < 0.3 else ""
        # names that begin or end alike
        chosen[(near + name(r))[:12] if r.random() < 0.5 else name(r)] = None
    chosen = list(chosen)
    r.shuffle(chosen)
    return chosen


class Maker:
    """Makes terms over a signature."""

    def __init__(self, r, names, arities):
        self.r = r
        self.operators = list(zip(names, arities))
        self.grown = [operator for operator in self.operators if operator[1] > 0]
        self.flat = [operator for operator in self.operators if operator[1] == 0]

    def leaf(self, variables):
        r = self.r
        kinds = ["instrument"] + ["variable"] * (3 if variables else 0) + ["operator"] * (2 if self.flat else 0)
        kind = r.choice(kinds)
        if kind == "instrument":
            return f"#{r.choice([0, 1, 7, 10, 99999, 100000, 999999, r.randrange(1_000_000)])}"
        if kind == "variable":
            # on the left each variable is used up
            return variables.pop(r.randrange(len(variables))) if isinstance(variables, list) else r.choice(variables)
        return r.choice(self.flat)[0]

    def term(self, symbols, levels, variables, head=False):
        """A term of about that many symbols, never on more levels."""
        if head and self.flat and (symbols < 2 or levels < 2 or not self.grown):
            return self.r.choice(self.flat)[0]
        fitting = [operator for operator in self.grown if operator[1] < symbols]
        if head and not fitting:
            fitting = self.grown
        if not fitting or (levels < 2 and not head):
            return self.leaf(variables)
        operator, arity = self.r.choice(fitting)
        left = max(symbols - 1 - arity, 0)
        args = []
        for n in range(arity):
            # mostly spread, sometimes all in one argument
            more = left if n == arity - 1 else self.r.choice([0, left, self.r.randint(0, left)])
            left -= more
            args.append(self.term(1 + more, levels - 1, variables))
        return f"{operator}({','.join(args)})"


def symbols_of(text):
    return len(re.findall(r"[a-z][a-z0-9]*|#|[A-H]", text))


def levels_of(text):
    level = most = 1
    for character in text:
        level += (character == "(") - (character == ")")
        most = max(most, level)
    return most


def side(maker, variables, head):
    r = maker.r
    symbols = r.choice([1, 2, 3, 4, 5, 8, 12, 20, 32, 32])
    # a side may come out with a symbol too many where the head needs it: try again
    for _ in range(20):
        kept = list(variables) if isinstance(variables, list) else variables
        text = maker.term(symbols, r.choice([2, 3, 5, 16]), kept, head)
        if symbols_of(text) <= 32 and levels_of(text) <= 16:
            return text
    return maker.operators[0][0] if maker.operators[0][1] == 0 else maker.term(4, 2, list(variables) if isinstance(variables, list) else variables, head)


def rule(maker):
    left = side(maker, list(VARIABLES), head=True)
    bound = "".join(sorted(set(re.findall("[A-H]", left))))
    return left + "=" + side(maker, bound, head=False)


def past_levels(maker, levels):
    """A side whose last leaf stands on that level, if an operator takes arguments."""
    r = maker.r
    if not maker.grown:
        return maker.operators[0][0]
    front, back = "", ""
    for _ in range(levels - 1):
        operator, arity = r.choice(maker.grown) if r.random() < 0.2 else min(maker.grown, key=lambda operator: operator[1])
        before = r.randrange(arity)
        front += operator + "(" + "#1," * before
        back = ",#2" * (arity - 1 - before) + ")" + back
    return front + maker.leaf("AB" if r.random() < 0.5 else "") + back


def past_symbols(maker, symbols):
    """A side with just so many symbols, where the arities allow it."""
    for _ in range(30):
        text = maker.term(symbols, 16, "AB" if maker.r.random() < 0.2 else "", True)
        if symbols_of(text) == symbols:
            return text
    return text


def weighing(r, arities):
    lines = [[str(r.choice([0, 1, 2, 50, 99, 100, r.randint(0, 100)])) for _ in arities]]
    for argument in range(3):
        lines.append([str(r.randint(1, 4)) if argument < arity else "-" for arity in arities])
    return [" ".join(line) for line in lines]


def parts(r):
    """The lines of a sheet: names, counts, the lines of values, the word, the rules; and what makes terms over it."""
    chosen = names(r, r.choice([1, 1, 2, 3, 3, 4, 5, 8, 16, 31, 32, 32]))
    some = r.choice([[0], [0, 1], [0, 1, 2, 3], [0, 1, 2, 3], [3], [1, 2], [2, 3]])
    arities = [r.choice(some) for _ in chosen]
    maker = Maker(r, chosen, arities)
    lines = [" ".join(chosen), " ".join(str(arity) for arity in arities)]
    for _ in range(r.choice([1, 1, 2])):
        lines += weighing(r, arities)
    lines.append("rules")
    rules = [rule(maker) for _ in range(r.choice([0, 1, 1, 2, 3, 4, 8, 31, 32]))]
    return lines, rules, maker


# Limits, on both sides


def limited(r, lines, rules, maker):
    def side_of(text):
        rules.insert(r.randint(0, len(rules)), text)
        del rules[32:]

    left = side(maker, list(VARIABLES), head=True)
    what = r.randrange(6)
    if what == 0:
        while len(rules) < 32:
            rules.append(rule(maker))
        rules.append(r.choice([rule(maker), "", "#1=#1", "A=A", "zzz", "?", "#01", "=", "7"]))
    elif what == 1:
        side_of(past_levels(maker, r.choice([15, 16, 17, 17, 18, 40])) + "=" + "#1")
    elif what == 2:
        side_of(left + "=" + past_levels(maker, r.choice([15, 16, 17, 17, 18, 40])))
    elif what == 3:
        side_of(past_symbols(maker, r.choice([31, 32, 33, 33, 34, 60])) + "=#1")
    elif what == 4:
        side_of(left + "=" + past_symbols(maker, r.choice([31, 32, 33, 33, 34, 60])))
    else:
        more = names(r, r.choice([32, 33, 33, 34]))
        if r.random() < 0.3:
            more[-1] = r.choice(more)
        lines[0] = " ".join(more)
        lines[1] = " ".join("0" for _ in more)
        if r.random() < 0.5:
            lines[2:6] = [" ".join(character for _ in more) for character in "0---"]
            del lines[6:-1]
            del rules[:]


# Damage


def damage_bytes(r, text):
    at = r.randrange(len(text) + 1)
    what = r.randrange(6)
    if what == 0:
        return text[:at] + text[at + 1 :]
    if what == 1:
        return text[:at] + text[at : at + 1] + text[at:]
    if what == 2:
        return text[:at] + r.choice(ODD) + text[at + 1 :]
    if what == 3:
        return text[:at] + r.choice(ODD + PIECES) + text[at:]
    if what == 4:
        return text[:at] + bytes([r.randrange(256)]) + text[at + 1 :]
    return text[:at]


def damage_tokens(r, text):
    tokens = cut(text) or [b""]
    at = r.randrange(len(tokens))
    what = r.randrange(8)
    if what == 0:
        del tokens[at]
    elif what == 1:
        tokens.insert(at, tokens[at])
    elif what == 2:
        other = r.randrange(len(tokens))
        tokens[at], tokens[other] = tokens[other], tokens[at]
    elif what == 3:
        tokens[at] = r.choice(PIECES)
    elif what == 4:
        tokens[at] = r.choice(tokens)
    elif what == 5:
        tokens.insert(at, r.choice(PIECES))
    elif what == 6:
        del tokens[at:]
    else:
        tokens[at] = r.choice([tokens[at] + b"0", b"0" + tokens[at], tokens[at][:-1], tokens[at] + b"x", b" " + tokens[at], tokens[at] + b" "])
    return b"".join(tokens)


def damage_kind(r, text):
    """Alters one token of a kind that is chosen first, so that rare kinds have their turn."""
    tokens = cut(text)
    kinds = {
        "name": lambda token: token[:1].islower(),
        "number": lambda token: token[:1].isdigit(),
        "instrument": lambda token: token[:1] == b"#",
        "variable": lambda token: token in [b"A", b"B", b"C", b"D", b"E", b"F", b"G", b"H"],
        "mark": lambda token: token in [b"(", b")", b",", b"=", b"-"],
        "blank": lambda token: token == b" ",
        "end": lambda token: token == b"\n",
    }
    kind = r.choice(list(kinds))
    places = [n for n, token in enumerate(tokens) if kinds[kind](token)]
    if not places:
        return damage_bytes(r, text)
    at = r.choice(places)
    token = tokens[at]
    if kind == "name":
        others = [tokens[n] for n in places]
        tokens[at] = r.choice([r.choice(others), token[:-1] or b"z", token + b"1", b"rules", b"A", b"#1", b"", (token * 13)[:13]])
    elif kind == "number":
        number = int(token)
        tokens[at] = r.choice([str(number + 1).encode(), str(max(number - 1, 0)).encode(), b"0" + token, token + b"0", b"-", b"", b"101", b"5", b"0", b"x"])
    elif kind == "instrument":
        tokens[at] = r.choice([b"#", token + b"0", b"#0" + token[1:], b"#1000000", token[1:], b"A", b"##"])
    elif kind == "variable":
        tokens[at] = r.choice([b"A", b"B", b"C", b"H", b"I", b"", b"a", b"AA", b"#1"])
    elif kind == "mark":
        tokens[at] = r.choice([b"(", b")", b",", b"=", b"-", b"", token + token, b"0", b"1"])
    else:
        tokens[at] = r.choice([b"", token + token, b" \n", b"\n ", b"\r\n", b"\t", b",", b" ", b"\n", b"\n.\n", b" -", b" 1"])
    return b"".join(tokens)


def damage_lines(r, text):
    lines = text.split(b"\n")
    at = r.randrange(len(lines))
    what = r.randrange(8)
    if what == 0:
        del lines[at]
    elif what == 1:
        lines.insert(at, lines[at])
    elif what == 2:
        other = r.randrange(len(lines))
        lines[at], lines[other] = lines[other], lines[at]
    elif what == 3:
        lines.insert(at, b"")
    elif what == 4:
        lines[at] = r.choice([b"rules", b"ruless", b".", b"..", b". ", b"", b" ", b"0", b"-", b"1 1 1", b"- - -", b"#1=#1", b"A=A"])
    elif what == 5:
        # a weighing more
        if b"rules" in lines:
            word = lines.index(b"rules")
            lines[word:word] = lines[max(word - 4, 0) : word]
    elif what == 6:
        del lines[at:]
    else:
        words = lines[at].split(b" ")
        words.insert(r.randrange(len(words) + 1), r.choice([b"", b"0", b"1", b"-", b"x"]))
        lines[at] = b" ".join(words)
    return b"\n".join(lines)


def stretched(r, text):
    """To the length of a sheet, or one byte more, or near it."""
    length = r.choice([32_766, 32_767, 32_768, 32_769, 32_770, 40_000, 70_000, 140_000])
    filler = r.choice([b"?", b"\n", b"7", b"a", b"#1=#1\n", text or b"x"])
    at = r.choice([0, len(text), len(text)])
    more = max(length - len(text), 0)
    text = text[:at] + (filler * (more // len(filler) + 1))[:more] + text[at:]
    # mostly with a line end behind it, so that a line `.` can follow
    return text[:-1] + b"\n" if r.random() < 0.7 else text


def damage_variables(r, text):
    """Puts one variable in the place of another."""
    tokens = cut(text)
    places = [n for n, token in enumerate(tokens) if len(token) == 1 and token.decode("latin-1") in VARIABLES]
    if not places:
        return damage_tokens(r, text)
    tokens[r.choice(places)] = tokens[r.choice(places)] if r.random() < 0.5 else r.choice(VARIABLES).encode()
    return b"".join(tokens)


def damage_shape(r, text):
    """Alters where an operator's arguments begin, go on or end."""
    tokens = cut(text)
    places = [n for n, token in enumerate(tokens) if token in (b"(", b",", b")")]
    if not places:
        return damage_tokens(r, text)
    at = r.choice(places)
    tokens[at] = r.choice([b"(", b",", b")", b"", b"=", b",#1,", b"()", b"\n"])
    return b"".join(tokens)


def damage_fronts(r, text):
    """Alters what a line begins with: the first name, value or symbol."""
    lines = text.split(b"\n")
    at = r.randrange(len(lines))
    tokens = cut(lines[at])
    front = r.choice([b"#1", b"A", b"H", b"#01", b"zz", b"=", b"", b" ", b"0", b"rules", b"nil"])
    lines[at] = front + b"".join(tokens[1:] if r.random() < 0.7 else tokens)
    return b"\n".join(lines)


def damage_names(r, text):
    """Alters the line of names, so that one may stand there twice, and the rules may have one that does not."""
    line, end, rest = text.partition(b"\n")
    words = line.split(b" ")
    words[r.randrange(len(words))] = r.choice(words) if r.random() < 0.7 else b"zz"
    return b" ".join(words) + end + rest


DAMAGES = [damage_bytes, damage_tokens, damage_tokens, damage_kind, damage_kind, damage_kind, damage_lines]
DAMAGES += [damage_variables, damage_shape, damage_fronts, damage_names]


def damaged(r, text):
    for _ in range(r.choice([1, 1, 1, 2, 3])):
        # half of the time among the rules alone, which are the smaller part of a small sheet
        front, word, rules = text.partition(b"\nrules\n")
        if rules and r.random() < 0.5:
            text = front + word + r.choice(DAMAGES)(r, rules)
        else:
            text = r.choice(DAMAGES)(r, text)
    return text


# Tickets


def ticket(r, maker):
    what = r.random()
    text = maker.term(r.choice([1, 2, 3, 5, 9, 20, 60]), r.choice([3, 6, 60]), "").encode()
    if what < 0.5:
        return text
    if what < 0.9:
        return damaged(r, text).replace(b"\n", b"")
    if what < 0.95:
        # near the longest ticket and the longest line
        length = r.choice([4_095, 4_096, 4_097, 4_199, 4_200, 4_201, 5_000])
        unary = [operator for operator, arity in maker.grown if arity == 1]
        if unary and r.random() < 0.7:
            inner = len(unary[0]) + 2
            depth = (length - 2) // inner
            rest = length - depth * inner - 2
            return (unary[0] + "(").encode() * depth + b"#" + b"1" * (rest + 1) + b")" * depth
        return (text * length)[:length]
    return r.choice([b"", b".", b" ", b"\r", b"A", b"7", b"rules", b"#", b"#01", b"?"])


def tickets(r, maker):
    # sometimes more than the program reads at a time
    count = r.choice([0, 1, 2, 3, 6]) if r.random() < 0.98 else r.choice([300, 3000])
    lines = [ticket(r, maker) for _ in range(count)]
    text = b"".join(line + b"\n" for line in lines)
    return text[:-1] if r.random() < 0.2 else text


# Whole inputs


def case(seed):
    r = random.Random(seed)
    lines, rules, maker = parts(r)
    if r.random() < 0.3:
        limited(r, lines, rules, maker)
    text = b"".join(line.encode() + b"\n" for line in lines + rules)
    if r.random() < 0.5:
        text = damaged(r, text)
    if r.random() < 0.03:
        text = stretched(r, text)
    end = r.random()
    if end < 0.05:
        return text
    if end < 0.08:
        return text + b"."
    if end < 0.09:
        return text + r.choice([b". \n", b"..\n", b" .\n", b".\r\n"]) + tickets(r, maker)
    return text + b".\n" + tickets(r, maker)


if __name__ == "__main__":
    sys.stdout.buffer.write(case(int(sys.argv[1])))
