#!/usr/bin/env python3
"""Answers what the program `book` must answer, written from docs/ alone and in the plainest way.

    tools/book_oracle.py < INPUT

Sheets and tickets are read by tools/sheet_oracle.py, rules are oriented by tools/order_oracle.py. It knows nothing of the
crates: it is there to be compared with the program, which tools/sheet_compare.py does.
"""
import sys

# leaves nothing behind in tools/
sys.dont_write_bytecode = True

import order_oracle
from sheet_oracle import LINE_BYTES, Refused, read_sheet, read_ticket, split_input, symbols_of, text_of


def ticket_answer(sheet, ticket):
    try:
        if len(ticket) > LINE_BYTES:
            raise Refused(6, 0, 0)
        term = read_ticket(sheet, ticket)
        return f"ticket {symbols_of(term)} {text_of(term)}"
    except Refused as refused:
        return str(refused)


def answers(data):
    text, tickets = split_input(data)
    try:
        sheet = read_sheet(text)
    except Refused as refused:
        return [str(refused)]
    weighings = order_oracle.weighings_of(sheet)
    rules = [f"rule {n} {order_oracle.orientation(rule, weighings)}" for n, rule in enumerate(sheet.rules)]
    return [f"read {len(sheet.rules)}"] + rules + [ticket_answer(sheet, ticket) for ticket in tickets]


def printed(data):
    return "".join(line + "\n" for line in answers(data)).encode("latin-1")


if __name__ == "__main__":
    sys.stdout.buffer.write(printed(sys.stdin.buffer.read()))
