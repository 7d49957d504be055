#!/usr/bin/env python3
"""Reads what the program printed and holds its rows against its answers; it knows nothing of how an hour is settled.

    adds_up.py OUTPUT

For each day and hour the rows add up to the zone load of the last accepted settling, and each supplier's rows to the loads of
the accounts that it served, by the entries accepted until then; likewise the peak rows of a day. Listings and dumps tell
those same rows. Rows that were taken in count; an hour into which rows were taken in is looked at when it is next settled.
"""
import re
import sys
from collections import defaultdict


class Wrong(Exception):
    pass


def expect(fine, what):
    if not fine:
        raise Wrong(what)


class Printed:
    def __init__(self, lines):
        self.lines = lines
        self.at = 0
        self.service = defaultdict(list)          # account: (from-day, supplier), accepted
        self.stages = {}                          # day of an open slip: stage
        self.rows = []                            # (mark, day, hour, stage, supplier, amount) as printed or taken in
        self.owed = defaultdict(lambda: defaultdict(int))  # (mark, day, hour): supplier: sum of the rows
        self.due = {}                             # (mark, day, hour): (total, supplier: sum of its loads)
        self.accepted = {"settle": 0, "peak": 0}
        ended = False
        while self.at < len(self.lines):
            line = self.next()
            if found := re.fullmatch(r"end: (\d+) rows, \d+ free, (\d+) entries", line):
                expect(int(found[1]) == len(self.rows), "count of rows at the end")
                expect(int(found[2]) == sum(map(len, self.service.values())), "count of entries at the end")
                ended = True
            elif not line.startswith("open at end "):
                call, answer = line.split(" -> ")
                if not answer.startswith("refused ") and answer != "no slip":
                    word, *words = call.split(" ")
                    getattr(self, word)(words, answer)
        expect(ended, "no end")
        for hour in self.due:
            self.compare(hour)

    def next(self):
        self.at += 1
        expect(self.at <= len(self.lines), "output ends early")
        return self.lines[self.at - 1]

    def compare(self, hour):
        total, by_supplier = self.due[hour]
        rows = self.owed[hour]
        expect(sum(rows.values()) == total, f"{hour}: rows add up to {sum(rows.values())}, total {total}")
        for supplier in range(1, 33):
            expect(rows[supplier] == by_supplier[supplier], f"{hour}: supplier {supplier} has {rows[supplier]}, due {by_supplier[supplier]}")

    def add(self, row):
        mark, day, hour, _, supplier, amount = row
        expect(amount != 0 and abs(amount) <= 3_000_000_000 and 1 <= supplier <= 32, f"row {row}")
        self.rows.append(row)
        self.owed[mark, day, hour][supplier] += amount

    def enrol(self, words, _):
        self.service[words[0]].append((int(words[1]), int(words[2])))

    switch = enrol

    def drop(self, words, _):
        self.service[words[0]].append((int(words[1]), 0))

    def open(self, words, _):
        self.stages[int(words[0])] = 1

    def turn(self, words, _):
        self.stages[int(words[0])] = 2

    def close(self, words, _):
        del self.stages[int(words[0])]

    def served_by(self, account, day):
        last = 0
        for from_day, supplier in self.service[account]:
            if from_day <= day:
                last = supplier
        return last

    def filled(self, mark, day, hour, stage, total, answer, load_word):
        before = 0
        for _ in range(int(answer.split(" ")[0])):
            word, kind, *numbers = self.next().split(" ")
            row = ("EH" if kind == "energy" else "PL", *map(int, numbers))
            expect(word == "row" and row[:4] == (mark, day, hour, stage) and row[4] > before, f"row {row}")
            before = row[4]
            self.add(row)
        by_supplier = defaultdict(int)
        while self.at < len(self.lines) and self.lines[self.at].startswith(load_word + " "):
            _, account, load = self.next().split(" ")
            supplier = self.served_by(account, day)
            expect(supplier != 0 and int(load) >= 0, f"{load_word} {account} {load}")
            by_supplier[supplier] += int(load)
        self.due[mark, day, hour] = total, by_supplier
        self.compare((mark, day, hour))

    def settle(self, words, answer):
        day, hour, zone = map(int, words[:3])
        self.accepted["settle"] += 1
        self.filled("EH", day, hour, self.stages[day], zone, answer, "load")

    def peak(self, words, answer):
        day, allocation = map(int, words[:2])
        self.accepted["peak"] += 1
        self.filled("PL", day, 0, 0, allocation, answer, "contribution")

    def takein(self, words, answer):
        data = bytes.fromhex("".join(words))
        expect(answer == f"{len(data) // 15} rows", "count of rows taken in")
        for at in range(0, len(data), 15):
            row = self.decoded(data[at:at + 15])
            self.add(row)
            self.due.pop(row[:3], None)

    @staticmethod
    def decoded(part):
        amount = int.from_bytes(part[7:], "big")
        return part[:2].decode(), part[2] * 256 + part[3], part[4], part[5], part[6], amount - 2**64 if amount >= 2**63 else amount

    def list(self, words, answer):
        day, hour = map(int, words[:2])
        sums = self.owed["EH" if hour else "PL", day, hour]
        told = []
        while not told or not told[-1].startswith("zone "):
            told.append(self.next())
        wanted = [f"{supplier} {sums[supplier]}" for supplier in range(1, 33) if sums[supplier] != 0] + [f"zone {sum(sums.values())}"]
        expect(told == wanted and int(answer) == sum(len(line) + 1 for line in told), f"listing of {day} {hour}")

    def dump(self, _, answer):
        expect(answer == f"{len(self.rows)} rows", "count of rows in a dump")
        for row in self.rows:
            expect(self.decoded(bytes.fromhex(self.next())) == row, f"dump of {row}")


def main():
    with open(sys.argv[1], encoding="ascii") as file:
        lines = file.read().split("\n")
    try:
        expect(lines.pop() == "", "no line feed at the end")
        printed = Printed(lines)
        expect(all(printed.accepted.values()), "nothing was accepted")
    except Wrong as wrong:
        sys.exit(f"adds_up: {wrong}")


if __name__ == "__main__":
    main()
