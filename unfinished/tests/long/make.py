#!/usr/bin/env python3
"""Makes a long random journal, the same at every run:   make.py SHAPE SEED   or   make.py whole

Most calls are such that they are accepted; the others miss a range, an order or a supplier, mostly by one.
"""
import random
import sys

import model

TOP = 4_294_967_295
SHAPES = {
    # calls, accounts, suppliers, most lines of a sheet, most of a reading, hours used, first lines
    "ordinary": (1500, 400, 32, 200, 100_000, 25, []),
    "again": (1500, 60, 32, 30, 20_000, 3, []),
    "table": (900, 120, 3, 80, 50_000, 25, ["archive table"]),
    "narrow": (900, 120, 4, 60, 50_000, 6, ["archive bytes 6014", "roster 130"]),
    "large": (900, 120, 12, 100, 100_000_000, 4, ["roster 1000000", "archive bytes 2000000"]),
}


class Maker:
    def __init__(self, shape, seed):
        self.calls, self.accounts, self.suppliers, self.lines, self.reading, self.hours, first = SHAPES[shape]
        self.random = random.Random(f"{shape} {seed}")
        self.places = 130 if shape == "narrow" else 65_536
        self.roster = model.Roster(self.places)
        self.pool = sorted(self.random.sample(range(1, 5000), self.accounts - 2) + [1_000_000, 999_999_999])
        self.opened = 0
        self.slips = {}  # day: (hours, stage) of slips that are open
        self.days = [1]
        self.out = list(first)

    def chance(self, percent):
        return self.random.randrange(100) < percent

    def within(self, low, high):
        """A figure of the range, its ends more often than others."""
        return self.random.choice((low, high)) if self.chance(4) else self.random.randint(low, high)

    def beyond(self, low, high):
        """A figure outside the range."""
        return self.random.choice([high + 1, high + 1, TOP - 1] + ([low - 1] if low else []))

    def say(self, *words):
        self.out.append(" ".join(map(str, words)))

    # roster and book

    def roster_call(self):
        account = self.random.choice(self.pool)
        serving = self.roster.last(account)[1]
        call = "enrol" if serving == 0 else self.random.choice(("switch", "switch", "drop"))
        if self.chance(5):
            call = self.random.choice(("enrol", "switch", "drop"))
        day = self.opened + self.random.choice((1, 1, 2, 3)) if self.chance(95) else max(self.opened - self.random.randrange(2), 0)
        supplier = self.random.randint(1, self.suppliers)
        if self.chance(3):
            account, day, supplier = self.random.choice(
                ((self.beyond(1, 999_999_999), day, supplier), (account, self.beyond(1, 60_000), supplier),
                 (account, day, self.beyond(1, 32)), (account, day, serving)))
        numbers = (account, day) if call == "drop" else (account, day, supplier)
        self.say(call, *numbers)
        try:
            self.roster.add(call, self.opened, *numbers)
        except model.Refused:
            pass

    def open_call(self):
        day = self.opened + self.random.choice((1, 1, 1, 2, 5))
        hours = self.random.choice((23, 24, 24, 25))
        if self.chance(10):
            day, hours = self.random.choice(((self.opened, hours), (day, self.beyond(23, 25)), (self.beyond(1, 60_000), hours)))
        self.say("open", day, hours)
        if self.opened < day <= 60_000 and 23 <= hours <= 25:
            self.opened = day
            self.slips[day] = (hours, 1)
            self.days.append(day)

    def turn_call(self):
        day = self.random.choice(self.days)
        self.say("turn", day)
        if self.slips.get(day, (0, 0))[1] == 1:
            self.slips[day] = (self.slips[day][0], 2)

    def close_call(self):
        day = self.random.choice(self.days)
        self.say("close", day)
        if self.slips.get(day, (0, 0))[1] == 2:
            del self.slips[day]

    # sheets

    def served(self, day):
        most = self.lines if self.chance(30) else self.random.randint(0, 12)
        served = [account for account in self.pool if self.roster.supplier_on(account, day)]
        return sorted(self.random.sample(served, min(most, len(served))))

    def loss(self):
        return self.within(10_000, 20_000)

    def interval(self, account):
        reading = model.MISSING if self.chance(8) else self.within(0, self.reading)
        return [account, self.loss(), reading]

    def profiled(self, account):
        usage = self.within(1, 2_000_000_000) if self.chance(20) else self.random.randint(1, 100_000)
        billed = self.within(0, min(100 * usage, 100_000_000))
        return [account, self.loss(), self.within(0, min(1_000_000, self.reading // 50)), billed, usage]

    def spoil(self, day, sheet, ranges_of):
        """Gives one line of the sheet a fault, which may be one that the line does not mind."""
        if not sheet:
            return
        at = self.random.randrange(len(sheet))
        word, figures = sheet[at]
        fault = self.random.randrange(4)
        if fault == 0:
            place, low, high = self.random.choice(ranges_of(word, figures))
            figures[place] = self.beyond(low, high)
        elif fault == 1:
            account = 1 if word == "line" else 0
            other = sheet[at - 1][1]
            figures[account] = max(other[account] - self.random.randrange(2), 1)
        elif fault == 2 and (word == "profiled" or word == "line" and figures[0] == 2):
            figures[-1] = self.random.randint(1, 1_000_000)
            figures[-2] = 100 * figures[-1] + self.random.randrange(2)
        else:
            nobody = [account for account in self.pool if not self.roster.supplier_on(account, day)]
            if nobody:
                figures[1 if word == "line" else 0] = self.random.choice(nobody)

    @staticmethod
    def hour_ranges(word, _):
        ranges = [(0, 1, 999_999_999), (1, 10_000, 20_000)]
        if word == "interval":
            return ranges + [(2, 0, 100_000_000)]
        return ranges + [(2, 0, 1_000_000), (3, 0, 100_000_000), (4, 1, 2_000_000_000)]

    @staticmethod
    def peak_ranges(_, figures):
        most, first, second = {1: (100_000_000, (0, 0), (0, 0)), 2: (1_000_000, (0, 100_000_000), (1, 2_000_000_000)),
                               3: (10_000, (0, 100_000_000), (0, 0))}[figures[0]]
        return ([(0, 1, 3), (1, 1, 999_999_999), (2, 10_000, 20_000), (8, *first), (9, *second)]
                + [(at, 0, most) for at in range(3, 8)])

    def near(self, loads):
        """A zone load or an allocation for these loads."""
        way = self.random.randrange(100)
        if way < 25:
            total = loads
        elif way < 60:
            total = loads + self.random.randint(-loads // 20, loads // 20)
        elif way < 80:
            total = loads + self.random.randint(-3, 3)
        elif way < 90:
            total = self.random.randint(0, 2 * loads)
        else:
            return self.random.choice((0, 1, model.MOST - 1, model.MOST, model.MOST, model.MOST + 1, TOP))
        return min(max(total, 0), model.MOST)

    def run_call(self, words, sheet):
        if self.chance(6):
            words = [*words, "list", max(len(sheet) + self.random.choice((-1, 0, 1, 100)), 0)]
        self.say(*words)
        for word, figures in sheet:
            self.say(word, *("missing" if figure == model.MISSING and self.chance(50) and self.may_miss(word, at) else figure
                             for at, figure in enumerate(figures)))
        self.say("end")

    @staticmethod
    def may_miss(word, at):
        return word == "interval" and at == 2 or word == "line" and 3 <= at <= 7

    def settle_call(self):
        day = self.random.choice(list(self.slips)[-6:] if self.slips and self.chance(97) else self.days)
        hours = self.slips.get(day, (24, 0))[0]
        hour = self.random.randint(1, min(hours, self.hours)) if self.chance(96) else self.random.choice((0, hours, hours + 1))
        sheet = []
        for account in self.served(day):
            word = self.random.choice(("interval", "profiled"))
            sheet.append((word, self.interval(account) if word == "interval" else self.profiled(account)))
        kinds = {"interval": model.IntervalLine, "profiled": model.ProfiledLine}
        loads = sum(kinds[word](*figures).weight() for word, figures in sheet)
        if self.chance(8):
            self.spoil(day, sheet, self.hour_ranges)
        way = ["prorata"] if self.chance(50) else ["percent", self.within(0, 100) if self.chance(97) else self.beyond(0, 100)]
        self.run_call(["settle", day, hour, self.near(loads), *way], sheet)

    def peak_line(self, account):
        kind = self.random.randint(1, 3)
        if kind == 1:
            figures = [model.MISSING if self.chance(15) else self.within(0, self.reading) for _ in range(5)] + [0, 0]
        elif kind == 2:
            _, _, profile, billed, usage = self.profiled(account)
            figures = [self.within(0, profile) for _ in range(5)] + [billed, usage]
        else:
            figures = [self.within(0, 10_000) for _ in range(5)] + [self.within(0, self.reading), 0]
        return [kind, account, self.loss(), *figures]

    def peak_call(self):
        day = self.random.choice(self.days[-6:]) + self.random.choice((0, 0, 0, 1, 2)) if self.chance(97) else self.beyond(1, 60_000)
        sheet = [("line", self.peak_line(account)) for account in self.served(day)]
        weights = sum(model.PeakLine(*figures).weight() for _, figures in sheet)
        if self.chance(8):
            self.spoil(day, sheet, self.peak_ranges)
        self.run_call(["peak", day, self.near(weights)], sheet)

    # archive

    def take_in_call(self):
        data = b""
        for _ in range(self.random.randint(0, 4)):
            amount = self.random.choice((1, 1, -1)) * self.random.choice((1, self.random.randint(1, 100_000), model.MOST))
            day, supplier = self.random.choice(self.days[-6:]), self.random.randint(1, 32)
            if self.chance(25):
                row = ("peak", day, 0, 0, supplier, amount)
            else:
                row = ("energy", day, self.random.randint(1, self.hours), self.random.randint(1, 2), supplier, amount)
            data += model.row_bytes(row)
        if data and self.chance(15):
            at = self.random.randrange(len(data))
            data = data[:at] + bytes([self.random.randrange(256)]) + data[at + 1:]
        if data and self.chance(5):
            data = data[:-1]
        digits = data.hex()
        self.say("takein", digits if self.chance(50) else digits.upper())

    def list_call(self):
        words = ["list", self.random.choice(self.days), self.random.randint(0, self.hours)]
        if self.chance(5):
            words[self.random.choice((1, 2))] = self.beyond(0, 60_000)
        if self.chance(20):
            words.append(self.random.randint(0, 200))
        self.say(*words)

    def make(self):
        # A beginning from which most sheets can be filled.
        for account in self.pool:
            if self.chance(70):
                self.say("enrol", account, 1, supplier := self.random.randint(1, self.suppliers))
                try:
                    self.roster.add("enrol", 0, account, 1, supplier)
                except model.Refused:
                    pass
        calls = [(self.settle_call, 40), (self.peak_call, 12), (self.roster_call, 20), (self.open_call, 5), (self.turn_call, 5),
                 (self.close_call, 4), (self.take_in_call, 4), (self.list_call, 9)]
        chosen = self.random.choices([call for call, _ in calls], [share for _, share in calls], k=self.calls)
        self.open_call()
        for at, call in enumerate(chosen):
            call()
            if at % 300 == 299:
                self.say("dump")
        self.say("dump")
        return "\n".join(self.out) + "\n"


def whole():
    """The longest roster and the longest sheets, of 65,536 lines; and sheets of one more, which are refused."""
    rng = random.Random("whole")
    accounts = sorted(rng.sample(range(1, 1_000_000_000), 65_537))
    out = [f"enrol {account} 1 {rng.randint(1, 32)}" for account in accounts]
    out.append("open 1 25")
    hour = [f"interval {account} {rng.randint(10_000, 20_000)} {rng.randint(0, 30_000)}" if rng.random() < 0.5 else
            f"profiled {account} {rng.randint(10_000, 20_000)} {rng.randint(0, 10_000)} {rng.randint(0, 200_000)} {rng.randint(2000, 100_000)}"
            for account in accounts]
    peak = [f"line 1 {account} 10000 {rng.randint(0, 50_000)} missing {rng.randint(0, 50_000)} {rng.randint(0, 50_000)} missing 0 0"
            for account in accounts]
    for head, sheet in (("settle 1 25 2500000000 prorata", hour), ("settle 1 25 2400000001 percent 5", hour), ("peak 1 1700000000", peak)):
        out += [head, *sheet[:-1], "end"]
        out += [head, *sheet, "end"]
    return "\n".join(out + ["list 1 25", "list 1 0"]) + "\n"


if __name__ == "__main__":
    sys.stdout.write(whole() if sys.argv[1] == "whole" else Maker(sys.argv[1], sys.argv[2]).make())
