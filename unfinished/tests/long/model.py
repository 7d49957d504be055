#!/usr/bin/env python3
"""A second settlement book, written from the rules and not from the program, to hold the program against.

    model.py JOURNAL        prints what the program must print for that journal ('-' is standard input)

Its figures are Python's own integers, so nothing can overflow. It is slow and plain on purpose.
"""
import sys

MOST = 3_000_000_000
MISSING = 4_294_967_295
SUPPLIERS = range(1, 33)
ROW_BYTES = 15
MARKS = {"energy": b"\x45\x48", "peak": b"\x50\x4C"}

ROSTER_LAYER, SHEET_LAYER, SHARING_LAYER, ARCHIVE_LAYER = 1, 2, 3, 4


class Refused(Exception):
    """A call is refused: number, layer, place."""


def need(fine, number, layer, place=0):
    if not fine:
        raise Refused(number, layer, place)


# ---- ranges -----------------------------------------------------------------------------------------------------

def is_day(day):
    return 1 <= day <= 60_000


def is_account(account):
    return 1 <= account <= 999_999_999


def is_usage(figure):
    """A billed usage, a highest demand, or a reading that is there."""
    return 0 <= figure <= 100_000_000


def is_reading(figure):
    return is_usage(figure) or figure == MISSING


def is_profile_load(figure):
    return 0 <= figure <= 1_000_000


def is_profile_usage(figure):
    return 1 <= figure <= 2_000_000_000


def is_loss_factor(figure):
    return 10_000 <= figure <= 20_000


def is_coincidence(figure):
    return 0 <= figure <= 10_000


# ---- roster, book, slips ----------------------------------------------------------------------------------------

class Roster:
    def __init__(self, places):
        self.places = min(places, 65_536)
        self.count = 0
        self.entries = {}  # account: its (from-day, supplier) in the order of the list

    def last(self, account):
        return self.entries.get(account, [(0, 0)])[-1]

    def supplier_on(self, account, day):
        """The supplier of the last entry whose from-day is not after the day; 0 is nobody."""
        for from_day, supplier in reversed(self.entries.get(account, [])):
            if from_day <= day:
                return supplier
        return 0

    def add(self, call, last_opened, account, from_day, supplier=0):
        in_range = is_account(account) and is_day(from_day) and (call == "drop" or supplier in SUPPLIERS)
        need(in_range, 10, ROSTER_LAYER)
        need(self.count < self.places, 11, ROSTER_LAYER)
        last_from, serving = self.last(account)
        if call == "enrol":
            need(serving == 0, 12, ROSTER_LAYER)
        else:
            need(serving != 0, 13, ROSTER_LAYER)
        if call == "switch":
            need(supplier != serving, 14, ROSTER_LAYER)
        need(from_day > last_from, 15, ROSTER_LAYER)
        need(from_day > last_opened, 16, ROSTER_LAYER)
        self.entries.setdefault(account, []).append((from_day, supplier))
        self.count += 1


class Slip:
    def __init__(self, day, hours):
        self.day = day
        self.hours = hours
        self.stage = 1
        self.settled = set()

    def turn(self):
        self.stage = 2
        self.settled = set()

    def close(self):
        return sum(2 ** (hour - 1) for hour in range(1, self.hours + 1) if hour not in self.settled)


# ---- archive ----------------------------------------------------------------------------------------------------

def row_bytes(row):
    kind, day, hour, stage, supplier, amount = row
    return MARKS[kind] + day.to_bytes(2, "big") + bytes([hour, stage, supplier]) + amount.to_bytes(8, "big", signed=True)


def is_lawful(row):
    kind, day, hour, stage, supplier, amount = row
    timely = 1 <= hour <= 25 and stage in (1, 2) if kind == "energy" else hour == 0 and stage == 0
    return timely and is_day(day) and supplier in SUPPLIERS and -MOST <= amount <= MOST and amount != 0


class Archive:
    def __init__(self, places):
        self.places = places
        self.rows = []
        self.sums = {}  # (kind, day, hour): supplier: sum, of the rows of both stages

    def free(self):
        return self.places - len(self.rows)

    def append(self, row):
        kind, day, hour, _, supplier, amount = row
        self.rows.append(row)
        sums = self.sums.setdefault((kind, day, hour), {})
        sums[supplier] = sums.get(supplier, 0) + amount

    def sum(self, kind, day, hour, supplier):
        return self.sums.get((kind, day, hour), {}).get(supplier, 0)

    def take_in(self, data):
        need(len(data) % ROW_BYTES == 0, 30, ARCHIVE_LAYER)
        rows = []
        for offset in range(0, len(data), ROW_BYTES):
            part = data[offset:offset + ROW_BYTES]
            kinds = [kind for kind, mark in MARKS.items() if part[:2] == mark]
            need(kinds, 31, ARCHIVE_LAYER, offset)
            amount = int.from_bytes(part[7:], "big", signed=True)
            row = (kinds[0], int.from_bytes(part[2:4], "big"), part[4], part[5], part[6], amount)
            need(is_lawful(row), 32, ARCHIVE_LAYER, offset)
            rows.append(row)
        need(len(rows) <= self.free(), 27, ARCHIVE_LAYER)
        for row in rows:
            self.append(row)
        return len(rows)

    def listing(self, day, hour, room):
        need(is_day(day) and 0 <= hour <= 25, 10, ARCHIVE_LAYER)
        kind = "peak" if hour == 0 else "energy"
        sums = [(supplier, self.sum(kind, day, hour, supplier)) for supplier in SUPPLIERS]
        text = "".join(f"{supplier} {total}\n" for supplier, total in sums if total != 0)
        text += f"zone {sum(total for _, total in sums)}\n"
        need(room is None or len(text) <= room, 33, ARCHIVE_LAYER)
        return text

    def adjust(self, kind, day, hour, stage, wanted):
        """Appends for each supplier what is wanted less what its rows have; answers the rows added."""
        added = []
        for supplier in SUPPLIERS:
            amount = wanted.get(supplier, 0) - self.sum(kind, day, hour, supplier)
            need(-MOST <= amount <= MOST, 26, ARCHIVE_LAYER)
            if amount != 0:
                added.append((kind, day, hour, stage, supplier, amount))
        need(len(added) <= self.free(), 27, ARCHIVE_LAYER)
        for row in added:
            self.append(row)
        return added


# ---- lines of a sheet -------------------------------------------------------------------------------------------

def interval_load(reading, loss):
    return 0 if reading == MISSING else reading * loss // 10_000


def profiled_load(profile, billed, usage, loss):
    return profile * billed * loss // (usage * 10_000)


def demand_load(demand, factor, loss):
    return demand * factor * loss // 100_000_000


class IntervalLine:
    def __init__(self, account, loss, reading):
        self.account, self.loss, self.reading = account, loss, reading

    def in_range(self):
        return is_account(self.account) and is_loss_factor(self.loss) and is_reading(self.reading)

    def overbilled(self):
        return False

    def weight(self):
        return interval_load(self.reading, self.loss)


class ProfiledLine:
    def __init__(self, account, loss, profile, billed, usage):
        self.account, self.loss, self.profile, self.billed, self.usage = account, loss, profile, billed, usage

    def in_range(self):
        return (is_account(self.account) and is_loss_factor(self.loss) and is_profile_load(self.profile)
                and is_usage(self.billed) and is_profile_usage(self.usage))

    def overbilled(self):
        return self.billed > 100 * self.usage

    def weight(self):
        return profiled_load(self.profile, self.billed, self.usage, self.loss)


class PeakLine:
    def __init__(self, kind, account, loss, *figures):
        self.kind, self.account, self.loss = kind, account, loss
        self.figures, self.further = figures[:5], figures[5:]

    def in_range(self):
        if not (is_account(self.account) and is_loss_factor(self.loss)):
            return False
        first, second = self.further
        if self.kind == 1:
            return all(map(is_reading, self.figures)) and first == 0 and second == 0
        if self.kind == 2:
            return all(map(is_profile_load, self.figures)) and is_usage(first) and is_profile_usage(second)
        if self.kind == 3:
            return all(map(is_coincidence, self.figures)) and is_usage(first) and second == 0
        return False

    def overbilled(self):
        return self.kind == 2 and self.further[0] > 100 * self.further[1]

    def weight(self):
        first, second = self.further
        if self.kind == 1:
            loads = [interval_load(figure, self.loss) for figure in self.figures if figure != MISSING]
        elif self.kind == 2:
            loads = [profiled_load(figure, first, second, self.loss) for figure in self.figures]
        else:
            loads = [demand_load(first, figure, self.loss) for figure in self.figures]
        return sum(loads) // len(loads) if loads else 0


def check_sheet(sheet, places, roster, day, first_figures_fine):
    """The checks that settling and the peak run have in common; answers each line's supplier."""
    need(first_figures_fine and len(sheet) <= 65_536, 10, SHEET_LAYER)
    need(places >= len(sheet), 20, SHEET_LAYER)
    suppliers = []
    before = 0
    for place, line in enumerate(sheet, 1):
        need(line.in_range(), 10, SHEET_LAYER, place)
        need(line.account > before, 21, SHEET_LAYER, place)
        need(not line.overbilled(), 22, SHEET_LAYER, place)
        supplier = roster.supplier_on(line.account, day)
        need(supplier in SUPPLIERS, 13, SHEET_LAYER, place)
        suppliers.append(supplier)
        before = line.account
    return suppliers


# ---- sharing, arrangements --------------------------------------------------------------------------------------

def share(total, weights):
    whole = sum(weights)
    shares = []
    reached = given = 0
    for weight in weights:
        reached += weight
        up_to_here = total * reached // whole if whole else 0
        shares.append(up_to_here - given)
        given = up_to_here
    return shares


def toward_zero(top, bottom):
    return top // bottom if top >= 0 else -(-top // bottom)


def parts(arrangement, unaccounted, interval, profiled):
    if arrangement[0] == "percent":
        first = toward_zero(unaccounted * arrangement[1], 100)
    else:
        loads = interval + profiled
        first = toward_zero(unaccounted * interval, loads) if loads else 0
    return first, unaccounted - first


def obligations(suppliers, amounts):
    wanted = {}
    for supplier, amount in zip(suppliers, amounts):
        wanted[supplier] = wanted.get(supplier, 0) + amount
    return wanted


# ---- the two runs -----------------------------------------------------------------------------------------------

def settle(slip, hour, zone, sheet, roster, arrangement, archive, places):
    """Answers the rows added and the final loads."""
    suppliers = check_sheet(sheet, places, roster, slip.day, 1 <= hour <= slip.hours and zone <= MOST)
    metered = [line.weight() if isinstance(line, IntervalLine) else 0 for line in sheet]
    profiled = [line.weight() if isinstance(line, ProfiledLine) else 0 for line in sheet]
    loads = sum(metered), sum(profiled)
    need(sum(loads) <= MOST, 23, SHARING_LAYER)
    unaccounted = zone - sum(loads)
    totals = [load + part for load, part in zip(loads, parts(arrangement, unaccounted, *loads))]
    for load, total in zip(loads, totals):
        need(load != 0 or total == 0, 24, SHARING_LAYER)
    for total in totals:
        need(total >= 0, 25, SHARING_LAYER)
    finals = [sum(both) for both in zip(share(totals[0], metered), share(totals[1], profiled))]
    added = archive.adjust("energy", slip.day, hour, slip.stage, obligations(suppliers, finals))
    slip.settled.add(hour)
    return added, finals


def peak(day, allocation, sheet, roster, archive, places):
    """Answers the rows added and the contributions."""
    suppliers = check_sheet(sheet, places, roster, day, is_day(day) and allocation <= MOST)
    weights = [line.weight() for line in sheet]
    need(sum(weights) <= MOST, 23, SHARING_LAYER)
    need(sum(weights) != 0 or allocation == 0, 24, SHARING_LAYER)
    contributions = share(allocation, weights)
    added = archive.adjust("peak", day, 0, 0, obligations(suppliers, contributions))
    return added, contributions


# ---- reading a journal ------------------------------------------------------------------------------------------

class Unreadable(Exception):
    """The journal cannot be read: the number of the line."""


class Call:
    def __init__(self, line, word, numbers, shown, **more):
        self.line, self.word, self.numbers, self.shown = line, word, numbers, shown
        self.sheet = []
        self.arrangement = more.get("arrangement")
        self.places = more.get("places")
        self.data = more.get("data")


class Reader:
    """Reads the whole journal: how large roster and archive are, and the calls."""

    COUNTS = {"enrol": (3,), "switch": (3,), "drop": (2,), "open": (2,), "turn": (1,), "close": (1,), "list": (2, 3), "dump": (0,)}
    SHEET_LINES = {"settle": {"interval": (IntervalLine, 3, (2,)), "profiled": (ProfiledLine, 5, ())},
                   "peak": {"line": (PeakLine, 10, (3, 4, 5, 6, 7))}}

    def __init__(self, text):
        self.roster_places = 65_536
        self.archive_places = 65_536
        self.calls = []
        self.sheet_of = None
        lines = text.split(b"\n")
        for self.line, line in enumerate(lines, 1):
            if line.endswith(b"\r") and self.line < len(lines):
                line = line[:-1]
            words = line.replace(b"\t", b" ").split(b" ")
            words = [word for word in words if word]
            if words and not words[0].startswith(b"#"):
                self.read(words[0].decode("latin-1"), words[1:])
        if self.sheet_of:
            raise Unreadable(self.sheet_of.line)

    def demand(self, fine):
        if not fine:
            raise Unreadable(self.line)

    def number(self, word, limit=4_294_967_295):
        digits = word.lstrip(b"0")
        self.demand(word.isdigit() and len(digits) <= 10 and int(digits or b"0") <= limit)
        return int(digits or b"0")

    def read(self, word, rest):
        if self.sheet_of:
            self.read_in_sheet(word, rest)
        elif word in ("roster", "archive"):
            self.read_choice(word, rest)
        elif word in ("settle", "peak"):
            self.read_run(word, rest)
        elif word == "takein":
            self.read_take_in(rest)
        else:
            self.demand(word in self.COUNTS and len(rest) in self.COUNTS[word])
            numbers = [self.number(part) for part in rest]
            self.demand(word != "list" or len(numbers) < 3 or numbers[2] <= 1_000_000)
            self.add(word, numbers, [word, *map(str, numbers)])

    def add(self, word, numbers, shown, **more):
        self.calls.append(Call(self.line, word, numbers, " ".join(shown), **more))

    def read_choice(self, word, rest):
        self.demand(not self.calls)
        if word == "roster":
            self.demand(len(rest) == 1)
            self.roster_places = self.number(rest[0], 1_000_000)
        elif rest == [b"table"]:
            self.archive_places = 512
        else:
            self.demand(len(rest) == 2 and rest[0] == b"bytes")
            self.archive_places = min(self.number(rest[1], 2_000_000) // ROW_BYTES, 65_536)

    def read_take_in(self, rest):
        self.demand(len(rest) <= 1)
        digits = rest[0] if rest else b""
        self.demand(len(digits) % 2 == 0 and all(digit in b"0123456789abcdefABCDEF" for digit in digits))
        shown = ["takein"] + ([digits.decode().upper()] if digits else [])
        self.add("takein", [], shown, data=bytes.fromhex(digits.decode()))

    def read_run(self, word, rest):
        """settle DAY HOUR ZONE percent P | settle DAY HOUR ZONE prorata | peak DAY ALLOCATION, and 'list N' behind it."""
        count = 3 if word == "settle" else 2
        self.demand(len(rest) >= count)
        numbers = [self.number(part) for part in rest[:count]]
        shown = [word, *map(str, numbers)]
        rest = rest[count:]
        arrangement = places = None
        if word == "settle":
            self.demand(rest)
            if rest[0] == b"percent":
                self.demand(len(rest) >= 2)
                arrangement = ("percent", self.number(rest[1]))
                shown += ["percent", str(arrangement[1])]
                rest = rest[2:]
            else:
                self.demand(rest[0] == b"prorata")
                arrangement = ("prorata",)
                shown.append("prorata")
                rest = rest[1:]
        if rest:
            self.demand(len(rest) == 2 and rest[0] == b"list")
            places = self.number(rest[1], 1_000_000)
            shown += ["list", str(places)]
        self.add(word, numbers, shown, arrangement=arrangement, places=places)
        self.sheet_of = self.calls[-1]

    def read_in_sheet(self, word, rest):
        if word == "end":
            self.demand(not rest)
            self.sheet_of = None
            return
        kinds = self.SHEET_LINES[self.sheet_of.word]
        self.demand(word in kinds)
        make, count, may_miss = kinds[word]
        self.demand(len(rest) == count)
        figures = [MISSING if part == b"missing" and at in may_miss else self.number(part) for at, part in enumerate(rest)]
        self.sheet_of.sheet.append(make(*figures))


# ---- running a journal ------------------------------------------------------------------------------------------

class Run:
    """Makes the calls of a journal and gathers what is printed."""

    def __init__(self, journal):
        self.roster = Roster(journal.roster_places)
        self.archive = Archive(journal.archive_places)
        self.last_opened = 0
        self.slips = {}  # day: slip, in the order of opening
        self.out = []
        for call in journal.calls:
            try:
                answer, *further = getattr(self, call.word)(call)
            except Refused as refused:
                answer, further = "refused {} {} {}".format(*refused.args), []
            self.out.append(f"{call.shown} -> {answer}\n")
            self.out += further
        self.out += [f"open at end {slip.day} {slip.stage}\n" for slip in self.slips.values()]
        self.out.append(f"end: {len(self.archive.rows)} rows, {self.archive.free()} free, {self.roster.count} entries\n")

    def slip(self, day, *stages):
        slip = self.slips.get(day)
        return slip if slip and slip.stage in stages else None

    def enrol(self, call):
        self.roster.add(call.word, self.last_opened, *call.numbers)
        return ["ok"]

    switch = drop = enrol

    def open(self, call):
        day, hours = call.numbers
        need(is_day(day) and 23 <= hours <= 25, 10, ROSTER_LAYER)
        need(day > self.last_opened, 17, ROSTER_LAYER)
        self.last_opened = day
        self.slips[day] = Slip(day, hours)
        return ["ok"]

    def turn(self, call):
        slip = self.slip(call.numbers[0], 1)
        if not slip:
            return ["no slip"]
        slip.turn()
        return ["ok"]

    def close(self, call):
        slip = self.slip(call.numbers[0], 2)
        if not slip:
            return ["no slip"]
        del self.slips[slip.day]
        return [slip.close()]

    def settle(self, call):
        day, hour, zone = call.numbers
        slip = self.slip(day, 1, 2)
        if not slip:
            return ["no slip"]
        need(call.arrangement[0] != "percent" or call.arrangement[1] <= 100, 10, SHEET_LAYER)
        return self.filled("load", call, settle(slip, hour, zone, call.sheet, self.roster, call.arrangement, self.archive, self.places(call)))

    def peak(self, call):
        day, allocation = call.numbers
        return self.filled("contribution", call, peak(day, allocation, call.sheet, self.roster, self.archive, self.places(call)))

    def places(self, call):
        return len(call.sheet) if call.places is None else call.places

    def filled(self, word, call, answer):
        added, amounts = answer
        rows = ["row {} {} {} {} {} {}\n".format(*row) for row in added]
        return [f"{len(added)} rows"] + rows + [f"{word} {line.account} {amount}\n" for line, amount in zip(call.sheet, amounts)]

    def list(self, call):
        day, hour, *room = call.numbers
        text = self.archive.listing(day, hour, room[0] if room else None)
        return [len(text), text]

    def takein(self, call):
        return [f"{self.archive.take_in(call.data)} rows"]

    def dump(self, _):
        return [f"{len(self.archive.rows)} rows"] + [row_bytes(row).hex().upper() + "\n" for row in self.archive.rows]


def main():
    if len(sys.argv) != 2:
        sys.exit("usage: model.py JOURNAL")
    if sys.argv[1] == "-":
        text = sys.stdin.buffer.read()
    else:
        with open(sys.argv[1], "rb") as file:
            text = file.read()
    try:
        journal = Reader(text)
    except Unreadable as unreadable:
        sys.exit(f"journal: line {unreadable.args[0]}: cannot be read")
    sys.stdout.write("".join(Run(journal).out))


if __name__ == "__main__":
    main()
