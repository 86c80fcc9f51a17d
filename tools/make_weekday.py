#!/usr/bin/env python3
"""Writes a weekday as input for the day program: bookings come in, vans drive along their plans, some are late, and
calls of every kind are refused. The model of the program tells the plans. A kind and a seed give the same day each time.

    python3 tools/make_weekday.py passengers 7 tools/quotes.txt > crates/weekday/stdin
    python3 tools/make_weekday.py parcels 7 > crates/parcels_day/stdin
    python3 tools/day_model.py < crates/weekday/stdin > crates/weekday/stdout

Lines of a third argument's file stand before the day.
"""
import random
import sys

import day_model


def road_table(chance, places):
    """Shortest ways over streets between places that lie close to each other."""
    spots = [(chance.randint(0, 6000), chance.randint(0, 6000)) for _ in range(places)]
    far = 10**6
    seconds = [[0 if a == b else far for b in range(places)] for a in range(places)]
    for a, (x, y) in enumerate(spots):
        near = sorted(range(places), key=lambda b: abs(x - spots[b][0]) + abs(y - spots[b][1]))
        for b in near[1:7]:
            ahead = (abs(x - spots[b][0]) + abs(y - spots[b][1])) // 8 + chance.randint(20, 60)
            seconds[a][b] = min(seconds[a][b], ahead)
            seconds[b][a] = min(seconds[b][a], ahead + chance.randint(0, 30))
    for via in range(places):
        for a in range(places):
            for b in range(places):
                seconds[a][b] = min(seconds[a][b], seconds[a][via] + seconds[via][b])
    return [entry for row in seconds for entry in row]


def rider_figures(chance, ready):
    wheelchairs = 1 if chance.random() < 0.1 else 0
    seats = chance.choice([1, 1, 1, 2, 2, 3, 4, 5, 6]) if not wheelchairs else chance.randint(0, 2)
    wait = chance.choice([600, 900, 1800, 5400])
    latest = ready + wait + chance.randint(1800, 9000)
    return [seats, wheelchairs, ready, wait, chance.choice([25, 50, 100, 300]), latest]


def parcel_figures(chance, ready):
    wait = chance.choice([1800, 3600, 5400])
    litres, kilograms = chance.choice([20, 60, 400, 900, 2500, 4000]), chance.choice([1, 5, 30, 120, 400, 600])
    return [litres, kilograms, ready, ready + wait, ready + 600, ready + wait + chance.randint(3600, 9000)]


class Weekday:
    """A day as it is written: each line goes to the model at once, so that later lines can follow what happened."""

    def __init__(self, kind, seed):
        self.chance = random.Random(seed)
        self.kind = kind
        self.figures = rider_figures if kind == "passengers" else parcel_figures
        self.day = day_model.Day()
        self.lines = []
        self.seen = set()
        self.next_booking = 101
        self.diverted = 0
        self.strays = 0

    def note(self, text):
        self.lines.append(f"# {text}" if text else "")

    def give(self, line):
        self.lines.append(line)
        answer = self.day.answer(line.encode())
        if answer and answer.startswith("refused"):
            self.seen.add(int(answer.split()[1]))
        return answer

    def say(self, *fields):
        return self.give(",".join(str(field) for field in fields))

    @property
    def vans(self):
        return self.day.dispatcher.vans

    @property
    def now(self):
        return self.day.dispatcher.clock_time

    def places(self):
        return self.day.roads.places

    def search(self, van):
        return day_model.Search(self.day.roads, self.day.rule, van)

    def set_up(self, size, open_limit):
        self.note("Roads and rule; then a make with too few nodes, with no vans, with too high an open limit.")
        if self.kind == "passengers":
            self.say("table", 64, *road_table(self.chance, 64))
        else:
            self.say("grid", 8, 8, 90, 60)
        self.say("rule", self.kind)
        enough = (size + 1) * day_model.SLAB_SIZES[open_limit]
        for fields in [("nodes", enough - 1), ("make", size, open_limit), ("make", 0, open_limit), ("make", 33, 0),
                       ("make", size, 5), ("nodes", 300001), ("nodes", enough + 1), ("make", size, open_limit),
                       ("rule", self.kind), ("nodes", enough), ("make", size, open_limit)]:
            self.say(*fields)

    def begin(self, size, start):
        self.note("The vans come on duty.")
        self.say("clock", start)
        for v in range(1, size + 1):
            self.say("join", v, self.chance.randrange(self.places()), start + self.chance.choice([0, 0, 0, 300, 900]))
        for fields in [("join", 1, 0, start), ("join", 0, 0, start), ("join", size + 1, 0, start), ("leave", size + 1),
                       ("plan", 0), ("order", size + 1, 0), ("plan", size), ("order", size, 0), ("order", size, 1)]:
            self.say(*fields)

    def book(self, ready):
        start, end = self.chance.sample(range(self.places()), 2)
        n = self.next_booking
        self.next_booking += 1
        return self.say("book", n, start, end, *self.figures(self.chance, ready))

    def drive(self, v):
        """A van is bound for the first stop of its plan and serves it; with no valid order, for any stop."""
        van = self.vans[v]
        plan = self.search(van).plan()
        n = plan[1][0][0] if plan else min(van.bookings, key=lambda m: (van.bookings[m].since is None, m))
        if self.chance.random() < (0.12 if plan else 0.3):
            self.say("plan", v)
        place, opens = van.stop(n)[1:3]
        arrival = van.time + self.day.roads.trip(van.place, place)
        if self.chance.random() < 0.06:
            arrival += self.chance.choice([30, 600, 2400])
        self.say("bound", v, place, arrival)
        if self.chance.random() < 0.03:
            self.say("served", v, n, arrival - 1)
        answer = self.say("served", v, n, max(arrival, opens))
        if answer.startswith("refused"):
            aboard = [m for m, b in van.bookings.items() if b.since is not None]
            if aboard:
                self.serve(v, aboard[0], 0)

    def serve(self, v, n, delay):
        van = self.vans[v]
        place, opens = van.stop(n)[1:3]
        arrival = van.time + self.day.roads.trip(van.place, place) + delay
        self.say("bound", v, place, arrival)
        self.say("served", v, n, max(arrival, opens))

    def divert(self):
        """A van drives to a waiting booking that does not fit those aboard."""
        for v, van in sorted(self.vans.items()):
            loads = [b.promised.load for b in van.bookings.values() if b.since is not None]
            for n, b in sorted(van.bookings.items()):
                if loads and b.since is None and not self.day.rule.fits([*loads, b.promised.load]):
                    self.note("The load does not fit those aboard.")
                    self.serve(v, n, 0)
                    self.diverted += 1
                    return

    def round_trip(self):
        """A van drives away and back with a booking aboard."""
        for v, van in sorted(self.vans.items()):
            riding = [n for n, b in van.bookings.items() if b.since is not None and b.promised.limit < 3000]
            if riding:
                self.note("A round that makes a ride too long.")
                for _ in range(3):
                    away = max(range(self.places()), key=lambda p: self.day.roads.trip(van.place, p))
                    self.say("bound", v, away, van.time + self.day.roads.trip(van.place, away))
                self.say("plan", v)
                self.serve(v, riding[0], 0)
                return

    def stray_calls(self):
        """Calls that are refused, most of them: the next few of a list that is gone through again and again."""
        busy = [v for v in sorted(self.vans) if self.vans[v].bookings] or sorted(self.vans)
        v = self.chance.choice(busy)
        van, size, places = self.vans[v], self.day.dispatcher.size, self.places()
        good = self.figures(self.chance, self.now + 3600)
        bad = list(good)
        bad[self.chance.randrange(6)] = 604801
        held = sorted(n for w in self.vans.values() for n in w.bookings) or [101]
        aboard = sorted(n for w in self.vans.values() for n, b in w.bookings.items() if b.since is not None) or held
        elsewhere = [n for n in van.bookings if van.stop(n)[1] != van.place] or held
        too_much = [8, 2] if self.kind == "passengers" else [1, 1, 0, 0]
        calls = [("served", v, self.chance.choice(elsewhere), van.time), ("clock", 604801), ("clock", self.now - 1),
                 ("cancel", self.chance.choice(aboard)), ("bound", v, van.place, van.time - 1), ("order", v, 5000),
                 ("book", self.chance.choice(held), 0, 1, *good), ("join", v, 0, self.now), ("order", v, 0),
                 ("bound", v, places, van.time), ("book", 9, 1, 2, *too_much, *good[len(too_much):]), ("plan", v),
                 ("book", 0, 0, 1, *good), ("served", v, 9999, van.time), ("leave", v),
                 ("book", 65536, 0, 1, *good), ("bound", v, 0, 604801), ("order", v, 1),
                 ("book", 9, places, 1, *good), ("bound", size + 1, 0, van.time), ("quote", 1, 2, *good),
                 ("book", 9, 1, places + 7, *good), ("served", 0, 101, van.time), ("order", v, 2),
                 ("book", 9, 1, 2, *bad), ("cancel", 70000), ("quote", 1, 2, *bad),
                 ("served", v, self.chance.choice(held), 604801), ("cancel", 9), ("order", v, 3)]
        for _ in range(3):
            self.say(*calls[self.strays % len(calls)])
            self.strays += 1

    def cancel_one(self):
        waiting = sorted(n for w in self.vans.values() for n, b in w.bookings.items() if b.since is None)
        if waiting:
            self.say("cancel", self.chance.choice(waiting))

    def hours(self, start, end, first, rest, ahead):
        """Bookings come and are driven, from one second to another, some of them booked before."""
        self.note(f"The first {first} bookings.")
        for _ in range(first):
            self.book(start + self.chance.randint(600, ahead))
        steps = 60
        for step in range(1, steps + 1):
            time = start + (end - start) * step // steps
            if step % 5 == 0:
                self.stray_calls()
            if step % 9 == 0:
                self.cancel_one()
            if step % 20 == 0:
                self.round_trip()
            if step > 10 and self.diverted < 3:
                self.divert()
            due = rest * step // steps - rest * (step - 1) // steps
            for _ in range(due):
                self.book(time + self.chance.randint(900, ahead))
            for v in sorted(self.vans):
                for _ in range(2):
                    if self.vans[v].bookings and self.leaves_before(v, time):
                        self.drive(v)
            if step % 2 == 0:
                self.say("clock", time)

    def leaves_before(self, v, time):
        """Whether the van has to set out before this second for the first stop of its plan."""
        van = self.vans[v]
        plan = self.search(van).plan()
        if plan is None:
            return van.time < time
        place, opens = van.stop(plan[1][0][0])[1:3]
        return max(van.time, opens - self.day.roads.trip(van.place, place)) < time

    def close(self):
        self.note("What is open is driven to its end, and the vans go off duty.")
        for v in sorted(self.vans):
            if self.vans[v].bookings:
                self.say("leave", v)
            for _ in range(20):
                if self.vans[v].bookings:
                    self.drive(v)
            if v % 5 == 0:
                self.say("clock", max(self.now, self.vans[v].time))
            self.say("leave", v)
        now = self.now
        for fields in [("leave", 1), ("plan", 1), ("order", 1, 0), ("served", 1, 101, now), ("bound", 1, 0, now),
                       ("clocks",), ("plan",), ("book", 1, 2), ("clock", now), ("clock", 604800), ("clock", 604800),
                       ("join", 1, 0, 604801), ("join", 1, 0, 604799), ("join", 1, 64, 604800), ("join", 1, 0, 604800),
                       ("plan", 1), ("bound", 1, 0, 604800), ("bound", 1, 1, 604800), ("leave", 1)]:
            self.say(*fields)


def write_day(kind, seed, before=()):
    day = Weekday(kind, seed)
    passengers = kind == "passengers"
    for line in before:
        day.give(line)
    day.note(f"A weekday of {kind}.")
    size, open_limit = (24, 4) if passengers else (6, 3)
    day.set_up(size, open_limit)
    day.begin(size, 21600)
    if passengers:
        day.hours(21600, 50400, 54, 76, 7200)
    else:
        day.hours(21600, 43200, 12, 28, 5400)
    day.close()
    return day


if __name__ == "__main__":
    before = open(sys.argv[3], encoding="ascii").read().split("\n")[:-1] if len(sys.argv) > 3 else []
    made = write_day(sys.argv[1], int(sys.argv[2]), before)
    sys.stdout.write("\n".join(made.lines) + "\n")
    missing = {1, 2, 3, *range(7, 23)} - made.seen
    sys.stderr.write(f"{len(made.lines)} lines; refusals not met: {sorted(missing) or 'none'}\n")
