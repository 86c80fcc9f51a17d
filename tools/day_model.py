#!/usr/bin/env python3
"""A model of the day program, written from docs/RULES.md and docs/DAY.md and not from the Rattle code.

It reads a day from standard input and prints what the program must print. The expected output of the days in the
repository was written by it; compare_days.py holds the two together on days made at random. The text of `help` is the
program's own, and not modelled.
"""
import sys

WEEK = 604800
LONGEST_TRIP = 14400
SLAB_SIZES = {1: 2, 2: 18, 3: 270, 4: 7364}
MOST_NODES = 300000


class Refused(Exception):
    def __init__(self, number, detail=0):
        super().__init__(number, detail)
        self.number = number
        self.detail = detail

    def __str__(self):
        return f"refused {self.number}" + (f" detail {self.detail}" if self.detail else "")


def require(passes, number, detail=0):
    if not passes:
        raise Refused(number, detail)


def number(field):
    """The value of 1 to 10 decimal digits that fits 32 bits, else None."""
    if not 1 <= len(field) <= 10 or any(not 48 <= byte <= 57 for byte in field):
        return None
    value = int(field)
    return value if value < 2**32 else None


class Roads:
    def __init__(self, places, seconds):
        self.places = places
        self.seconds = seconds

    def trip(self, a, b):
        return self.seconds[a * self.places + b]


def table(places, seconds):
    require(1 <= places <= 64 and len(seconds) == places * places, 4)
    for position, entry in enumerate(seconds):
        require(entry <= LONGEST_TRIP and (position // places != position % places or entry == 0), 5, position)
    roads = Roads(places, seconds)
    for a in range(places):
        for b in range(places):
            for c in range(places):
                require(roads.trip(a, c) <= roads.trip(a, b) + roads.trip(b, c), 6, a * 4096 + b * 64 + c)
    return roads


def grid(columns, rows, east, south):
    require(1 <= columns * rows <= 64, 4)
    require(1 <= east <= 200, 5, 1)
    require(1 <= south <= 200, 5, 2)
    places = columns * rows
    return Roads(places, [east * abs(a % columns - b % columns) + south * abs(a // columns - b // columns)
                          for a in range(places) for b in range(places)])


class Promise:
    """A load, the two time windows and the ride limit."""

    def __init__(self, load, pickup, drop, limit):
        self.load = load
        self.pickup = pickup
        self.drop = drop
        self.limit = limit

    def __str__(self):
        return "load %d %d pickup %d to %d drop %d to %d ride %d" % (*self.load, *self.pickup, *self.drop, self.limit)


def judge(tests):
    for position, good in enumerate(tests, 1):
        require(good, 17, position)


class Passengers:
    @staticmethod
    def promise(figures, direct):
        seats, wheelchairs, ready, wait, percent, latest = figures
        judge([seats <= 8, wheelchairs <= 2 and seats + wheelchairs > 0, ready <= WEEK,
               wait <= 7200 and ready + wait <= WEEK, percent <= 300, latest <= WEEK])
        return Promise((seats, wheelchairs), (ready, ready + wait), (0, latest), direct + direct * percent // 100)

    @staticmethod
    def fits(loads):
        seats, wheelchairs = (sum(part) for part in zip(*loads))
        return seats + 2 * wheelchairs <= 8 and wheelchairs <= 2


class Parcels:
    @staticmethod
    def promise(figures, direct):
        litres, kilograms, pickup_opens, pickup_closes, drop_opens, drop_closes = figures
        judge([1 <= litres <= 6000, 1 <= kilograms <= 900, pickup_opens <= WEEK, pickup_opens <= pickup_closes <= WEEK,
               drop_opens <= WEEK, drop_opens <= drop_closes <= WEEK])
        return Promise((litres, kilograms), (pickup_opens, pickup_closes), (drop_opens, drop_closes), WEEK)

    @staticmethod
    def fits(loads):
        litres, kilograms = (sum(part) for part in zip(*loads))
        return litres <= 6000 and kilograms <= 900


RULES = {b"passengers": Passengers, b"parcels": Parcels}


def promise(roads, rule, start, end, figures):
    for place in (start, end):
        require(place < roads.places, 11, place)
    return rule.promise(figures, min(roads.trip(start, end), LONGEST_TRIP))


class Booking:
    """An open booking; `since` is what its van had driven at its pickup, None while it waits."""

    def __init__(self, start, end, promised):
        self.start = start
        self.end = end
        self.promised = promised
        self.since = None


class Van:
    """A van on duty; its open bookings by number."""

    def __init__(self, place, time):
        self.place = place
        self.time = time
        self.driven = 0
        self.bookings = {}

    def stop(self, number):
        """The next stop of an open booking: its kind, place, opening and closing."""
        booking = self.bookings[number]
        if booking.since is None:
            return "pickup", booking.start, *booking.promised.pickup
        return "drop", booking.end, *booking.promised.drop


class Search:
    """Tries the open stops of a van in every sequence, ascending by booking, as long as each stop may be served."""

    def __init__(self, roads, rule, van, extra=None):
        self.roads = roads
        self.rule = rule
        self.van = van
        self.bookings = van.bookings if extra is None else {**van.bookings, extra[0]: extra[1]}

    def orders(self, below=None):
        """Each valid order as (cost, stops), a stop as (booking, kind, second); with a bound, below[0], only those that
        cost less than it when they are found."""
        aboard = {n: b.since for n, b in self.bookings.items() if b.since is not None}
        waiting = sorted(n for n in self.bookings if n not in aboard)
        return self.go_on(self.van.place, self.van.time, self.van.driven, waiting, aboard, [], below)

    def go_on(self, place, time, driven, waiting, aboard, path, below):
        cost = driven - self.van.driven
        if below and cost >= below[0]:
            return
        if not waiting and not aboard:
            yield cost, list(path)
            return
        for n in sorted([*waiting, *aboard]):
            booking = self.bookings[n]
            pickup = n not in aboard
            to = booking.start if pickup else booking.end
            opens, closes = booking.promised.pickup if pickup else booking.promised.drop
            leg = self.roads.trip(place, to)
            second = max(time + leg, opens)
            if second > closes:
                continue
            if pickup:
                if not self.rule.fits([self.bookings[m].promised.load for m in [n, *aboard]]):
                    continue
                waits, rides = [m for m in waiting if m != n], {**aboard, n: driven + leg}
            else:
                if driven + leg - aboard[n] > booking.promised.limit:
                    continue
                waits, rides = waiting, {m: since for m, since in aboard.items() if m != n}
            path.append((n, "pickup" if pickup else "drop", second))
            yield from self.go_on(to, second, driven + leg, waits, rides, path, below)
            path.pop()

    def plan(self):
        """The first valid order of least cost, or None."""
        below, best = [float("inf")], None
        for order in self.orders(below):
            best, below[0] = order, order[0]
        return best


def itinerary(order):
    cost, stops = order
    listed = ", ".join(f"{n} {kind} {second}" for n, kind, second in stops)
    return f"cost {cost} stops {len(stops)}" + (f": {listed}" if stops else "")


class Dispatcher:
    def __init__(self, roads, rule, size, open_limit, nodes):
        require(1 <= size <= 32, 1)
        require(open_limit in SLAB_SIZES, 2)
        require(nodes is None or nodes >= (size + 1) * SLAB_SIZES[open_limit], 3)
        self.roads = roads
        self.rule = rule
        self.size = size
        self.open_limit = open_limit
        self.clock_time = 0
        self.vans = {}

    def on_duty(self, v):
        require(1 <= v <= self.size, 8)
        require(v in self.vans, 10)
        return self.vans[v]

    def holder(self, n):
        return next((van for van in self.vans.values() if n in van.bookings), None)

    def clock(self, time):
        require(time <= WEEK, 7)
        require(time >= self.clock_time, 12)
        self.clock_time = time
        for van in self.vans.values():
            van.time = max(van.time, time)
        return "done"

    def join(self, v, place, time):
        require(1 <= v <= self.size, 8)
        require(v not in self.vans, 9)
        require(place < self.roads.places, 11, place)
        require(time <= WEEK, 7)
        require(time >= self.clock_time, 12)
        self.vans[v] = Van(place, time)
        return "done"

    def leave(self, v):
        require(not self.on_duty(v).bookings, 13)
        del self.vans[v]
        return "done"

    def offers(self, n, booking):
        """For each van that can take the booking its price and its plan with it."""
        for v, van in sorted(self.vans.items()):
            if len(van.bookings) < self.open_limit:
                plan = Search(self.roads, self.rule, van, (n, booking)).plan()
                if plan:
                    yield plan[0] - Search(self.roads, self.rule, van).plan()[0], v, plan

    def book(self, n, start, end, *figures):
        require(1 <= n <= 65535, 14)
        require(self.holder(n) is None, 15)
        booking = Booking(start, end, promise(self.roads, self.rule, start, end, figures))
        offers = list(self.offers(n, booking))
        require(offers, 18)
        price, v, plan = min(offers, key=lambda offer: offer[:2])
        self.vans[v].bookings[n] = booking
        seconds = {kind: second for m, kind, second in plan[1] if m == n}
        return f"van {v} price {price} pickup {seconds['pickup']} drop {seconds['drop']}"

    def bound(self, v, place, time):
        van = self.on_duty(v)
        require(place < self.roads.places, 11, place)
        require(time <= WEEK, 7)
        leg = self.roads.trip(van.place, place)
        require(time >= van.time + leg, 12)
        van.place, van.time, van.driven = place, time, van.driven + leg
        return "done"

    def served(self, v, n, time):
        van = self.on_duty(v)
        require(n in van.bookings, 16)
        booking = van.bookings[n]
        kind, place, opens, closes = van.stop(n)
        require(van.place == place, 20)
        require(time <= WEEK, 7)
        require(time >= van.time and time >= opens, 12)
        over = 0
        if kind == "pickup":
            loads = [b.promised.load for b in van.bookings.values() if b.since is not None]
            require(self.rule.fits([*loads, booking.promised.load]), 21)
            booking.since = van.driven
        else:
            over = max(0, van.driven - booking.since - booking.promised.limit)
            del van.bookings[n]
        van.time = time
        return f"{kind} late {max(0, time - closes)} over {over}"

    def cancel(self, n):
        van = self.holder(n)
        require(van is not None, 16)
        require(van.bookings[n].since is None, 19)
        del van.bookings[n]
        return "done"

    def plan(self, v):
        order = Search(self.roads, self.rule, self.on_duty(v)).plan()
        require(order is not None, 22)
        return itinerary(order)

    def order(self, v, index):
        for i, order in enumerate(Search(self.roads, self.rule, self.on_duty(v)).orders()):
            if i == index:
                return itinerary(order)
        raise Refused(22)


# Each call by its word: how many numbers it takes, and what it does.
CALLS = {b"clock": (1, Dispatcher.clock), b"join": (3, Dispatcher.join), b"leave": (1, Dispatcher.leave),
         b"book": (9, Dispatcher.book), b"bound": (3, Dispatcher.bound), b"served": (3, Dispatcher.served),
         b"cancel": (1, Dispatcher.cancel), b"plan": (1, Dispatcher.plan), b"order": (2, Dispatcher.order)}


class Day:
    def __init__(self):
        self.roads = None
        self.rule = None
        self.nodes = None
        self.dispatcher = None
        self.accepted = 0
        self.refused = 0

    def answer(self, line):
        """What a line prints, or None where it prints nothing."""
        if line == b"" or line.startswith(b"#"):
            return None
        try:
            return self.ask(line) or "not understood"
        except Refused as refused:
            return str(refused)

    def ask(self, line):
        word, _, rest = line.partition(b",")
        if word == b"rule":
            return self.set_rule(rest)
        numbers = [number(field) for field in line.split(b",")[1:]]
        if None in numbers:
            return None
        if word == b"quote":
            due = len(numbers) == 8 and self.roads and self.rule
            return str(promise(self.roads, self.rule, *numbers[:2], numbers[2:])) if due else None
        if word in CALLS:
            return self.call(*CALLS[word], numbers)
        return self.set_up(word, numbers)

    def set_rule(self, name):
        if self.dispatcher or name not in RULES:
            return None
        self.rule = RULES[name]
        return "done"

    def set_up(self, word, numbers):
        if self.dispatcher:
            return None
        if word == b"table" and numbers:
            self.roads = table(numbers[0], numbers[1:])
        elif word == b"grid" and len(numbers) == 4:
            self.roads = grid(*numbers)
        elif word == b"nodes" and len(numbers) == 1 and numbers[0] <= MOST_NODES:
            self.nodes = numbers[0]
        elif word == b"make" and len(numbers) == 2 and self.roads and self.rule:
            self.dispatcher = Dispatcher(self.roads, self.rule, *numbers, self.nodes)
        else:
            return None
        return "done"

    def call(self, arity, does, numbers):
        if not self.dispatcher or len(numbers) != arity:
            return None
        try:
            answer = does(self.dispatcher, *numbers)
        except Refused:
            self.refused += 1
            raise
        self.accepted += 1
        return answer

    def tally(self):
        return (f"{self.accepted + self.refused} calls: {self.accepted} accepted, {self.refused} refused; "
                "office and depot alike on 0")


def run(text):
    lines = text.split(b"\n")
    if lines[-1] == b"":
        lines.pop()
    day = Day()
    answers = [day.answer(line) for line in lines]
    return "\n".join([a for a in answers if a is not None] + [day.tally()]) + "\n"


if __name__ == "__main__":
    sys.stdout.write(run(sys.stdin.buffer.read()))
