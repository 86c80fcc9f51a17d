#!/usr/bin/env python3
"""Lists a van's valid orders by trying every sequence of its stops, and compares them with what trial prints.

    (cd crates/trial && rt run) | python3 tools/brute_orders.py
"""
import itertools
import sys

TABLE = [[0, 100, 250], [120, 0, 200], [240, 210, 0]]


def grid(a, b):
    return 100 * abs(a - b)


def table(a, b):
    return TABLE[a][b]


def seats(loads):
    return sum(s for s, _ in loads) + 2 * sum(w for _, w in loads) <= 8 and sum(w for _, w in loads) <= 2


def cargo(loads):
    return sum(litres for litres, _ in loads) <= 6000 and sum(kilograms for _, kilograms in loads) <= 900


def rider(start, end):
    return {"pickup": (start, 0, 600), "drop": (end, 0, 3600), "load": (1, 0), "limit": 150}


def parcel(start, end, litres):
    return {"pickup": (start, 500, 1000), "drop": (end, 0, 3600), "load": (litres, 10), "limit": 604800}


def walk(trip, fits, van, bookings, order):
    """The cost and the stops of an order, or None where it is not valid."""
    place, second, driven = van
    cost = 0
    aboard = {number: since for number, (_, since) in bookings.items() if since is not None}
    stops = []
    for number, kind in order:
        booking = bookings[number][0]
        if kind == "drop" and number not in aboard:
            return None
        where, opens, closes = booking[kind]
        leg = trip(place, where)
        place, driven, cost, second = where, driven + leg, cost + leg, max(second + leg, opens)
        if second > closes:
            return None
        if kind == "pickup":
            aboard[number] = driven
            if not fits([bookings[other][0]["load"] for other in aboard]):
                return None
        elif driven - aboard.pop(number) > booking["limit"]:
            return None
        stops.append(f"{number} {kind} {second}")
    return f"  cost {cost}: " + " ".join(stops)


def orders(trip, fits, van, bookings):
    stops = [(number, "drop") for number in bookings]
    stops += [(number, "pickup") for number, (_, since) in bookings.items() if since is None]
    walks = [([n for n, _ in order], walk(trip, fits, van, bookings, order)) for order in itertools.permutations(stops)]
    return [line for _, line in sorted(w for w in walks if w[1])]


def day(trip, fits, seven, eight):
    start, there = (0, 0, 0), (seven["pickup"][0], 100, 100)
    yield from orders(trip, fits, start, {7: (seven, None)})
    yield from orders(trip, fits, start, {7: (seven, None), 8: (eight, None)})
    yield from orders(trip, fits, there, {7: (seven, None), 8: (eight, None)})
    yield from orders(trip, fits, there, {7: (seven, 100), 8: (eight, None)})
    yield from orders(trip, fits, there, {7: (seven, 100)})


if __name__ == "__main__":
    printed = [line.rstrip("\n") for line in sys.stdin if line.startswith("  cost ")]
    tried = list(day(grid, seats, rider(1, 2), rider(2, 1))) + list(day(table, cargo, parcel(1, 2, 4000), parcel(2, 0, 3000)))
    sys.exit(print(f"{len(tried)} orders alike") if printed == tried else "the orders differ")
