#!/usr/bin/env python3
"""Runs the day program and its model on days made at random, and says where they differ.

    (cd crates/weekday && rt run < stdin > /dev/null)
    python3 tools/compare_days.py crates/weekday/out/weekday [days [first]]
"""
import random
import subprocess
import sys

import day_model

EDGES = [0, 1, 2, 8, 9, 63, 64, 65, 100, 200, 201, 300, 301, 600, 900, 901, 6000, 6001, 7200, 7201, 14400, 14401, 604800,
         604801, 4294967295, 4294967296]
ODD = ["", "00", "x", "-1", "+1", "12345678901", "0000000005", " 5", "5 "]


def any_number(chance):
    kind = chance.random()
    if kind < 0.5:
        return str(chance.randint(0, 12))
    if kind < 0.7:
        return str(chance.choice(EDGES))
    return str(chance.randint(0, 700000)) if kind < 0.95 else chance.choice(ODD)


def any_table(chance):
    places = chance.choice([1, 2, 3, 3, 4])
    most = chance.choice([10, 20, 20000])
    entries = [0 if a == b and chance.random() < 0.95 else chance.randint(5, most)
               for a in range(places) for b in range(places)]
    return [places] + (entries[:-1] if chance.random() < 0.1 else entries)


def any_quote(chance):
    ends = [chance.randint(0, 3), chance.randint(0, 3)]
    kind = chance.random()
    if kind < 0.4:
        return ends + [chance.randint(0, 9), chance.randint(0, 3), chance.randint(0, 604900), chance.randint(0, 7300),
                       chance.randint(0, 310), chance.randint(0, 604900)]
    if kind < 0.7:
        return ends + [chance.randint(0, 6100), chance.randint(0, 910)] + [chance.randint(0, 604900) for _ in range(4)]
    return [any_number(chance) for _ in range(8 if chance.random() < 0.9 else chance.randint(0, 10))]


def any_setting(chance):
    """A line for the time before the dispatcher."""
    word = chance.choice(["table", "grid", "rule"] + ["quote"] * 5 + ["nodes", "plan", "#", "", "quotes", "tabl"])
    fields = []
    if word == "table":
        fields = any_table(chance)
    elif word == "grid":
        fields = [chance.choice([0, 1, 2, 3, 8, 64, 65, 200, 201]) for _ in range(4 if chance.random() < 0.9 else 3)]
    elif word == "rule":
        fields = [chance.choice(["passengers", "parcels"] * 3 + ["freight", ""])]
    elif word == "nodes":
        fields = [chance.choice([0, 1, 3, 4, 36, 1000, 40000, 300000, 300001])]
    elif word.startswith("quote"):
        fields = any_quote(chance)
    return [word] + fields


def any_line(chance):
    """Any word with any numbers, due or not."""
    others = ["make", "nodes", "table", "grid", "rule", "quote", "clocks", "row"]
    word = chance.choice([word.decode() for word in day_model.CALLS] + others)
    arity = {w.decode(): arity for w, (arity, _) in day_model.CALLS.items()}.get(word, 2)
    count = arity if chance.random() < 0.8 else chance.randint(0, arity + 1)
    return [word] + [any_number(chance) for _ in range(count)]


def any_figures(chance, rule, now):
    opens = now + chance.randint(0, 60)
    closes = opens + chance.choice([0, 20, 200, 600])
    last = closes + chance.choice([0, 60, 400])
    if rule is day_model.Passengers:
        figures = [chance.randint(0, 5), chance.choice([0, 0, 0, 1, 2]), opens, closes - opens,
                   chance.choice([0, 50, 100, 300]), last]
    else:
        figures = [chance.randint(0, 4000), chance.randint(0, 500), opens, closes, chance.randint(0, last), last]
    if chance.random() < 0.05:
        figures[chance.randrange(6)] = chance.choice(EDGES)
    return figures


def any_call(chance, day):
    """A call that may well be accepted: numbers near what stands."""
    office = day.dispatcher
    v = chance.randint(1, office.size) if chance.random() < 0.97 else chance.choice([0, office.size + 1, 33])
    number = chance.randint(1, 12) if chance.random() < 0.97 else chance.choice([0, 65535, 65536])
    place = chance.randrange(day.roads.places + (chance.random() < 0.05))
    late = chance.choice([0, 0, 0, 0, 1, 5, 30, -1])
    word = chance.choice(["clock", "join", "leave", "bound", "served", "cancel", "plan", "order"] + ["book"] * 3)
    if word == "clock":
        return [word, max(0, office.clock_time + chance.choice([-1, 0, 1, 3, 10, 40]))]
    if word == "join":
        return [word, v, place, max(0, office.clock_time + late)]
    if word == "book":
        to = chance.randrange(day.roads.places)
        return [word, number, place, to, *any_figures(chance, day.rule, office.clock_time)]
    if word == "order":
        return [word, v, chance.choice([0, 0, 1, 2, 3, 10, 100])]
    if word in ("bound", "served"):
        third = place if word == "bound" else number
        time = office.vans[v].time if v in office.vans else office.clock_time
        return [word, v, third, max(0, time + late)]
    return [word, number if word == "cancel" else v]


def any_drive(chance, day):
    """A van goes to a stop and serves it, most often as its plan says; sometimes too early or late."""
    busy = sorted(v for v, van in day.dispatcher.vans.items() if van.bookings)
    if not busy:
        return
    v = chance.choice(busy)
    van = day.dispatcher.vans[v]
    plan = day_model.Search(day.roads, day.rule, van).plan()
    number = plan[1][0][0] if plan and chance.random() < 0.8 else chance.choice(sorted(van.bookings))
    _, place, opens, _ = van.stop(number)
    time = van.time + day.roads.trip(van.place, place) + chance.choice([0] * 12 + [1, 5, 50, -1, 604801])
    yield ["bound", v, place, max(0, time)]
    yield ["served", v, number, max(van.time, opens, 0) + chance.choice([0] * 12 + [1, 5, 50, -1, 604801])]


def any_calls(chance, day):
    if chance.random() < 0.25:
        yield from any_drive(chance, day)
    else:
        yield any_call(chance, day)


def any_make(chance, day):
    """Small roads and a small dispatcher."""
    places = chance.randint(1, 6)
    far = chance.choice([3, 20, 60])
    spots = [chance.randint(0, far) for _ in range(places)]
    toll = [chance.randint(0, 3) for _ in range(places)]
    trips = [0 if a == b else abs(spots[a] - spots[b]) + toll[a] for a in range(places) for b in range(places)]
    yield ["table", places, *trips]
    yield ["rule", chance.choice(["passengers", "parcels"])]
    if chance.random() < 0.3:
        yield ["make", chance.choice([0, 33, 2]), chance.choice([0, 5])]
    size, limit = chance.randint(1, 4), chance.randint(1, 4)
    enough = (size + 1) * day_model.SLAB_SIZES[limit]
    if chance.random() < 0.5 or day.nodes is not None:
        yield ["nodes", enough - 1]
        yield ["make", size, limit]
        yield ["nodes", enough + chance.choice([0, 0, 1, 50])]
    yield ["make", size, limit]


def any_day(chance, length):
    """The lines of a day. Each goes to the model at once, so that later ones can follow what stands."""
    day, lines = day_model.Day(), []

    def add(fields):
        lines.append(",".join(str(field) for field in fields))
        day.answer(lines[-1].encode())

    for _ in range(chance.choice([20, 100, length])):
        add(any_setting(chance) if chance.random() < 0.9 else any_line(chance))
    if not day.dispatcher:
        for fields in any_make(chance, day):
            add(fields)
    while len(lines) < length:
        for fields in any_calls(chance, day) if chance.random() < 0.95 else [any_line(chance)]:
            add(fields)
    return lines


def main(program, days, first):
    calls = 0
    for seed in range(first, first + days):
        chance = random.Random(seed)
        text = "\n".join(any_day(chance, 1000)).encode() + chance.choice([b"", b"\n"])
        done = subprocess.run([program], input=text, capture_output=True, check=True)
        expected = day_model.run(text)
        if done.stdout.decode() != expected:
            sys.exit(f"day {seed} differs")
        calls += int(expected.split("\n")[-2].split()[0])
    print(f"{days} days alike, {calls} calls")


if __name__ == "__main__":
    main(sys.argv[1], *(int(word) for word in (sys.argv[2:] + ["20", "0"][len(sys.argv) - 2:])))
