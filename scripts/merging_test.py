"""Tests of the merger on small records, which scripts/recorded --selftest runs.

Records are made by random walks through the merger's model, with intervals that overlap at random, and half of them are spoilt: a word, a sight or an
interval is changed. On each the merger has to find an order exactly where a search of every order finds one. What the walks saw, and steps that the
merger's model refuses, are judged by the proved model too.
"""

import random

import merging
from merging import Access, Lot, Merger, line_of

RECORDS, WALKS = 4000, 60


def some_access(rng, lot, thread):
    """An access that this thread may try in this state: mostly one that it may make, with the word as it is."""
    keys = range(len(lot.line))
    key = rng.choice(keys)
    word = lot.word(key)
    is_lock, is_cond = key < lot.locks, lot.locks <= key < lot.locks + lot.conds
    line = lot.line[key]
    first = line[0] if line else merging.NOBODY
    if is_lock:
        kind = rng.choice(["try", "take", "take", "take_free", "mark", "park", "park", "free", "free", "pass", "pass", "post", "collect"])
    elif is_cond:
        kind = rng.choice(["enlist", "enlist", "look", "lower", "call", "sweep", "post", "collect"])
    else:
        kind = rng.choice(["look_try", "look_take", "take_from", "mark_permit", "park_permit", "look_free", "free_from", "pass_permit", "clear", "post", "collect"])
    of = [0, 0, 0, 0]
    if kind == "pass":
        of[:3] = [int(bool(line) and rng.random() < 0.5), int(rng.random() < 0.7), first]
    elif kind == "pass_permit":
        of[:2] = [first, int(rng.random() < 0.7)]
    elif kind == "enlist":
        of[0] = rng.randrange(lot.locks)
    elif kind == "call":
        count = rng.randint(1, 3)
        of[:3] = [count, int(rng.random() < 0.7), min(count, len(line))]
    elif kind == "sweep":
        of[0] = len(line)
    elif kind in ("take_from", "free_from"):
        of[0] = word if rng.random() < 0.8 else word + 2
    elif kind == "post":
        owed = lot.owed[key]
        thread, of[0] = rng.choice(owed) if owed else (thread, 0)
    elif kind == "collect":
        key, word = 0, lot.letter[thread]
    return Access(0, 0, kind, thread, key, word, tuple(of))


def some_lot(rng):
    return Lot(rng.randint(2, 4), rng.randint(1, 2), rng.randint(0, 1), [rng.randint(0, 2) for _ in range(rng.randint(0, 1))])


def copy_of(lot):
    """A lot like this one, as it was opened."""
    keys = lot.locks + lot.conds
    return Lot(len(lot.point), lot.locks, lot.conds, lot.opened[keys:])


def walk(rng, lot, length):
    """So many accesses, each allowed where it stands, of which most change something, and those that were refused on the way, with their places."""
    made, refused = [], []
    lot.opened = list(lot.left)
    while len(made) < length:
        access = some_access(rng, lot, rng.randrange(len(lot.point)))
        changes = lot.step(access)
        if changes is None:
            refused.append((len(made), access))
        elif changes or rng.random() < 0.15:
            lot.make(changes)
            made.append(access)
    return made, refused


def timed(rng, made, width):
    """The accesses with intervals that hold the places that they have in this order, and are apart in each thread's list."""
    places = {}
    for place, access in enumerate(made):
        places.setdefault(access.thread if access.kind != "post" else "posts", []).append(place)
    lists = []
    for mine in places.values():
        lines, ended = [], -1
        for place, after in zip(mine, [*mine[1:], len(made) + width]):
            start = max(10 * place - rng.randint(0, width), ended + 1)
            ended = min(10 * place + rng.randint(0, width), 10 * after - 1)
            lines.append(made[place]._replace(start=start, end=ended))
        lists.append(lines)
    return lists


def spoilt(rng, lists):
    """The lists with one thing changed."""
    lines = rng.choice(lists)
    at = rng.randrange(len(lines))
    access = lines[at]
    what = rng.random()
    if what < 0.4:
        lines[at] = access._replace(found=access.found ^ rng.choice([1, 2, 3]))
    elif what < 0.7:
        lines[at] = access._replace(of=(access.of[0] ^ 1, *access.of[1:]))
    else:
        shift = rng.choice([-40, -20, 20, 40])
        lines[:] = [other._replace(start=other.start + shift, end=other.end + shift) for other in lines]
    return lists


def has_order(lot, lists):
    """Whether some order of all accesses is one: a search of every order."""
    nexts = [lines[0] for lines in lists if lines]
    if not nexts:
        return True
    every = [access for lines in lists for access in lines]
    for i, lines in enumerate(lists):
        if not lines or any(other.end < lines[0].start for other in every if other is not lines[0]):
            continue
        changes = lot.step(lines[0])
        if changes is None:
            continue
        back = lot.make(changes)
        if has_order(lot, [*lists[:i], lines[1:], *lists[i + 1 :]]):
            return True
        lot.make(back)
    return False


def is_order(lot, lists, order):
    """Whether this is one order of these lists: each access allowed, each list's own a part, and none before what ended earlier."""
    places = {id(access): place for place, access in enumerate(order)}
    if len(places) != sum(map(len, lists)):
        return False
    in_lists = all(places[id(a)] < places[id(b)] for lines in lists for a, b in zip(lines, lines[1:]))
    by_clock = all(not later.end < earlier.start for place, earlier in enumerate(order) for later in order[place + 1 :])
    for access in order:
        changes = lot.step(access)
        if changes is None:
            return False
        lot.make(changes)
    return in_lists and by_clock


def compare(rng):
    """One record: what is wrong with the merger's answer, or None, and whether there was an order."""
    lot = some_lot(rng)
    made, _ = walk(rng, lot, rng.randint(1, 12))
    lists = timed(rng, made, rng.choice([0, 15, 30, 60]))
    if rng.random() < 0.5:
        lists = spoilt(rng, lists)
    opened = copy_of(lot)
    wanted = has_order(copy_of(lot), lists)
    merger = Merger(opened, lists)
    found = merger.run()
    if found != wanted:
        return f"an order {'was found where there is none' if found else 'was missed'}: {lists}", wanted
    if found and not is_order(copy_of(lot), lists, merger.order):
        return f"an order that is none: {merger.order}", wanted
    return None, wanted


def script_of(lot, made):
    keys = lot.locks + lot.conds
    first = " ".join(map(str, ["open", len(lot.point), lot.locks, lot.conds, *lot.opened[keys:]]))
    lines = [line for line in map(line_of, made) if line]
    return "".join(f"{line}\n" for line in [first, *lines]), len(lines)


def judged_walks(rng, judged):
    """Walks, and steps that were refused on the way, by the proved model. Answers what is wrong."""
    wrong = []
    for _ in range(WALKS):
        lot = some_lot(rng)
        made, refused = walk(rng, lot, rng.randint(1, 120))
        said = judged(*script_of(lot, made))
        if said:
            wrong.append(f"a walk is refused: {said}")
        for place, access in rng.sample(refused, min(3, len(refused))):
            script, events = script_of(lot, [*made[:place], access])
            is_event = line_of(access) is not None
            said = judged(script, events)
            if is_event and said not in (f"event {events} refused", f"event {events} saw otherwise"):
                wrong.append(f"a step that the merger refuses is told {said}: {access}")
    return wrong


def records_agree(judged):
    rng, orders, wrong = random.Random(1), 0, []
    for _ in range(RECORDS):
        said, is_run = compare(rng)
        orders += is_run
        wrong += [said] if said else []
    print(f"recorded: {RECORDS} small records, {orders} with an order: {len(wrong)} wrong answers")
    walks = judged_walks(rng, judged)
    print(f"recorded: {WALKS} walks, judged by the model: {len(walks)} wrong")
    for said in (*wrong[:3], *walks[:3]):
        print(f"recorded: {said}")
    return not wrong and not walks
