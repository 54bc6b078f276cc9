"""Merges what the threads of a recorded run wrote down into one order, in which each access is allowed and sees what it saw.

In that order each list's own is a part, and what ended before another began comes first. The search is depth first over the lists' next accesses; an access
that changes nothing that others see comes as soon as it is allowed, which loses no order. Whether the answer is a run of the model is for the proved
`lotstress witness` to say: a wrong merger can only miss an order.
"""

from collections import namedtuple

# One access: when it began and ended, its kind, the number of its thread, its key, the word that it found, and what else its kind knows of it.
Access = namedtuple("Access", "start end kind thread key found of")

NOBODY = 2**64 - 1

# A search that steps back so often is given up.
MOST_STEPS_BACK = 200_000


def flag(bit):
    return "true" if bit else "false"


def name_of(sleeper):
    return "-" if sleeper == NOBODY else str(sleeper)


def line_of(access):
    """The line of a witness for the access, or None where it is a notice."""
    kind, t, k, found, of = access.kind, access.thread, access.key, access.found, access.of
    if kind in ("try", "take"):
        return f"{kind} {t} {k} {flag(not found & 1)}"
    if kind == "take_free":
        return f"take {t} {k} true" if found == 0 else None
    if kind == "mark":
        return f"mark {t} {k} done" if found == 1 else None
    if kind == "park":
        return f"park {t} {k} {flag(found == 3)}"
    if kind == "free":
        return f"free {t} {k} {flag(found == 1)}"
    if kind == "pass":
        return f"pass {t} {k} {of[0]} {of[1]} {name_of(of[2])}"
    if kind == "enlist":
        return f"enlist {t} {k} {of[0]} done"
    if kind == "look":
        return f"look {t} {k} {flag(found)}"
    if kind == "lower":
        return f"lower {t} {k} done"
    if kind == "call":
        return f"some {t} {k} {of[0]} {of[1]} {of[2]}"
    if kind == "sweep":
        return f"sweep {t} {k} {of[0]}"
    if kind == "look_take":
        return f"stake {t} {k} false" if found < 2 else None
    if kind == "take_from":
        return f"stake {t} {k} true" if found == of[0] else None
    if kind == "mark_permit":
        return f"smark {t} {k} done" if found == 0 else None
    if kind == "park_permit":
        return f"spark {t} {k} {flag(found == 1)}"
    if kind == "free_from":
        return f"sfree {t} {k} true" if found == of[0] else None
    if kind == "pass_permit":
        return f"spass {t} {k} {of[1]} {name_of(of[0])}"
    if kind == "clear":
        return f"sclear {t} {k} done"
    return None


def told(access):
    """What the access did, for who reads of it."""
    line = line_of(access)
    if line:
        return line
    if access.kind == "post":
        return f"token {access.of[0]} for thread {access.thread}, of key {access.key}"
    if access.kind == "collect":
        return f"thread {access.thread} found " + (f"token {access.found - 1}" if access.found else "no token")
    return f"thread {access.thread} found word {access.found} of key {access.key}"


class Lot:
    """The words and the state of the model, of a lot of so many threads, locks and conditions, and semaphores with so many permits."""

    def __init__(self, threads, locks, conds, permits):
        keys = range(locks + conds + len(permits))
        self.locks, self.conds = locks, conds
        self.owner = [None for _ in keys]
        self.parked = [False for _ in keys]
        self.flag = [False for _ in keys]
        self.left = [0] * (locks + conds) + list(permits)
        self.line = [() for _ in keys]
        self.owed = [() for _ in keys]
        self.out = {}
        self.point = [("calm",)] * threads
        self.letter = [0] * threads

    def word(self, key):
        if key < self.locks:
            return (self.owner[key] is not None) + 2 * self.parked[key]
        if key < self.locks + self.conds:
            return int(self.flag[key])
        return 2 * self.left[key] + self.parked[key]

    def is_trying(self, t, lock):
        point = self.point[t]
        if point == ("wants", lock):
            return t not in self.line[lock]
        return point[0] == "rest" and point[2] == lock and t not in self.line[point[1]]

    def is_seeking(self, t, key):
        return self.point[t] == ("seeks", key) and t not in self.line[key]

    def may_let_go(self, t, lock):
        point = self.point[t]
        return self.owner[lock] == t and (point == ("calm",) or (point[0] == "bed" and point[2] == lock))

    def rested(self, t):
        point = self.point[t]
        return ("rest", *point[1:]) if point[0] == "bed" else point

    def step(self, access):
        """What the access changes, as (list, place, value), or None where it is not allowed here, or sees something else. An access that changes
        nothing that others see gives changes of its thread's own point and letter alone."""
        return getattr(self, f"_{access.kind}")(access, access.thread, access.key, access.found)

    def _try(self, _, t, k, found):
        if self.point[t] != ("calm",) or found != self.word(k):
            return None
        return [] if found & 1 else [(self.owner, k, t)]

    def _take(self, _, t, k, found):
        if found != self.word(k) or not (self.point[t] == ("calm",) or self.is_trying(t, k)):
            return None
        return [(self.point, t, ("wants", k))] if found & 1 else [(self.owner, k, t), (self.point, t, ("calm",))]

    def _take_free(self, _, t, k, found):
        if found != self.word(k):
            return None
        if found:
            return []
        may = self.point[t] == ("calm",) or self.is_trying(t, k)
        return [(self.owner, k, t), (self.point, t, ("calm",))] if may else None

    def _mark(self, _, t, k, found):
        if found != self.word(k):
            return None
        if found != 1:
            return []
        return [(self.parked, k, True)] if self.is_trying(t, k) else None

    def _park(self, _, t, k, found):
        if found != self.word(k) or self.point[t] != ("wants", k) or t in self.line[k]:
            return None
        return [(self.line, k, (*self.line[k], t))] if found == 3 else []

    def _free(self, _, t, k, found):
        if found != self.word(k) or not self.may_let_go(t, k):
            return None
        return [(self.owner, k, None), (self.point, t, self.rested(t))] if found == 1 else []

    def _pass(self, access, t, k, found):
        fair, more, first = access.of[:3]
        line = self.line[k]
        if not self.may_let_go(t, k) or not self.parked[k] or self.owed[k] or (fair and found != self.word(k)):
            return None
        if first != (line[0] if line else NOBODY) or (not fair and len(line) > 1 and not more):
            return None
        changes = [(self.point, t, self.rested(t)), (self.line, k, line[1:])]
        if not line:
            return [*changes, (self.owner, k, None), (self.parked, k, False)]
        changes.append((self.owed, k, ((first, fair),)))
        if fair:
            return [*changes, (self.owner, k, first), (self.point, first, ("calm",))]
        return [*changes, (self.owner, k, None), (self.parked, k, bool(more))]

    def _enlist(self, access, t, k, _):
        lock = access.of[0]
        if self.point[t] != ("calm",) or self.owner[lock] != t:
            return None
        return [(self.flag, k, True), (self.line, k, (*self.line[k], t)), (self.point, t, ("bed", k, lock))]

    def _look(self, _, t, k, found):
        return [] if self.point[t] == ("calm",) and found == self.word(k) else None

    def _lower(self, _, t, k, _found):
        if self.point[t] != ("calm",):
            return None
        return [(self.flag, k, False), (self.point, t, ("sweeps", k))]

    def _call(self, access, t, k, found):
        count, more, taken = access.of[:3]
        line = self.line[k]
        leave = line[:count]
        if self.point[t] != ("calm",) or taken != len(leave) or (len(line) > count and not more):
            return None
        stays = more and leave
        if stays and found != self.word(k):
            return None
        owed = (*self.owed[k], *((u, 0) for u in leave))
        return [(self.line, k, line[count:]), (self.owed, k, owed), *([] if stays else [(self.flag, k, False)])]

    def _sweep(self, access, t, k, found):
        line = self.line[k]
        if self.point[t] != ("sweeps", k) or access.of[0] != len(line) or found != self.word(k):
            return None
        return [(self.line, k, ()), (self.owed, k, (*self.owed[k], *((u, 0) for u in line))), (self.point, t, ("calm",))]

    def _look_try(self, _, t, k, found):
        return [] if found == self.word(k) else None

    _look_free = _look_try

    def _look_take(self, _, t, k, found):
        if found != self.word(k):
            return None
        if found >= 2:
            return []
        may = self.point[t] == ("calm",) or self.is_seeking(t, k)
        return [(self.point, t, ("seeks", k))] if may else None

    def _take_from(self, access, t, k, found):
        if found != self.word(k):
            return None
        if found != access.of[0]:
            return []
        if found < 2 or not (self.point[t] == ("calm",) or self.is_seeking(t, k)):
            return None
        mine = self.out.get((k, t), 0)
        return [(self.left, k, self.left[k] - 1), (self.out, (k, t), mine + 1), (self.point, t, ("calm",))]

    def _mark_permit(self, _, t, k, found):
        if found != self.word(k):
            return None
        if found:
            return []
        return [(self.parked, k, True)] if self.is_seeking(t, k) else None

    def _park_permit(self, _, t, k, found):
        if found != self.word(k) or not self.is_seeking(t, k):
            return None
        return [(self.line, k, (*self.line[k], t))] if found == 1 else []

    def gives(self, t, k):
        mine = self.out.get((k, t), 0)
        return [(self.left, k, self.left[k] + 1), (self.out, (k, t), mine - 1)] if self.point[t] == ("calm",) and mine else None

    def _free_from(self, access, t, k, found):
        if found != self.word(k):
            return None
        if found != access.of[0]:
            return []
        return None if self.parked[k] else self.gives(t, k)

    def _pass_permit(self, access, t, k, found):
        first, more = access.of[:2]
        line, gives = self.line[k], self.gives(t, k)
        if gives is None or found != self.word(k) or self.owed[k] or first != (line[0] if line else NOBODY):
            return None
        if len(line) > 1 and not more:
            return None
        return [*gives, (self.line, k, line[1:]), (self.parked, k, bool(more)), (self.owed, k, ((first, 0),))] if line else gives

    def _clear(self, _, t, k, found):
        if self.point[t] != ("calm",) or self.line[k] or found != self.word(k):
            return None
        return [(self.parked, k, False)]

    def _post(self, access, t, k, _):
        token = (t, access.of[0])
        if token not in self.owed[k] or self.letter[t]:
            return None
        at = self.owed[k].index(token)
        return [(self.owed, k, self.owed[k][:at] + self.owed[k][at + 1 :]), (self.letter, t, access.of[0] + 1)]

    def _collect(self, _, t, _k, found):
        if found != self.letter[t]:
            return None
        return [(self.letter, t, 0)] if found else []

    def is_quiet(self, changes):
        """Whether others see nothing of these changes."""
        return all(row is self.point or row is self.letter and value == 0 for row, _, value in changes)

    def make(self, changes):
        """Makes the changes, and answers those that take them back."""
        back = []
        for row, place, value in changes:
            back.append((row, place, row.get(place, 0) if row is self.out else row[place]))
            row[place] = value
        return back[::-1]

    def seen(self):
        """All that there is, to be compared."""
        return (*map(tuple, (self.owner, self.parked, self.flag, self.left, self.line, self.owed, self.point, self.letter)), frozenset(self.out.items()))


class Merger:
    """A search for the order: how far each list has come, and what was done, with what takes it back."""

    def __init__(self, lot, lists):
        self.lot, self.lists = lot, lists
        self.at = [0] * len(lists)
        self.order, self.backs, self.dead = [], [], set()
        self.best, self.best_at, self.steps_back, self.gave_up = [], list(self.at), 0, False

    def nexts(self):
        """The lists whose next access may come next by the clock."""
        open_lists = [(i, lines[self.at[i]]) for i, lines in enumerate(self.lists) if self.at[i] < len(lines)]
        first_end = min((access.end for _, access in open_lists), default=0)
        return [(i, access) for i, access in open_lists if access.start <= first_end]

    def make(self, i, access, changes):
        self.backs.append((i, self.lot.make(changes)))
        self.order.append(access)
        self.at[i] += 1

    def take_back(self, length):
        while len(self.order) > length:
            i, back = self.backs.pop()
            self.lot.make(back)
            self.order.pop()
            self.at[i] -= 1

    def choices(self):
        """Makes what changes nothing that others see, as long as there is any. Answers what else may come next, the last to end first."""
        while True:
            loud, is_moved = [], False
            for i, access in self.nexts():
                changes = self.lot.step(access)
                if changes is None:
                    continue
                if self.lot.is_quiet(changes):
                    self.make(i, access, changes)
                    is_moved = True
                    break
                loud.append((access.end, i))
            if not is_moved:
                return [i for _, i in sorted(loud, reverse=True)]

    def is_dead(self):
        return bool(self.dead) and (tuple(self.at), self.lot.seen()) in self.dead

    def note_best(self):
        if len(self.order) > len(self.best) or not self.best:
            self.best, self.best_at = list(self.order), list(self.at)

    def run(self):
        """Whether all accesses are in one order. Where not, `best` is the longest beginning that was found."""
        total = sum(map(len, self.lists))
        choices = self.choices()
        turns = [(len(self.order), choices)]
        while len(self.order) < total:
            length, left = turns[-1]
            if left:
                i = left.pop()
                access = self.lists[i][self.at[i]]
                self.make(i, access, self.lot.step(access))
                choices = self.choices()
                turns.append((len(self.order), [] if self.is_dead() else choices))
                continue
            self.note_best()
            self.dead.add((tuple(self.at), self.lot.seen()))
            turns.pop()
            self.steps_back += 1
            self.gave_up = self.steps_back > MOST_STEPS_BACK
            if not turns or self.gave_up:
                return False
            self.take_back(turns[-1][0])
        return True
