"""A plain model of a world of the script language, of sets, dictionaries and lists: what each line may print."""
import copy
import json

LIMIT = 1 << 30
LAST_GENERATION = (1 << 31) - 1
NUMBERS = ["pos", "vel", "def", "map", "tree", "hp"]
WRITTEN = NUMBERS + ["tag", "link"]
SLOTS = WRITTEN + ["id"]
SAVED = ["pos", "link", "id"]
IDS = 1 << 64
TRACKED = {"hp"}


class Slot:
    def __init__(self, tracked):
        self.values, self.tracked, self.emission, self.registered, self.readers = {}, tracked, tracked, 0, {}

    def tell(self, event, index):
        if self.emission:
            for unread in self.readers.values():
                unread.append(f"{event}({index})")


class Members:
    """A set of indices, or the indices below the limit that are not of a set."""

    def __init__(self, indices, inverted=False):
        self.indices, self.inverted = frozenset(indices), inverted

    def has(self, index):
        return (index in self.indices) != self.inverted

    def joined(self, other, test):
        inverted = test(self.inverted, other.inverted)
        named = self.indices | other.indices
        return Members([i for i in named if test(self.has(i), other.has(i)) != inverted], inverted)


class World:
    def __init__(self):
        self.births, self.merged, self.pending, self.marked, self.slots, self.jobs = {}, set(), set(), set(), {}, []
        self.ids, self.next_id = {}, 0
        self.has_index = False

    def living(self):
        return self.merged | self.pending

    def is_alive(self, e):
        return e[0] in self.living() and e[1] == self.births[e[0]]

    def current(self, i):
        born = self.births.get(i, 0)
        return born if i in self.living() else -born if born else 1

    def reported(self, i):
        born = self.births.get(i, 0) - (i in self.pending)
        return 1 if born == 0 else born if i in self.merged else -born

    def next_born(self):
        """The indices of which each may be the next that is born."""
        free = [i for i, n in self.births.items() if i not in self.living() and n < LAST_GENERATION]
        return sorted(free) or [next(i for i in range(LIMIT) if i not in self.births)]

    def is_born(self, e):
        return e[0] in self.next_born() and e[1] == self.births.get(e[0], 0) + 1

    def refused(self, entities):
        """The first that may not die, as the program tells it."""
        for k, e in enumerate(entities):
            if not self.is_alive(e) or e in entities[:k]:
                return wrong("delete", e, self.reported(e[0]))
        return None

    def bury(self, indices):
        for slot in self.slots.values():
            for i in indices:
                if i in slot.values:
                    del slot.values[i]
                    slot.tell("Removed", i)
        for group in (self.merged, self.pending, self.marked):
            group.difference_update(indices)

    def members(self, words):
        """The set that the words begin with, and the words behind it; a set that names an unregistered slot is None."""
        word, rest = words[0], words[1:]
        if word == "living":
            return Members(self.living()), rest
        if word == "not":
            inner, rest = self.members(rest)
            return inner and Members(inner.indices, not inner.inverted), rest
        if word in ("and", "or", "xor"):
            left, rest = self.members(rest)
            right, rest = self.members(rest)
            test = {"and": lambda a, b: a and b, "or": lambda a, b: a or b, "xor": lambda a, b: a != b}[word]
            return left and right and left.joined(right, test), rest
        return self.slots.get(word) and Members(self.slots[word].values), rest

    def create(self, *how, printed):
        e = entity(printed)
        if not e or not self.is_born(e):
            return "an entity that may be born"
        self.births[e[0]] = e[1]
        (self.pending if how else self.merged).add(e[0])
        return printed

    def delete(self, *words):
        entities = [entity(w) for w in words]
        refused = self.refused(entities)
        if refused:
            return refused
        self.bury([e[0] for e in entities])
        return "ok"

    def delete_all(self):
        self.bury(sorted(self.living()))
        return "ok"

    def mark(self, word):
        e = entity(word)
        if not self.is_alive(e):
            return wrong("delete", e, self.reported(e[0]))
        self.marked.add(e[0])
        return "ok"

    def maintained(self, limit):
        """Each world that may come of a maintain, with its reply."""
        dead = [f"{i}:{self.births[i]}" for i in sorted(self.marked)]
        indices = sorted(self.marked)
        self.merged |= self.pending
        self.pending.clear()
        self.bury(indices)
        return [(world, f"deleted [{', '.join(dead)}] ran {ran} refused {refused} left {len(world.jobs)}")
                for world, ran, refused in self.after_jobs(int(limit))]

    def after_jobs(self, limit):
        """Each world that may come of the first jobs, with how many ran and were refused."""
        ran = refused = 0
        while self.jobs and ran < limit:
            kind, *rest = self.jobs.pop(0)
            ran += 1
            if kind == "create":
                return [(world, ran + more, refused + others) for i in self.next_born()
                        for world, more, others in self.with_pending(i).after_jobs(limit - ran)]
            if kind == "again":
                self.jobs.append(["again"])
            elif kind == "label":
                refused += self.label(*rest).startswith("error")
            elif kind == "insert":
                refused += self.insert(*rest).startswith("error")
            else:
                self.remove(*rest)
        return [(self, ran, refused)]

    def with_pending(self, i):
        """This world, with a pending birth at an index."""
        world = copy.deepcopy(self)
        world.births[i] = world.births.get(i, 0) + 1
        world.pending.add(i)
        return world

    def job(self, *words):
        self.jobs.append(list(words))
        return "ok"

    def label(self, word):
        slot, e = self.slots.get("id"), entity(word)
        if slot is None:
            return "error: unregistered"
        if not self.is_alive(e):
            return "error: not alive"
        if e[0] not in slot.values:
            if self.next_id == IDS:
                return "error: ids exhausted"
            slot.values[e[0]] = str(self.next_id)
            self.ids[self.next_id] = e
            self.next_id += 1
        return slot.values[e[0]]

    def saves(self):
        return all(name in self.slots for name in SAVED)

    def link_of(self, i):
        """The entity that an index is linked to, if it is linked."""
        return entity(self.slots["link"].values.get(i, ""))

    def saved(self, indices):
        """The text of the entities of indices, or the refusal of the first that has no marker."""
        records = []
        for i in indices:
            target, place = self.link_of(i), self.slots["pos"].values.get(i)
            if target and not (self.is_alive(target) and target[0] in self.slots["id"].values):
                return f"error: unmarked {target[0]}:{target[1]}"
            link = f"[{self.slots['id'].values[target[0]]}]" if target else "null"
            records.append(f'{{"components":[{f"[{place}]" if place else "null"},{link}],"marker":{self.slots["id"].values[i]}}}')
        return f"[{','.join(records)}]"

    def save(self):
        return self.saved(sorted(self.slots["id"].values)) if self.saves() else "error: unregistered"

    def save_all(self):
        if not self.saves():
            return "error: unregistered"
        indices = sorted(self.slots["id"].values)
        for i in indices:
            target = self.link_of(i)
            if target and not self.is_alive(target):
                return f"error: unmarked {target[0]}:{target[1]}"
            if target and target[0] not in self.slots["id"].values:
                refused = self.label(f"{target[0]}:{target[1]}")
                if refused.startswith("error"):
                    return refused
                indices.append(target[0])
        return self.saved(indices)

    def named(self, number):
        """Each world in which a marker names an entity, with the entity: a mapped one that agrees, else a new one."""
        known = self.ids.get(number)
        if known and self.is_alive(known) and self.slots["id"].values.get(known[0]) == str(number):
            return [(self, known)]
        worlds = []
        for i in self.next_born():
            world = self.with_pending(i)
            world.ids[number] = i, world.births[i]
            world.slots["id"].values[i] = str(number)
            world.next_id = max(world.next_id, number + 1)
            worlds.append((world, (i, world.births[i])))
        return worlds

    def with_record(self, place, link, number):
        """Each world in which a record is loaded."""
        worlds = []
        for world, e in self.named(number):
            for after, target in world.named(link) if link is not None else [(world, None)]:
                after = copy.deepcopy(after)
                for name, value in ("pos", place), ("link", target and f"{target[0]}:{target[1]}"):
                    after.slots[name].values.pop(e[0], None)
                    if value is not None:
                        after.slots[name].values[e[0]] = str(value)
                worlds.append(after)
        return worlds

    def loaded(self, text):
        """Each world that may come of a load, with its reply."""
        if not self.saves():
            return [(self, "error: unregistered")]
        records = records_of(text)
        if records is None:
            return [(self, "error: not the form")]
        worlds = [self]
        for record in records:
            worlds = [after for world in worlds for after in world.with_record(*record)]
        return [(world, "ok") for world in worlds]

    def alive(self, word):
        e = entity(word)
        return "true" if self.is_alive(e) and e[0] in self.merged else "false"

    def living_line(self, word):
        return "true" if self.is_alive(entity(word)) else "false"

    def entity(self, index):
        return f"{index}:{self.current(int(index))}"

    def register(self, name):
        self.slots.setdefault(name, Slot(name in TRACKED))
        return "ok"

    def insert(self, name, word, value):
        slot, e = self.slots.get(name), entity(word)
        if slot is None:
            return "error: unregistered"
        if not self.is_alive(e):
            return wrong("insert component for entity", e, self.current(e[0]))
        before = slot.values.get(e[0], "none")
        slot.tell("Modified" if e[0] in slot.values else "Inserted", e[0])
        slot.values[e[0]] = value
        return before

    def get(self, name, word):
        slot, e = self.slots.get(name), entity(word)
        if slot is None:
            return "error: unregistered"
        return slot.values.get(e[0], "none") if self.is_alive(e) else "none"

    def remove(self, name, word):
        slot, e = self.slots.get(name), entity(word)
        found = self.get(name, word)
        if slot and self.is_alive(e) and e[0] in slot.values:
            del slot.values[e[0]]
            slot.tell("Removed", e[0])
        return found

    def clear(self, name):
        slot = self.slots.get(name)
        if slot is None:
            return "error: unregistered"
        for i in sorted(slot.values):
            slot.tell("Removed", i)
        slot.values.clear()
        return "ok"

    def count(self, name):
        slot = self.slots.get(name)
        return "error: unregistered" if slot is None else str(len(slot.values))

    def select(self, *words):
        members, _ = self.members(list(words))
        return f"[{', '.join(map(str, sorted(members.indices)))}]" if members else "error: unregistered"

    def channel(self, name):
        slot = self.slots.get(name)
        return (slot, None) if slot and slot.tracked else (None, "error: untracked" if slot else "error: unregistered")

    def reader(self, name):
        slot, refused = self.channel(name)
        if refused:
            return refused
        slot.readers[slot.registered] = []
        slot.registered += 1
        return f"reader {slot.registered - 1}"

    def events(self, name, number):
        slot, refused = self.channel(name)
        if refused:
            return refused
        if int(number) not in slot.readers:
            return "error: unknown reader"
        unread, slot.readers[int(number)] = slot.readers[int(number)], []
        return f"[{', '.join(unread)}]"

    def emit(self, name, switch):
        slot, refused = self.channel(name)
        if refused:
            return refused
        slot.emission = switch == "on"
        self.has_index = self.has_index and slot.emission
        return "ok"

    def index(self, name):
        """An index of hp: its reader takes a number, which no line can read by."""
        slot, refused = self.channel(name)
        if refused:
            return refused
        if not slot.emission:
            return "error: emission off"
        slot.registered += 1
        self.has_index = True
        return "ok"

    def find(self, value):
        """The indices from scratch, whatever the index was told."""
        if not self.has_index:
            return "error: no index"
        return f"[{', '.join(str(i) for i, v in sorted(self.slots['hp'].values.items()) if v == value)}]"


def entity(word):
    index, _, generation = word.partition(":")
    try:
        return int(index), int(generation)
    except ValueError:
        return None


def wrong(action, e, actual):
    return (f"error: Tried to {action} entity Entity({e[0]}, Generation({e[1]})), but the generation is no longer valid; "
            f"it should be Generation({actual})")


def is_number(value, least, most):
    return isinstance(value, int) and not isinstance(value, bool) and least <= value <= most


def place_of(value, least, most):
    """The one number of a place, None of an empty one; anything else is no place."""
    if value is None:
        return None
    if not isinstance(value, list) or len(value) != 1 or not is_number(value[0], least, most):
        raise ValueError
    return value[0]


def record_of(value):
    if not isinstance(value, dict) or set(value) != {"components", "marker"} or not is_number(value["marker"], 0, IDS - 1):
        raise ValueError
    components = value["components"]
    if not isinstance(components, list) or len(components) != 2:
        raise ValueError
    return place_of(components[0], -(1 << 63), (1 << 63) - 1), place_of(components[1], 0, IDS - 1), value["marker"]


def no_constant(_name):
    raise ValueError


def records_of(text):
    """The records of a text, or None where it is not of the form."""
    try:
        value = json.loads(text, parse_int=lambda digits: float(0) if digits == "-0" else int(digits), parse_constant=no_constant)
        return [record_of(it) for it in value] if isinstance(value, list) else None
    except (ValueError, RecursionError):
        return None
