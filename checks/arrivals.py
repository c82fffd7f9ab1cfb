#!/usr/bin/env python3
"""Compares replicas with a plain program that knows each unit alone, in every kind of delivery.

    checks/arrivals.py YDOC YD_ARRIVALS [FOLDER]

Both are built programs. Three replicas of the plain program make 10,000 random edits of a text, and
exchange their updates now and then. That is one session. In the honest one the origins of a unit are its
neighbours when it is made. In the dishonest one they are any two units that its maker knows, or none.

The edits are then delivered: as they were made; as each of the three replicas got them; in random order;
each twice; merged in pieces by `ydoc merge`, also where they were mixed before; such pieces in V2 and back
by `ydoc convert`; in one file; and half of them, so that some wait at the end. At each delivery
`yd_arrivals` has to tell what the plain program tells that takes the same updates in the same order.

In the honest session every delivery has to give one document: the same units in the same order, the same
deleted ones, the same vector. `ydoc show` has to print its text, and `ydoc vector` its vector. In the
dishonest session the order of the units is that of their arrival. What waits, the vector and the delete
set have to be the same still.

An edit that comes as it was made, or as a replica got it, never waits. Where edits wait, the plain program
holds them in the order in which a replica tries them (`yd_held`). No contract says this order, and only
the dishonest session depends on it.

Yjs 13 was run by hand beside the plain program, on the first four deliveries. It had the same lists in the
honest session, and in a dishonest one where no right origin is the left one or an earlier unit of its
client. Where one is, both can be in one item of Yjs. It then cuts that item in front of the right origin,
and the unit does not stand behind its left origin.

Where FOLDER is given, each log stays there, beside the lines that are wanted of it.
"""
import itertools
import os
import random
import subprocess
import sys
import tempfile
from typing import NamedTuple, Optional

CLIENTS = (1, 2, 3)
EDITS = 10_000
SEED = 7
PIECE = 100


# ---- the plain program


class Id(NamedTuple):
    client: int
    clock: int


class Unit(NamedTuple):
    id: Id
    left: Optional[Id]
    right: Optional[Id]
    letter: str


class Update(NamedTuple):
    units: list
    deletes: frozenset


class Replica:
    """What was received, and what is held of it: a list in which each unit leads to the one behind it."""

    def __init__(self):
        self.received = {}
        self.named = set()  # the ids that updates delete, held or not
        self.held = {}
        self.clocks = dict.fromkeys(CLIENTS, 0)
        self.lacks = {}  # by an id that is not held: the clients whose next unit needs it
        self.behind = {None: None}  # None is in front of the first unit, and behind the last one
        self.places = [None]  # in front of the list, and behind each unit that is held

    def receive(self, update):
        """Receives an update, and tells whether it brings something."""
        new = [unit for unit in update.units if unit.id not in self.received]
        brings = bool(new) or not update.deletes <= self.named
        self.received.update((unit.id, unit) for unit in new)
        self.named |= update.deletes
        self.hold([client for client, _ in itertools.groupby(unit.id.client for unit in new)])
        return brings

    def hold(self, tries):
        """Holds each unit that has all that it needs. Of the clients to be tried the last one is next."""
        while tries:
            client = tries.pop()
            unit = self.received.get(Id(client, self.clocks[client]))
            if unit is None:
                continue
            lack = self.lack_of(unit)
            if lack is not None:
                self.lacks.setdefault(lack, set()).add(client)
                continue
            self.integrate(unit)
            tries += sorted(self.lacks.pop(unit.id, ())) + [client]

    def lack_of(self, unit):
        """An origin that is not held."""
        for origin in (unit.left, unit.right):
            if origin is not None and origin not in self.held:
                return origin
        return None

    def integrate(self, unit):
        """Puts a unit into the list, by the scan of Yjs 13 (Item.integrate)."""
        left = unit.left
        before_origin = set()
        conflicting = set()
        other = self.behind[left]
        while other is not None and other != unit.right:
            before_origin.add(other)
            conflicting.add(other)
            origin = self.held[other].left
            if origin == unit.left:
                if other.client < unit.id.client:
                    left = other
                    conflicting.clear()
                elif self.held[other].right == unit.right:
                    break
            elif origin is not None and origin in before_origin:
                if origin not in conflicting:
                    left = other
                    conflicting.clear()
            else:
                break
            other = self.behind[other]
        self.behind[unit.id] = self.behind[left]
        self.behind[left] = unit.id
        self.held[unit.id] = unit
        self.places.append(unit.id)
        self.clocks[unit.id.client] += 1

    def order(self):
        """The ids of the list in order."""
        ids = []
        at = self.behind[None]
        while at is not None:
            ids.append(at)
            at = self.behind[at]
        return ids

    def lines(self):
        """What `yd_arrivals` has to tell, but for the answers to each update."""
        order = self.order()
        deleted = self.named & self.held.keys()
        waiting = len(self.received) - len(self.held)
        ids = ["-" * (id in deleted) + f"{id.client}.{id.clock}" for id in order]
        return {
            "waiting": f"{waiting} {len(self.named - self.held.keys())}",
            "vector": " ".join(f"{client}:{clock}" for client, clock in entries_of(self.clocks)),
            "deletes": " ".join(f"{client}.{clock}+{length}" for client, clock, length in spans_of(deleted)),
            "text": "".join(self.held[id].letter for id in order if id not in deleted),
            "list": " ".join(ids),
            "store": " ".join(ids),
            "types": "",
        }


def entries_of(clocks):
    """The clients with a clock above 0, the greatest first."""
    return [(client, clocks[client]) for client in sorted(clocks, reverse=True) if clocks[client] > 0]


def spans_of(ids):
    """Ids as maximal spans, in order: each with its client, its first clock and its length."""
    spans = []
    for client, clock in sorted(ids):
        if spans and spans[-1][0] == client and spans[-1][1] + spans[-1][2] == clock:
            spans[-1][2] += 1
        else:
            spans.append([client, clock, 1])
    return spans


def in_one(updates):
    """The one update that says what all of these say: clients descending, clocks ascending."""
    units = {unit.id: unit for update in updates for unit in update.units}
    ids = sorted(units, key=lambda id: (-id.client, id.clock))
    return Update([units[id] for id in ids], frozenset().union(*(update.deletes for update in updates)))


def reach_of(units):
    """Of each client the smallest clock that none of the units has."""
    ids = {unit.id for unit in units}
    return {client: next(n for n in itertools.count() if Id(client, n) not in ids) for client in CLIENTS}


# ---- bytes: updates in V1, and logs


def number(n):
    out = bytearray()
    while n >= 128:
        out.append(n % 128 + 128)
        n //= 128
    out.append(n)
    return bytes(out)


def numbers(*ns):
    return b"".join(map(number, ns))


def run_bytes(run):
    """The struct of a run: a string, with its origins or else the root `t`."""
    first = run[0]
    info = 4 + 0x80 * (first.left is not None) + 0x40 * (first.right is not None)
    origins = b"".join(numbers(*origin) for origin in (first.left, first.right) if origin is not None)
    letters = "".join(unit.letter for unit in run).encode()
    return bytes([info]) + (origins or b"\x01\x01t") + number(len(letters)) + letters


def deletes_bytes(ids):
    """The delete set, clients descending."""
    clients = sorted({id.client for id in ids}, reverse=True)
    out = number(len(clients))
    for client in clients:
        spans = spans_of(id for id in ids if id.client == client)
        out += numbers(client, len(spans)) + b"".join(numbers(*span[1:]) for span in spans)
    return out


def edit_bytes(edit):
    """The update of one edit, which has one run or none."""
    if not edit.units:
        return number(0) + deletes_bytes(edit.deletes)
    return numbers(1, 1, *edit.units[0].id) + run_bytes(edit.units) + deletes_bytes(edit.deletes)


def vector_bytes(clocks):
    entries = entries_of(clocks)
    return number(len(entries)) + b"".join(numbers(*entry) for entry in entries)


def log_bytes(bodies):
    return b"".join(number(len(body)) + body for body in bodies)


# ---- a session


class Session:
    """Edits by three replicas, and the order in which each of them got them."""

    def __init__(self, is_honest, seed):
        self.chance = random.Random(seed)
        self.is_honest = is_honest
        self.edits = []
        self.replicas = {client: Replica() for client in CLIENTS}
        self.got = {client: [] for client in CLIENTS}  # numbers of edits
        while len(self.edits) < EDITS:
            self.make_edit(self.chance.choice(CLIENTS))
            if self.chance.random() < 0.05:
                self.exchange(*self.chance.sample(CLIENTS, 2))
        for client, other in itertools.permutations(CLIENTS, 2):
            self.exchange(client, other)

    def exchange(self, client, other):
        """A client gets all that another one has and it lacks, in the order in which that one got it."""
        known = set(self.got[client])
        for at in self.got[other]:
            if at not in known:
                self.take(client, at)

    def take(self, client, at):
        replica = self.replicas[client]
        replica.receive(self.edits[at])
        self.got[client].append(at)
        assert len(replica.held) == len(replica.received), "an edit waits for what its maker knew"

    def make_edit(self, client):
        """A deletion or an insertion, at a random place of the client's document."""
        deletes = self.some_live(client) if self.chance.random() < 0.3 else []
        units = [] if deletes else self.new_units(client)
        self.edits.append(Update(units, frozenset(deletes)))
        self.take(client, len(self.edits) - 1)

    def new_units(self, client):
        """One to four letters."""
        clock = self.replicas[client].clocks[client]
        left, right = self.origins(client)
        units = []
        for letter in self.chance.choices("abcdefghijklmnopqrstuvwxyz", k=self.chance.randint(1, 4)):
            units.append(Unit(Id(client, clock), left, right, letter))
            left = units[-1].id
            clock += 1
        return units

    def origins(self, client):
        """The neighbours at a place, or two places that have nothing to do with each other."""
        left = self.place(client)
        right = self.replicas[client].behind[left] if self.is_honest else self.place(client)
        return left, right

    def some_live(self, client):
        """One to four units behind a place that are not deleted, or those that there are."""
        replica = self.replicas[client]
        most = self.chance.randint(1, 4)
        ids = []
        at = replica.behind[self.place(client)]
        while at is not None and len(ids) < most:
            if at not in replica.named:
                ids.append(at)
            at = replica.behind[at]
        return ids

    def place(self, client):
        """Any place of the client's document, or half of the time one of the first, so that edits meet."""
        replica = self.replicas[client]
        if self.chance.random() < 0.5:
            return self.chance.choice(replica.places)
        place = None
        for _ in range(self.chance.randrange(30)):
            place = replica.behind[place]
        return place


# ---- deliveries


class Delivery(NamedTuple):
    name: str
    updates: list
    bodies: list  # the same, in V1


class Program:
    """A built program, run in a folder."""

    def __init__(self, path, folder):
        self.path = os.path.abspath(path)
        self.folder = folder

    def run(self, *words):
        return subprocess.run([self.path, *words], cwd=self.folder, check=True, stdout=subprocess.PIPE).stdout

    def made_of(self, kind, content, *words):
        """What these words make of a file."""
        write(self.folder, "file", content)
        return self.run(*words, f"{kind}:file")


def write(folder, name, content):
    with open(os.path.join(folder, name), "wb") as file:
        file.write(content)


def of_edits(name, edits):
    return Delivery(name, edits, [edit_bytes(edit) for edit in edits])


def in_pieces(name, edits, size, ydoc):
    """The edits, merged in pieces of so many."""
    pieces = [edits[at : at + size] for at in range(0, len(edits), size)]
    bodies = [ydoc.made_of("log", log_bytes(map(edit_bytes, piece)), "merge", "v1") for piece in pieces]
    return Delivery(name, [in_one(piece) for piece in pieces], bodies)


def there_and_back(name, delivery, ydoc):
    """The updates of a delivery, translated to V2 and back."""
    in_v2 = [ydoc.made_of("v1", body, "convert", "v2") for body in delivery.bodies]
    return Delivery(name, delivery.updates, [ydoc.made_of("v2", body, "convert", "v1") for body in in_v2])


def deliveries(session, mixed, ydoc):
    """Every kind of delivery of all edits of a session, which are also given in random order."""
    edits = session.edits
    yield of_edits("as_made", edits)
    for client in CLIENTS:
        yield of_edits(f"as_client_{client}", [edits[at] for at in session.got[client]])
    yield of_edits("in_random_order", mixed)
    yield of_edits("each_twice", session.chance.sample(edits + edits, 2 * len(edits)))
    yield in_pieces("in_pieces", edits, PIECE, ydoc)
    pieces = in_pieces("in_mixed_pieces", mixed, PIECE, ydoc)
    yield pieces
    yield there_and_back("in_v2_and_back", pieces, ydoc)
    yield in_pieces("in_one_file", edits, len(edits), ydoc)


# ---- the comparison


def told_after(updates):
    """What `yd_arrivals` has to tell of these updates: lines by their first words."""
    replica = Replica()
    brings = ["ny"[replica.receive(update)] for update in updates]
    return {"client": "9", "brings": "".join(brings), **replica.lines()}


def printed(lines):
    return "".join(f"{name} {line}".rstrip() + "\n" for name, line in lines.items()).encode()


def lines_of(output):
    return dict(line.partition(" ")[::2] for line in output.decode().splitlines())


def other_lines(names, want, got):
    return [name for name in names if want.get(name) != got.get(name)]


class Comparison:
    """A session in all its deliveries, and what of them is not as it has to be."""

    def __init__(self, session, ydoc, yd_arrivals):
        self.session = session
        self.ydoc = ydoc
        self.yd_arrivals = yd_arrivals

    def differences(self):
        edits = self.session.edits
        mixed = self.session.chance.sample(edits, len(edits))
        half = mixed[: len(mixed) // 2]
        yield from self.of_deliveries(edits, deliveries(self.session, mixed, self.ydoc))
        yield from self.of_deliveries(half, [of_edits("half", half)])
        yield from self.of_check("as_made.log")

    def of_deliveries(self, edits, deliveries):
        """Several deliveries of the same edits, beside all of them in one update."""
        whole = in_one(edits)
        one = told_after([whole])
        vector = vector_bytes(reach_of(whole.units))
        for delivery in deliveries:
            log = delivery.name + ".log"
            write(self.ydoc.folder, log, log_bytes(delivery.bodies))
            yield from self.of_arrivals(delivery, log, one)
            if self.ydoc.run("vector", f"log:{log}") != vector:
                yield f"{delivery.name}: ydoc tells another vector"
            if self.session.is_honest and self.text_of(log) != one["text"]:
                yield f"{delivery.name}: ydoc shows another text"

    def text_of(self, log):
        return self.ydoc.run("show", "--text", "t", f"log:{log}").decode().removesuffix("\n")

    def of_arrivals(self, delivery, log, one):
        """What `yd_arrivals` tells of a delivery, and which of it all edits in one update give too."""
        want = told_after(delivery.updates)
        write(self.ydoc.folder, log + ".stdout", printed(want))
        got = lines_of(self.yd_arrivals.run(log))
        for name in other_lines({**want, **got}, want, got):
            yield f"{delivery.name}: yd_arrivals tells another {name}"
        free = ["brings"] if self.session.is_honest else ["brings", "text", "list", "store"]
        for name in other_lines([name for name in want if name not in free], want, one):
            yield f"{delivery.name}: the order changes {name}"

    def of_check(self, log):
        """What `ydoc check` counts and finds of all edits."""
        replica = self.session.replicas[1]
        counts = f"held {len(replica.held)}\nwaiting 0\nwaiting deletes 0\ndeleted {len(replica.named)}\n"
        verdicts = "lists 1\nagree yes\nhonest " + ("yes\n" if self.session.is_honest else "no ")
        if not self.ydoc.run("check", f"log:{log}").decode().startswith(counts + verdicts):
            yield f"ydoc check finds something else of {log}"


def compare(is_honest, ydoc, yd_arrivals, folder):
    """Says what of a session is not as it has to be, and answers whether all is."""
    kind = "honest" if is_honest else "dishonest"
    folder = os.path.join(folder, kind)
    os.makedirs(folder, exist_ok=True)
    comparison = Comparison(Session(is_honest, SEED), Program(ydoc, folder), Program(yd_arrivals, folder))
    differences = list(comparison.differences())
    for difference in differences:
        print(f"checks/arrivals.py: {kind}, {difference}")
    return not differences


def main():
    ydoc, yd_arrivals, *rest = sys.argv[1:]
    with tempfile.TemporaryDirectory() as folder:
        folder = rest[0] if rest else folder
        passes = [compare(is_honest, ydoc, yd_arrivals, folder) for is_honest in (True, False)]
    if not all(passes):
        sys.exit(1)
    print("checks/arrivals.py: ok")


if __name__ == "__main__":
    main()
