"""Holds what came of a soak against the journals of its runs: what collectors were sent against what is disclosed to them, what
exporters sent against what was accepted, what the administrator was told of the audit, and the notes against all of these.

What is disclosed is worked out by disclosed.py, and must be what `ipmd verify` and `ipmd explain` say too.
"""
import collections
import dataclasses
import functools
import itertools
import re
import statistics
import struct
from concurrent.futures import ProcessPoolExecutor

from disclosed import CLOSED_FIELDS, NUMBER, Disclosed, Layout, Stream, fixed_spans
from messages import HEADER, OPTIONS_TEMPLATES, SET_HEADER, TEMPLATES, NotIpfix, cut, expect, template_records
from runs import run as run_program
from soaking import BABBLES, BREAKS, ENDS, FORK, RESETS, STAYS

# How the connection of an exporter must end, by what it does.
DUE = {
    ENDS: ("ended",),
    BREAKS: ("failed, CutOff",),
    RESETS: ("failed, Read", "failed, CutOff"),
    BABBLES: ("failed, BadVersion",),
    STAYS: ("closed, idle",),
}
# So many times as much memory as before, and so many KiB more for what threads leave behind, is too much.
MORE = 1.15
MORE_KIB = 2048

# Of a journal with so many octets or more not every record is explained.
FEW = 1_000_000

# How it ends by the run's.
READ_AT_THE_END = "failed, Read, at the run's end"
BY_THE_RUN = ("closed, the run ends", "failed, JournalFull", "refused: JournalFull", READ_AT_THE_END)

# The notes that there may be, behind the time where they have one, each with what stands in it.
LEVEL = r"(?:\S+Z )?\[(?:INFO |WARN ) ipmd\] "
NOTES = {
    name: re.compile(f"{LEVEL}(?:{text})")
    for name, text in {
        "run": r"run (\d+)",
        "exporter": r"exporter \S+:(\d+) (ended|failed, \w+|closed, idle|closed, the run ends): messages (\d+) records (\d+) gaps (\d+)",
        "refused": r"exporter \S+:(\d+) (refused: \w+)",
        "delivery": r"collector (\w+) \S+ (connected)(?: again: dropped (\d+) accepted meanwhile (\d+))?",
        "not subscribed": r"collector (\w+) \S+ (not subscribed): .*",
        "delivered": r"collector (\w+) \S+ (ended|was cut|failed, Write): octets (\d+) records (\d+)(?: dropped (\d+))?",
        "absent": r"collector (\w+) \S+ absent at the end: dropped (\d+)",
        "ends": r"the journal is full: the run ends|admin \S+ ended: commands \d+",
        "cuts": r"exporter \S+ cut subscriptions: (\d+) by the message at (\d+)",
        "administrator": r"admin \S+:(\d+) connected",
        "groups": r"groups not closed: (\d+)",
        "totals": r"accepted (\d+) handed (\d+)",
        "journal": r"journal \S+\.(\d+) written",
        "other": r"exporter \S+ connected(?:: session \d+ at \d+)?|(?:admin \S+ )?edit \d+ at \d+"
        r"|admin \S+ closed, the run ends|admin \S+ failed, Read|admin \S+ refused: others wait, or the run ends"
        r"|cannot connect to collector \w+ \S+ yet: Connection refused .*|collectors given up: \d+ did not take what is queued in time"
        r"|the journal is nearly full: .*",
    }.items()
}


@dataclasses.dataclass
class Delivery:
    """A connection to a collector, by the notes: whether its subscription is a new one, or there is none, and how it ended."""

    is_again: bool = False
    is_refused: bool = False
    way: str | None = None
    octets: int = 0
    records: int = 0
    dropped: int = 0


class RunNoted:
    """What was noted of a run."""

    def __init__(self, number):
        self.number = number
        self.exporters = {}
        self.deliveries = collections.defaultdict(list)
        self.absent = {}
        self.administrators = []
        self.is_ending = False
        self.broken = []
        self.cut_by = collections.Counter()
        self.totals = self.journal = self.groups = None

    def take(self, name, words):
        if name in ("exporter", "refused"):
            self.take_exporter(int(words[0]), words[1], tuple(map(int, words[2:])))
        elif name == "ends":
            self.is_ending = True
        elif name == "delivery":
            self.deliveries[words[0]].append(Delivery(is_again=words[2] is not None))
        elif name == "not subscribed":
            self.deliveries[words[0]].append(Delivery(is_refused=True))
        elif name == "delivered":
            last = self.deliveries[words[0]][-1]
            last.way, (last.octets, last.records, last.dropped) = words[1], (int(word or 0) for word in words[2:])
        elif name == "absent":
            self.absent[words[0]] = int(words[1])
        elif name == "cuts":
            self.cut_by[int(words[1])] += int(words[0])
        elif name == "administrator":
            self.administrators.append(int(words[0]))
        elif name == "groups":
            self.groups = int(words[0])
        elif name == "totals":
            self.totals = tuple(map(int, words))
        elif name == "journal":
            self.journal = int(words[0])
            for port in self.broken:
                self.exporters[port] = (READ_AT_THE_END, *self.exporters[port][1:])

    def take_exporter(self, port, way, counts):
        """An exporter's connection ended. Of one that sends on when the run ends the reading may fail: `broken` are those of which it
        failed behind a note that tells of the end, or behind the last note of another end."""
        self.exporters[port] = (way, *counts)
        self.is_ending = self.is_ending or way in BY_THE_RUN
        if way == "failed, Read":
            self.broken.append(port)
        elif not self.is_ending:
            self.broken = []


def runs_noted(text):
    """What was noted of each run, and what is wrong with the notes."""
    runs, wrong = [], []
    for line in text.splitlines():
        name, match = next(((name, match) for name, form in NOTES.items() if (match := form.fullmatch(line))), (None, None))
        if name == "run":
            runs.append(RunNoted(int(match[1])))
        elif name is None or not runs:
            wrong.append(f"noted: {line}")
        else:
            runs[-1].take(name, match.groups())
    return runs, wrong


def read_delivery(octets, target, times):
    """The records of a collector's stream. It must be RFC 7011's, to its last octet: sequence numbers count the records before, each
    template comes once and before its records, no message is longer than is asked for, and was made at one of these times."""
    stream, templates = Stream(), {}
    for piece in cut(octets):
        _, length, exported, sequence, domain = HEADER.unpack_from(piece)
        before = len(stream.octets)
        expect(sequence == before % 2**32, f"sequence number {sequence} behind {before} records")
        expect(domain == 0, f"domain {domain}")
        expect(exported in times, f"export time {exported}")
        at = HEADER.size
        while at < length:
            number, size = SET_HEADER.unpack_from(piece, at)
            expect(SET_HEADER.size < size <= length - at, f"a set of {size} octets")
            content = piece[at + SET_HEADER.size : at + size]
            if number in (TEMPLATES, OPTIONS_TEMPLATES):
                for name, scopes, fields in template_records(content, number == OPTIONS_TEMPLATES):
                    expect(name not in templates, f"template {name} a second time")
                    templates[name] = Layout(tuple(fields), scopes)
            else:
                expect(number in templates, f"records before template {number}")
                stream.add_content(templates[number], content)
            at += size
        brought = len(stream.octets) - before
        expect(brought > 0, "a message of no record")
        expect(length <= target or brought == 1, f"a message of {length} octets")
    return stream


def difference(due, got, is_front):
    """How the records that a collector got differ from those that were due, of which they may be the first ones alone; else None."""
    count = len(got.octets)
    if is_front and count <= len(due.octets):
        octets, layouts = due.octets[:count], due.layouts[:count]
    else:
        octets, layouts = due.octets, due.layouts
    if got.octets == octets and got.layouts == layouts:
        return None
    pairs = zip(itertools.zip_longest(layouts, got.layouts), itertools.zip_longest(octets, got.octets))
    place, (_, (wanted, found)) = next((n, pair) for n, pair in enumerate(pairs) if pair[0][0] != pair[0][1] or pair[1][0] != pair[1][1])
    counts = collections.Counter(got.octets)
    counts.subtract(octets)
    more, fewer = (sum(max(0, sign * number) for number in counts.values()) for sign in (1, -1))
    show = [None if one is None else one.hex() for one in (wanted, found)]
    return f"{count} records and not {len(octets)}: {fewer} are missing, {more} too many; record {place} is {show[1]} and not {show[0]}"


def flows_closed(stream):
    """The flows of the closed records of a stream."""
    count = len(CLOSED_FIELDS)
    return sum(
        struct.unpack("!Q", octets[-8:])[0] for layout, octets in zip(stream.layouts, stream.octets) if layout.fields[-count:] == CLOSED_FIELDS
    )


@dataclasses.dataclass
class Row:
    """What the table tells of a run."""

    run: int
    messages: int = 0
    records: int = 0
    octets: int = 0
    sessions: int = 0
    edits: int = 0
    advances: int = 0
    cuts: int = 0
    counted: int = 0
    closed: int = 0
    audit: int = 0
    audit_read: int = 0
    # By the names of collectors: how many records they got, and were disclosed to them; and who was there from the run's begin to its end.
    got: dict = dataclasses.field(default_factory=dict)
    due: dict = dataclasses.field(default_factory=dict)
    stayed: list = dataclasses.field(default_factory=list)
    wrong: list = dataclasses.field(default_factory=list)


class RunCheck:
    """The check of a run: what was noted of it, the file of its journal, and what exporters sent, collectors took and the administrator
    asked in it."""

    def __init__(self, noted, path, sent, taken, asked, target, times):
        self.noted, self.path, self.sent, self.taken, self.asked = noted, path, sent, taken, asked
        self.target, self.times = target, times
        self.row = Row(noted.number)

    def complain(self, what):
        self.row.wrong.append(f"run {self.noted.number}: {what}")

    def expect(self, is_so, what):
        if not is_so:
            self.complain(what)

    def check(self):
        """Answers what the table tells of the run, and what is wrong."""
        if not self.path.is_file():
            self.complain(f"{self.path.name} wasn't written")
            return self.row
        verified = run_program(["verify", "--journal", str(self.path)])
        if verified.status != 0:
            self.complain(f"ipmd verify says: {verified.errors.strip()}")
            return self.row
        file = self.path.read_bytes()
        text = verified.output.decode()
        # Of one subscription all records are explained; or those at one index of their messages, where there are many.
        explained = 1 + self.noted.number % max(1, text.count("sub "))
        index = None if len(file) < FEW else self.noted.number
        self.disclosed = Disclosed(file, explained, index)
        self.row.octets = len(file)
        self.check_verified(text)
        self.check_explained(explained, index)
        self.check_exporters()
        for name in self.taken:
            self.check_collector(name)
        self.check_administrator()
        self.check_totals()
        return self.row

    def check_verified(self, text):
        """What `ipmd verify` says is what is disclosed."""
        lines = text.splitlines()
        subscriptions = self.disclosed.subscriptions.values()
        due = [f"sub {one.number} {one.name} disclosed {len(one.octets)}" for one in subscriptions]
        self.expect(lines[: len(due)] == due, f"ipmd verify says {lines[: len(due)]} and not {due}")
        self.audit = lines[len(due) :]
        self.expect_lines(self.audit, self.disclosed.audit, "ipmd verify's audit")
        self.row.cuts = sum(one.was_cut for one in subscriptions)
        self.row.audit = len(self.audit)
        self.row.edits, self.row.advances = self.disclosed.edits, self.disclosed.advances
        self.row.counted = sum(one.counted for one in subscriptions)

    def expect_lines(self, found, due, what):
        """That texts have these lines."""
        if found != due:
            place = next(n for n, (one, other) in enumerate(itertools.zip_longest(found, due)) if one != other)
            found, due = ((*lines[place : place + 1], None)[0] for lines in (found, due))
            self.complain(f"{what}: line {place} is {found!r} and not {due!r}")

    def check_explained(self, number, index):
        """What `ipmd explain` says of a subscription is what it saw."""
        words = ["explain", "--journal", str(self.path), "--sub", str(number), *(() if index is None else ("--index", str(index)))]
        said = run_program(words)
        self.expect(said.status == 0, f"ipmd explain says: {said.errors.strip()}")
        self.expect_lines(said.output.decode().splitlines(), self.disclosed.explanations, f"ipmd explain of subscription {number}")

    def check_exporters(self):
        """What was accepted of an exporter is what it sent, message by message: all of it, where it ended its connection, or the first
        messages, where the run ended."""
        sent = {one.first: one for one in self.sent}
        accepted = {}
        for session in self.disclosed.sessions.values():
            self.row.sessions += 1
            self.row.messages += len(session.messages)
            self.row.records += sum(count for _, count in session.messages)
            if session.messages:
                self.expect(session.first in sent, f"a session whose first record has the number {session.first} was sent by none")
                self.expect(session.first not in accepted, f"the connection of {session.first} has two sessions")
                accepted[session.first] = session.messages
        for one in self.sent:
            self.check_exporter(one, accepted.get(one.first, []))

    def check_exporter(self, sent, accepted):
        """The same of one connection."""
        way, *counts = self.noted.exporters[sent.port]
        what = f"the exporter at {sent.port}, which {sent.way}, {way}"
        count = len(accepted)
        self.expect(accepted == sent.messages[:count], f"{what}: its {count} messages are not the first that it sent")
        if counts:
            due = [count, sum(records for _, records in accepted), 0]
            self.expect(counts == due, f"{what}: noted {counts} and not {due}")
        else:
            self.expect(count == 0, f"{what}: {count} messages are accepted")
        # One may be idle without wanting to, where the machine is slow.
        if way in BY_THE_RUN or not counts or (way == "closed, idle" and not sent.is_whole):
            return
        self.expect(sent.is_whole and way in DUE[sent.way], f"{what}, and all was sent: {sent.is_whole}")
        self.expect(count == len(sent.messages) or sent.way == RESETS, f"{what}: {count} messages accepted of {len(sent.messages)}")

    def check_collector(self, name):
        """What a collector got over its connections is what was disclosed to its subscriptions."""
        subscriptions = [one for one in self.disclosed.subscriptions.values() if one.name == name]
        deliveries = self.noted.deliveries[name]
        again = sum(one.is_again for one in deliveries)
        self.row.due[name] = sum(len(one.octets) for one in subscriptions)
        self.row.got[name] = 0
        self.expect(again == len(subscriptions) - 1, f"{name} has {len(subscriptions)} subscriptions and came again {again} times")
        self.expect(len(self.taken[name]) == len(deliveries), f"{name} took {len(self.taken[name])} connections of {len(deliveries)}")
        if not subscriptions:
            return
        place = 0
        for taken, delivery in zip(self.taken[name], deliveries):
            place += delivery.is_again
            if delivery.is_refused or place >= len(subscriptions):
                self.expect(taken.path.stat().st_size == 0, f"{name} was sent something by no subscription")
            else:
                self.check_delivery(name, subscriptions[place], taken, delivery)
        waited = self.noted.absent.get(name, 0)
        self.expect(waited <= len(subscriptions[-1].octets), f"{waited} records waited for {name}, to whom fewer were disclosed")

    def check_delivery(self, name, subscription, taken, delivery):
        """What a collector got over one connection is what was disclosed to a subscription; or a front of it, where it left, was given up,
        or was reset behind a cut before its system had all."""
        what = f"{name}'s subscription {subscription.number}, whose delivery {delivery.way}"
        is_front = taken.has_left or taken.was_reset or delivery.way == "failed, Write"
        try:
            got = read_delivery(self.whole_messages(taken, is_front), self.target, self.times)
        except NotIpfix as why:
            self.complain(f"{what}: {why}")
            return
        count, due = len(got.octets), len(subscription.octets)
        self.row.got[name] += count
        self.row.closed += flows_closed(got)
        found = difference(subscription, got, is_front)
        self.expect(found is None, f"{what}: {found}")
        self.expect(count <= delivery.records <= due, f"{what}: got {count} of {due}, noted {delivery.records}")
        self.expect(delivery.records + delivery.dropped <= due, f"{what}: noted {delivery.records} and dropped {delivery.dropped} of {due}")
        size = taken.path.stat().st_size
        self.expect(size <= delivery.octets, f"{what}: got {size} octets, noted {delivery.octets}")
        self.expect(not taken.was_reset or subscription.was_cut or delivery.way == "failed, Write", f"{what}: it was reset")
        self.expect(subscription.was_cut == (delivery.way == "was cut") or is_front, f"{what}: is cut by the journal: {subscription.was_cut}")
        if is_front:
            return
        self.expect((count, size) == (delivery.records, delivery.octets), f"{what}: got {count} records in {size} octets, noted {delivery}")
        if not subscription.was_cut:
            self.check_stayed(what, subscription, got)

    def whole_messages(self, taken, is_front):
        """What was taken over a connection, but for the message in which it ended where it may end in one."""
        octets = taken.path.read_bytes()
        at = 0
        while is_front and at < len(octets):
            length = int.from_bytes(octets[at + 2 : at + 4], "big")
            if at + HEADER.size > len(octets) or at + length > len(octets):
                return octets[:at]
            at += max(1, length)
        return octets

    def check_stayed(self, what, subscription, got):
        """Of a collector that was there from a subscription's begin to the run's end: the flows of its closed records and those of groups that
        never closed are the records that count, by the audit too, and no record is there twice. To acme each that was accepted is
        disclosed, so it has all of them where it was there from the run's begin."""
        closed, running = flows_closed(got), subscription.running()
        lines = sum(line.split(" ", 4)[2:4] == [str(subscription.number), "aggregated"] for line in self.audit)
        self.expect(closed + running == lines, f"{what}: {closed} flows in closed records, {running} in open groups, and {lines} count")
        numbers = collections.Counter(own_numbers(got))
        doubled = sum(count > 1 for count in numbers.values())
        self.expect(doubled == 0, f"{what}: {doubled} records came twice")
        if len(self.taken[subscription.name]) > 1:
            return
        self.row.stayed.append(subscription.name)
        if subscription.name == "acme":
            self.expect(len(numbers) == self.row.records, f"{what}: {len(numbers)} records came of {self.row.records} that were accepted")

    def check_administrator(self):
        """The audit's lines that were read are the first of those that there are, and edits and advances are the journal's."""
        lines = [line for asked in self.asked for line in asked.path.read_text(encoding="ascii").splitlines()]
        self.row.audit_read = len(lines)
        self.expect_lines(lines, self.audit[: len(lines)], "the audit that was read")
        edits, advances = sum(one.edits for one in self.asked), sum(one.advances for one in self.asked)
        due = (self.row.edits - 1, self.row.advances)
        self.expect((edits, advances) == due, f"{edits} edits and {advances} advances were answered, and {due} are in the journal")

    def check_totals(self):
        """The totals are those of the journal and the notes, and so are the messages that cut subscriptions."""
        self.expect(self.noted.cut_by == self.disclosed.cut_by, f"noted cuts {self.noted.cut_by} and not {self.disclosed.cut_by}")
        handed = sum(one.records for each in self.noted.deliveries.values() for one in each)
        due = (self.row.messages, handed)
        self.expect(self.noted.totals == due, f"noted accepted and handed {self.noted.totals} and not {due}")
        groups = sum(len(one.groups) for one in self.disclosed.subscriptions.values())
        self.expect(self.noted.groups in (None, groups), f"noted {self.noted.groups} groups that were not closed, and not {groups}")
        self.expect(self.noted.journal == self.noted.number, f"its journal has the number {self.noted.journal}")


def own_numbers(stream):
    """The numbers of the records of a stream that have one of their own, as octets."""
    for layout, octets in zip(stream.layouts, stream.octets):
        span = number_span(layout)
        if span is not None:
            yield octets[span]


@functools.cache
def number_span(layout):
    """Where the number stands in records of a layout, if it does."""
    if layout.place(NUMBER) is None:
        return None
    spans = fixed_spans(layout)
    # It stands behind all that varies.
    return slice(-8, None) if spans is None else slice(*spans[layout.place(NUMBER)])


def checks_of(soak, runs):
    """The check of each run of a soak."""
    times = range(int(soak.begun) - 1, int(soak.begun + soak.lasted) + 2)
    left = {name: iter(taken) for name, taken in soak.taken.items()}
    noted_ports = {port for noted in runs for port in noted.exporters}
    checks = []
    for noted in runs:
        # Connections come in the order of the runs; of exporters and the administrator the ports tell where they belong.
        taken = {name: list(itertools.islice(left[name], len(noted.deliveries[name]))) for name in left}
        sent = [one for one in soak.sent if one.port in noted.exporters]
        asked = [one for one in soak.asked if one.port in noted.administrators]
        path = soak.folder / f"journal.{noted.number}"
        checks.append(RunCheck(noted, path, sent, taken, asked, soak.run.settings["target"], times))
    return checks


def check(soak, processes=1):
    """Answers what the table tells of each run of a soak, and what is wrong."""
    runs, wrong = runs_noted(soak.ended.notes)
    wrong += soak.wrong
    if soak.ended.status != 0:
        wrong.append(f"the program ended with status {soak.ended.status}")
    if not runs:
        return [], [*wrong, "no run was noted"]
    checks = checks_of(soak, runs)
    if processes == 1:
        rows = [one.check() for one in checks]
    else:
        with ProcessPoolExecutor(processes, FORK) as pool:
            rows = list(pool.map(RunCheck.check, checks))
    for row in rows:
        wrong += row.wrong
    return rows, wrong + check_whole(soak, runs)


def check_memory(memory):
    """What is wrong with the memory of a run after another, at their ends: that of the last three is to be that of the second to fourth, or of
    the last that of the second. Those of a soak of two runs are too few."""
    few = 3 if len(memory) >= 6 else 1
    early, late = (statistics.median(part or [0]) for part in (memory[1 : 1 + few], memory[-few:]))
    if len(memory) > 2 and late > MORE * early + MORE_KIB:
        return [f"the last runs took {late:,.0f} KiB at their ends, and {early:,.0f} KiB before"]
    return []


def check_whole(soak, runs):
    """What is wrong with all runs together."""
    wrong = []
    numbers = [noted.number for noted in runs]
    if numbers != list(range(1, len(runs) + 1)):
        wrong.append(f"runs {numbers} were noted")
    said = "".join("accepted {} handed {}\n".format(*noted.totals) for noted in runs if noted.totals)
    if soak.ended.output != said:
        wrong.append(f"standard output says {soak.ended.output!r} and not {said!r}")
    files = sorted(path.name for path in soak.folder.glob("journal*"))
    if files != sorted(f"journal.{number}" for number in numbers):
        wrong.append(f"the files of journals are {files}")
    for name, taken in soak.taken.items():
        count = sum(len(noted.deliveries[name]) for noted in runs)
        if len(taken) != count:
            wrong.append(f"{name} took {len(taken)} connections, and {count} were noted")
    return wrong + check_memory([soak.memory[number] for number in sorted(soak.memory) if number])
