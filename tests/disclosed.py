"""What a journal's file discloses, worked out by the pages alone: docs/VERIFYING.md has the file's form, and docs/POLICY.md says what a
policy means. It shares nothing with `ipmd`.

It reads policies of both versions with prefixes of IPv4, and records whose values have the lengths that their elements have.
"""
import collections
import functools
import ipaddress
import itertools
import struct
import zlib
from typing import NamedTuple

from journals import ADVANCE, CUT, EDIT, MESSAGE, OPENED, SUBSCRIBE, UNSUBSCRIBE, entries_of
from messages import HEADER, OPTIONS_TEMPLATES, SET_HEADER, TEMPLATES, VARIABLE, template_records

# The elements that policies and records may name here.
ELEMENTS = {
    "octetDeltaCount": 1,
    "packetDeltaCount": 2,
    "protocolIdentifier": 4,
    "sourceTransportPort": 7,
    "sourceIPv4Address": 8,
    "ingressInterface": 10,
    "destinationTransportPort": 11,
    "destinationIPv4Address": 12,
    "interfaceName": 82,
    "flowId": 148,
    "flowStartSeconds": 150,
    "flowStartMilliseconds": 152,
    "flowEndMilliseconds": 153,
}
NAMES = {number: name for name, number in ELEMENTS.items()}
OCTETS, PACKETS, SOURCE_PORT, SOURCE, PORT, DESTINATION, NUMBER, SECONDS, MILLISECONDS = 1, 2, 7, 8, 11, 12, 148, 150, 152

# The full length of an element in a key.
KEY_LENGTHS = {4: 1, SOURCE_PORT: 2, SOURCE: 4, 10: 4, PORT: 2, DESTINATION: 4}

# What stands behind the key of a closed record: the interval, and the sums of octets, packets and flows.
CLOSED_FIELDS = ((152, 8), (153, 8), (1, 8), (2, 8), (3, 8))

# The milliseconds of a unit of each element of a start.
STARTS = ((MILLISECONDS, 1), (SECONDS, 1000))

# Why a record doesn't count, in the words of the audit and of `ipmd explain`.
REASONS = {
    "no-time": "the aggregate {} finds no time in it",
    "no-key": "the aggregate {} finds no key in it",
    "late": "it is late for the aggregate {}",
}


class Layout(NamedTuple):
    """The layout of records: the element and the length of each field, and how many of them are of a scope."""

    fields: tuple
    scopes: int

    def place(self, element):
        """The place of an element's first field, or None."""
        return next(iter(places_in(self, element)), None)

    def places(self, element):
        return places_in(self, element)


@functools.cache
def places_in(layout, element):
    return [place for place, field in enumerate(layout.fields) if field[0] == element]


@functools.cache
def fixed_spans(layout):
    """Where each field begins and ends in every record of a layout; None where a length varies."""
    if any(length == VARIABLE for _, length in layout.fields):
        return None
    ends = list(itertools.accumulate(length for _, length in layout.fields))
    return tuple(zip([0, *ends], ends))


def spans_at(layout, content, at):
    """The same of the record that begins at a place, with the octets that say how long a value is."""
    spans, here = [], at
    for _, length in layout.fields:
        if length == VARIABLE:
            length = 1 + content[here] if content[here] < 255 else 3 + struct.unpack_from("!H", content, here + 1)[0]
        spans.append((here - at, here - at + length))
        here += length
    assert here <= len(content), "a record ends behind its set"
    return tuple(spans)


def records_of(layout, content):
    """The records of a Data Set, each with where its fields stand."""
    spans = fixed_spans(layout)
    if spans is None:
        at = 0
        while at < len(content):
            spans = spans_at(layout, content, at)
            yield content[at : at + spans[-1][1]], spans
            at += spans[-1][1]
        return
    size = spans[-1][1]
    assert len(content) % size == 0, "a Data Set that records don't fill"
    for at in range(0, len(content), size):
        yield content[at : at + size], spans


class Aggregate(NamedTuple):
    """The definition of an aggregate, its interval and grace in milliseconds."""

    name: str
    key: tuple
    interval: int
    grace: int


class Rule(NamedTuple):
    """A rule: `element` is None for one of records, and 0 for one of all elements; None stands for what is no condition."""

    number: int
    name: str | None
    domain: int | None
    source: tuple | None
    destination: tuple | None
    element: int | None
    action: str
    argument: object

    def matches(self, name, domain, sources, destinations):
        """Whether it matches a record for a subscriber, given the record's domain and addresses."""
        if self.name not in (None, name) or self.domain not in (None, domain):
            return False
        of = any if self.action in ("withhold", "remove") else every
        return all(
            prefix is None or of(address & prefix[1] == prefix[0] for address in addresses)
            for prefix, addresses in ((self.source, sources), (self.destination, destinations))
        )


def every(found):
    """Whether there are some, and all are true."""
    found = list(found)
    return bool(found) and all(found)


def prefix_of(word):
    """The network and the mask of a prefix; None for `*`."""
    if word == "*":
        return None
    network = ipaddress.IPv4Network(word)
    return int(network.network_address), int(network.netmask)


class Outcome(NamedTuple):
    """What becomes of records of one kind for one subscriber: what explains it, and what stands behind the subscription in the audit,
    if a line is due. A record that passes has a layout then, and of each field that is left its place and what is done to its octets, and
    whether it is whole; of one that counts the rule and the aggregate are told."""

    said: str
    line: str | None
    layout: Layout | None = None
    left: tuple = ()
    is_whole: bool = False
    rule: int = 0
    aggregate: Aggregate | None = None


def by(rule):
    return f"by rule {rule.number}" if rule else "no rule matches it"


def number_of(rule):
    return rule.number if rule else 0


def cut_to(bits, octets):
    """An address of which so many bits pass."""
    width = 8 * len(octets)
    kept = int.from_bytes(octets, "big") >> (width - bits) << (width - bits)
    return kept.to_bytes(len(octets), "big")


def lowered_to(unit, octets):
    """A time, lowered to a multiple of a unit."""
    value = int.from_bytes(octets, "big")
    return (value - value % unit).to_bytes(len(octets), "big")


class Policy:
    """A policy, read from its text, which must be one."""

    def __init__(self, text):
        lines = [line.split() for line in text.splitlines() if line.strip() and not line.startswith("#")]
        assert lines[0] in (["policy", "1"], ["policy", "2"]), lines[0]
        self.aggregates = {}
        self.rules = []
        for words in lines[1:]:
            if words[0] == "aggregate":
                key = tuple(ELEMENTS[name] for name in words[3].split(","))
                self.aggregates[words[1]] = Aggregate(words[1], key, int(words[5]) * 1000, int(words[7]) * 1000)
            else:
                self.rules.append(self.rule_of(len(self.rules) + 1, words))
        self.domains = {rule.domain for rule in self.rules}
        self.prefixes = {(place, rule[place]) for rule in self.rules for place in (3, 4) if rule[place]}
        self.judged = {}

    def rule_of(self, number, words):
        """A rule of the words `rule for NAME in DOMAIN from PREFIX to PREFIX ..`."""
        name, domain, action, element = words[2], words[4], words[9:], None
        if action[0] == "element":
            element = 0 if action[1] == "*" else ELEMENTS[action[1]]
            action = action[2:]
        argument = action[1] if len(action) > 1 else None
        if action[0] == "aggregate":
            argument = self.aggregates[argument]
        return Rule(
            number,
            None if name == "*" else name,
            None if domain == "*" else int(domain),
            prefix_of(words[6]),
            prefix_of(words[8]),
            element,
            action[0],
            argument,
        )

    def kind_of(self, sources, destinations):
        """What tells records with these addresses from others: which addresses are inside which prefix of a rule."""
        return tuple([
            tuple([address & mask == network for address in (sources if place == 3 else destinations)])
            for place, (network, mask) in self.prefixes
        ])

    def judge(self, name, domain, layout, sources, destinations, kind):
        """What becomes for a subscriber of a record of this domain, layout and kind, with these addresses."""
        case = (name, domain if domain in self.domains else None, layout, kind)
        if case not in self.judged:
            # Records of one kind meet the same rules.
            self.judged[case] = self.judge_anew(name, domain, layout, sources, destinations)
        return self.judged[case]

    def judge_anew(self, name, domain, layout, sources, destinations):
        matching = [rule for rule in self.rules if rule.matches(name, domain, sources, destinations)]
        decides = next((rule for rule in matching if rule.element is None), None)
        if decides is None or decides.action == "withhold":
            words = f"withheld {by(decides)}" if decides else f"withheld, {by(decides)}"
            return Outcome(words, f"withheld {number_of(decides)} rule")
        if decides.action == "aggregate":
            aggregate = decides.argument
            return Outcome("", None, rule=decides.number, aggregate=aggregate)
        return disclose_fields(f"rule {decides.number} passes it", matching, layout)


@functools.cache
def policy_of(octets):
    """The policy of a text, given as octets."""
    return Policy(octets.decode())


def disclose_fields(said, matching, layout):
    """What becomes of the fields of a record that passes, where these rules match it."""
    left, removed = [], []
    for place, (element, length) in enumerate(layout.fields):
        rule = next((rule for rule in matching if rule.element in (0, element)), None)
        action = rule.action if rule else "remove"
        change = None
        if action == "remove":
            removed.append((place, rule))
            words = f"removed {by(rule)}" if rule else f"removed, {by(rule)}"
        elif action == "keep":
            words = f"kept {by(rule)}"
        elif action == "truncate":
            change = functools.partial(cut_to, int(rule.argument))
            words = f"cut to {rule.argument} bits {by(rule)}"
        else:
            change = functools.partial(lowered_to, int(rule.argument) * (1000 if element in (152, 153) else 1))
            words = f"lowered to a multiple of {rule.argument} seconds {by(rule)}"
        said += f"; {NAMES[element]} {words}"
        if action != "remove":
            left.append((place, change))
    lost = next((rule for place, rule in removed if place < layout.scopes), None)
    if any(place < layout.scopes for place, _ in removed):
        return Outcome(f"{said}; withheld, since a scope field is removed {by(lost)}", f"withheld {number_of(lost)} scope-lost")
    if not left:
        first = removed[0][1]
        return Outcome(f"{said}; withheld, since all is removed {by(first)}", f"withheld {number_of(first)} empty")
    line = "removed " + ",".join(f"{place}:{number_of(rule)}" for place, rule in removed) if removed else None
    kept = tuple(layout.fields[place] for place, _ in left)
    is_whole = not removed and all(change is None for _, change in left)
    return Outcome(said, line, layout if is_whole else Layout(kept, layout.scopes), tuple(left), is_whole)


@functools.cache
def pieces_of(left, spans):
    """The octets that are left of records with fields at these places: runs of them, each with what is done to it."""
    pieces = []
    for place, change in left:
        begin, end = spans[place]
        if pieces and change is None and pieces[-1][2] is None and pieces[-1][1] == begin:
            begin = pieces.pop()[0]
        pieces.append((begin, end, change))
    return tuple(pieces)


class Stream:
    """Records in order, each as its octets and its layout."""

    def __init__(self):
        self.octets = []
        self.layouts = []

    def add(self, layout, octets):
        self.layouts.append(layout)
        self.octets.append(octets)

    def add_content(self, layout, content):
        """Adds the records of a Data Set; the last one must end where the content does."""
        spans = fixed_spans(layout)
        size = spans[-1][1] if spans else None
        if size and len(content) == size:
            self.add(layout, content)
            return
        for octets, _ in records_of(layout, content):
            self.add(layout, octets)


class Subscription(Stream):
    """A subscription of a history, with what it is to be sent, in order."""

    def __init__(self, number, name):
        super().__init__()
        self.number = number
        self.name = name
        self.is_served = True
        self.was_cut = False
        # The running groups, each with its sums of octets, packets and flows; and how many records count, and how many flows that are.
        self.groups = {}
        self.counted = 0

    def end(self):
        """Nothing more is disclosed to it, and its groups are gone."""
        self.is_served = False
        self.groups = {}

    def running(self):
        """The flows of the groups that never closed."""
        return sum(sums[2] for sums in self.groups.values())

    def close_groups(self, clock):
        """Closes the groups whose interval and grace have passed, in their order: a record for each."""
        over = [group for group in self.groups if group[0] + group[1] + group[2] <= clock]
        for group in sorted(over):
            begin, interval, _, _, key, octets = group
            sums = (min(total, 2**64 - 1) for total in self.groups.pop(group))
            self.add(closed_layout(key), octets + struct.pack("!5Q", begin, begin + interval, *sums))


@functools.cache
def closed_layout(key):
    """The layout of the closed records of an aggregate with this key."""
    return Layout(tuple((element, KEY_LENGTHS[element]) for element in key) + CLOSED_FIELDS, 0)


class Session:
    """A session of a history: the number that the first record of all has, and of each message a checksum and how many records it has."""

    def __init__(self):
        self.first = None
        self.messages = []
        self.templates = {}


class Disclosed:
    """What the file of a journal, given as octets, discloses: its sessions and subscriptions by their numbers, the lines of its audit, and
    how many edits and advances it has. Of the subscription with the number `explained` the explanations say too, in the words of
    `ipmd explain`, what it saw of each record, or of those with an index in their message."""

    def __init__(self, file, explained=None, index=None):
        self.sessions = {}
        self.subscriptions = {}
        self.audit = []
        self.edits = self.advances = 0
        # By the positions of messages how many subscriptions each cut.
        self.cut_by = collections.Counter()
        self.cuts_before = 0
        self.explained, self.index, self.explanations = explained, index, []
        self.clock = 0
        self.policy = None
        # For each domain and layout what becomes of a record with these addresses, for each subscription that is served.
        self.rows = {}
        for entry in entries_of(file):
            self.take(entry)

    def take(self, entry):
        number = entry.numbers[0]
        cuts, self.cuts_before = self.cuts_before, self.cuts_before + 1 if entry.kind == CUT else 0
        if entry.kind == MESSAGE:
            if cuts:
                self.cut_by[entry.position] = cuts
            self.take_message(entry.position, self.sessions[number], entry.octets)
            return
        if entry.kind == OPENED:
            self.sessions[number] = Session()
            return
        if entry.kind == ADVANCE:
            self.clock = number
            self.advances += 1
            for subscription in self.served():
                subscription.close_groups(number)
            return
        if entry.kind == SUBSCRIBE:
            self.subscriptions[number] = Subscription(number, entry.octets.decode())
        elif entry.kind == UNSUBSCRIBE:
            self.subscriptions[number].end()
        elif entry.kind == CUT:
            self.subscriptions[number].end()
            self.subscriptions[number].was_cut = True
            self.audit.append(f"{entry.position} 0 {number} cut")
        elif entry.kind == EDIT:
            self.policy = policy_of(entry.octets)
            self.edits += 1
        self.rows = {}

    def served(self):
        """The subscriptions that are served, in the order of their numbers."""
        return [one for one in self.subscriptions.values() if one.is_served]

    def take_message(self, position, session, octets):
        domain = HEADER.unpack_from(octets)[4]
        at, index = HEADER.size, 0
        while at < len(octets):
            number, length = SET_HEADER.unpack_from(octets, at)
            content = octets[at + SET_HEADER.size : at + length]
            if number in (TEMPLATES, OPTIONS_TEMPLATES):
                for name, scopes, fields in template_records(content, number == OPTIONS_TEMPLATES):
                    session.templates[domain, name] = Layout(tuple(fields), scopes)
            else:
                layout = session.templates[domain, number]
                if session.first is None:
                    session.first = own_number(layout, content)
                index += self.take_records(position, index, domain, layout, content)
            at += length
        session.messages.append((zlib.crc32(octets), index))

    def take_records(self, position, first, domain, layout, content):
        """Takes the records of a Data Set, the first of which has this index in its message; answers how many they are."""
        rows = self.rows.setdefault((domain, layout), {})
        addresses = sorted(layout.places(SOURCE) + layout.places(DESTINATION))
        audit, index = self.audit, first - 1
        for index, (record, spans) in enumerate(records_of(layout, content), first):
            key = record[spans[addresses[0]][0] : spans[addresses[-1]][1]] if addresses else b""
            row = rows.get(key)
            if row is None:
                row = rows[key] = self.row_of(domain, layout, record, spans)
            for subscription, outcome in row:
                line = outcome.line
                if outcome.is_whole:
                    subscription.layouts.append(layout)
                    subscription.octets.append(record)
                elif outcome.layout is not None:
                    pieces = pieces_of(outcome.left, spans)
                    left = [change(record[begin:end]) if change else record[begin:end] for begin, end, change in pieces]
                    subscription.add(outcome.layout, b"".join(left))
                elif outcome.aggregate is not None:
                    line = self.count(subscription, outcome, layout, record, spans)
                if line is not None:
                    audit.append(f"{position} {index} {subscription.number} {line}")
                if subscription.number == self.explained and self.index in (None, index):
                    self.explain(position, index, outcome, layout, record, spans)
        return index + 1 - first

    def row_of(self, domain, layout, record, spans):
        """For each subscription that is served what becomes of records with the addresses of this one."""
        sources, destinations = (
            [int.from_bytes(record[slice(*spans[place])], "big") for place in layout.places(element)] for element in (SOURCE, DESTINATION)
        )
        kind = self.policy.kind_of(sources, destinations)
        return [(one, self.policy.judge(one.name, domain, layout, sources, destinations, kind)) for one in self.served()]

    def count(self, subscription, outcome, layout, record, spans):
        """Counts a record in its group, or not; answers what stands of it in the audit."""
        reason, group = self.group_of(outcome.aggregate, layout, record, spans)
        if reason:
            return f"withheld {outcome.rule} {reason}"
        found = subscription.groups.setdefault(group, [0, 0, 0])
        for what, place in enumerate((layout.place(OCTETS), layout.place(PACKETS))):
            if place is not None:
                found[what] += value_of(record, spans[place])
        found[2] += 1
        subscription.counted += 1
        return f"aggregated {outcome.rule}"

    def group_of(self, aggregate, layout, record, spans):
        """Why a record counts in no group of an aggregate, and else the group in which it does."""
        time, key = counting_of(layout, aggregate)
        if time is None:
            return "no-time", None
        if key is None:
            return "no-key", None
        start = value_of(record, spans[time[0]]) * time[1]
        begin = start - start % aggregate.interval
        if begin + aggregate.interval + aggregate.grace <= self.clock:
            return "late", None
        octets = b"".join(record[slice(*spans[place])].rjust(length, b"\0") for place, length in key)
        return None, (begin, aggregate.interval, aggregate.grace, aggregate.name, aggregate.key, octets)

    def explain(self, position, index, outcome, layout, record, spans):
        """Says of a record what the subscription that is explained saw of it."""
        said = outcome.said if outcome.aggregate is None else self.explain_count(outcome, layout, record, spans)
        self.explanations.append(f"position {position} index {index}: {ends_of(layout, record, spans)}{said}")

    def explain_count(self, outcome, layout, record, spans):
        """Whether a record counts, in words."""
        name = outcome.aggregate.name
        reason, _ = self.group_of(outcome.aggregate, layout, record, spans)
        if not reason:
            return f"counted in the aggregate {name} by rule {outcome.rule}"
        return f"withheld by rule {outcome.rule}: {REASONS[reason].format(name)}"


@functools.cache
def counting_of(layout, aggregate):
    """Of records of a layout that an aggregate is to count: the place of their start and the milliseconds of its unit, and the places and
    full lengths of the key; None for what isn't there."""
    time = next(((layout.place(element), unit) for element, unit in STARTS if layout.place(element) is not None), None)
    places = [layout.place(element) for element in aggregate.key]
    key = None if None in places else tuple((place, KEY_LENGTHS[element]) for place, element in zip(places, aggregate.key))
    return time, key


def ends_of(layout, record, spans):
    """From where and to where the flow of a record goes, in words, where it has addresses and ports."""
    places = ends_in(layout)
    if None in places:
        return ""
    source, source_port, destination, port = (value_of(record, spans[place]) for place in places)
    return f"{address_text(source)}:{source_port} -> {address_text(destination)}:{port}; "


@functools.cache
def ends_in(layout):
    return [layout.place(element) for element in (SOURCE, SOURCE_PORT, DESTINATION, PORT)]


@functools.cache
def address_text(address):
    return str(ipaddress.IPv4Address(address))


def value_of(record, span):
    """The number that stands at a span of a record."""
    return int.from_bytes(record[slice(*span)], "big")


def own_number(layout, content):
    """The number of the first record of a Data Set, or None where records have none."""
    place = layout.place(NUMBER)
    record, spans = next(records_of(layout, content), (None, None))
    return None if place is None or record is None else value_of(record, spans[place])
