"""The cases of bench/hostile_costs: lists of calls with hostile messages, and with plain ones of the same length.

    python3 bench/hostile_costs.py PROGRAMS FOLDER [CASE..]

PROGRAMS is a folder with the programs `checked` and `unchecked`. The environment sets how wide and how many: WIDTHS, WIDTH, RULES, DOMAINS
and MANY; BUILDS names the programs to run, REPEATS is how often each list is run, NICE the niceness of the program, and PATIENCE how many
seconds a run may last.
"""
import os
import struct
import subprocess
import sys
import time

programs, folder = sys.argv[1:3]
BUILDS = os.environ.get("BUILDS", "checked unchecked").split()
REPEATS = int(os.environ.get("REPEATS", "3"))
NICE = os.environ.get("NICE")
# A list that takes more seconds is run once.
LONG = 10

PASS = "rule for * in * from * to * pass;rule for * in * from * to * element * keep;"
# What examples/customer has: acme sees the flows from and to its own network, of the others' addresses 24 bits, and no source port.
CUSTOMER = (
    "rule for * in * from 198.51.100.0/24 to * pass;rule for * in * from * to 198.51.100.0/24 pass;"
    "rule for * in * from 198.51.100.0/24 to * element sourceIPv4Address keep;"
    "rule for * in * from * to 198.51.100.0/24 element destinationIPv4Address keep;"
    "rule for * in * from * to * element sourceIPv4Address truncate 24;"
    "rule for * in * from * to * element destinationIPv4Address truncate 24;"
    "rule for * in * from * to 198.51.100.0/24 element sourceTransportPort remove;"
    "rule for * in * from * to * element * keep;"
)
MOST = "limits 1000000 65280 10000000 100000000 1099511627776\n"
# The longest message, and how long a run may last in seconds.
LONGEST = 65535
PATIENCE = float(os.environ.get("PATIENCE", "100"))
# No message that a server takes may hold the lock for more seconds, or take more times as long as a plain one.
LOCKED_AT_MOST = 0.05
TIMES_AT_MOST = 50
# A server takes no message of which more records count in aggregates, for all subscriptions together, or whose Data Sets may have more
# values for each of its octets.
MOST_COUNTS = 131072
VALUES_AN_OCTET = 2
# What took more, a line each.
OVER = []


def template(number, fields):
    """A template record of elements and lengths."""
    return struct.pack("!HH", number, len(fields)) + b"".join(struct.pack("!HH", *field) for field in fields)


def set_of(number, content):
    return struct.pack("!HH", number, 4 + len(content)) + content


def message(*sets, domain=7):
    """A message of sets. Its Sequence Number is 0: a gap costs nothing."""
    body = b"".join(sets)
    assert 16 + len(body) <= LONGEST, 16 + len(body)
    return struct.pack("!HHIII", 10, 16 + len(body), 1700000000, 0, domain) + body


def plain(length):
    """A message with as many records as a length has room for, of an address, a port and a count; without its template, which FLOW has."""
    count = max(1, (length - 20) // 10)
    return message(set_of(256, b"".join(struct.pack("!IHI", 0xC6336400 | n % 256, 443, n) for n in range(count))))


FLOW = message(set_of(2, template(256, [(8, 4), (7, 2), (1, 4)])))


def policy_line(rules):
    return "edit policy 1;" + rules + "\n"


def calls(rules, subscriptions, messages, limits=MOST, drained=0):
    """A list of calls; behind each message so many entries of the audit are drained."""
    lines = [limits, policy_line(rules), "open\n"]
    lines += ["subscribe s%d\n" % n for n in range(subscriptions)]
    for n, one in enumerate(messages):
        lines.append("receive 1 %d %s\n" % (n, one.hex()))
        if drained:
            lines.append("audit %d\n" % drained)
    return "".join(lines)


# What the program tells of a message that is done under the lock, and what is done elsewhere.
LOCKED = "receive snapshot stale prepared judged".split()
ELSEWHERE = "prepare judge".split()


class Told:
    """What the program told of a call, or of a part of it."""

    def __init__(self, line):
        what, number, spent, done, peak, _, held, _ = line.split()
        self.what, self.number, self.seconds, self.done = what, int(number), int(spent) / 1e9, done == "true"
        self.peak, self.held = int(peak), int(held)
        # What was held before it.
        self.before = 0


def be_nice():
    """The program's niceness is that which is asked for, whatever this one has."""
    if NICE:
        os.setpriority(os.PRIO_PROCESS, 0, int(NICE))


def run(build, path, way):
    """What is told of each call, and whether that is all. A run that lasts too long is ended."""
    program = os.path.join(programs, build)
    child = subprocess.Popen([program, way, path], stdout=subprocess.PIPE, text=True, preexec_fn=be_nice)
    try:
        said, _ = child.communicate(timeout=PATIENCE)
        whole = child.returncode == 0
    except subprocess.TimeoutExpired:
        child.kill()
        said, _ = child.communicate()
        whole = False
    told = [Told(line) for line in said.splitlines() if line.count(" ") == 7]
    for then, now in zip(told, told[1:]):
        now.before = then.held
    return told, whole


class Cost:
    """What the messages with these numbers cost where they are taken in this way: the least of some runs."""

    def __init__(self, build, path, way, numbers):
        self.whole, self.accepted, self.ways = False, False, ""
        self.locked = self.call = self.elsewhere = self.worst = self.held = self.peak = None
        for _ in range(REPEATS):
            begin = time.monotonic()
            told, whole = run(build, path, way)
            found = {number: [] for number in numbers}
            for one in told:
                if one.number in found and one.what in LOCKED + ELSEWHERE:
                    found[one.number].append(one)
            parts = list(found.values())
            if not whole or not all(parts):
                return
            self.add(told, parts)
            if time.monotonic() - begin > LONG:
                return

    def add(self, told, parts):
        """One run more, with what it told of each of the messages."""
        locked = [sum(one.seconds for one in part if one.what in LOCKED) for part in parts]
        elsewhere = [sum(one.seconds for one in part if one.what in ELSEWHERE) for part in parts]
        if not self.whole or max(locked) < self.worst:
            self.worst = max(locked)
        self.locked = min(locked + [self.locked or PATIENCE])
        self.call = min([part[-1].seconds for part in parts] + [self.call or PATIENCE])
        self.elsewhere = min(elsewhere + [PATIENCE if self.elsewhere is None else self.elsewhere])
        self.held = min((told[-1].held - parts[0][0].before) / len(parts), self.held if self.whole else 1e12)
        # The memory of a message is that above what was held before its first part.
        peak = max(max(one.peak for one in part) - part[0].before for part in parts)
        self.peak = min(peak, self.peak if self.whole else peak)
        # A policy or a subscription that is refused would make messages cheap.
        self.accepted = (self.accepted or not self.whole) and all(one.done for one in told if one.what not in ELSEWHERE + ["stale"])
        self.ways = " ".join(one.what for one in parts[-1] if one.what in LOCKED and one.what != "snapshot")
        self.whole = True


def number(value, unit=1.0):
    return "?" if value is None else "{:,.3g}".format(value * unit) if abs(value * unit) < 100 else "{:,.0f}".format(value * unit)


def times(value, usual, least=0.0):
    """How many times the usual one a value is."""
    return "?" if value is None or usual is None else number(value / max(usual, least, 1e-9))


HEADS = ["Case", "build", "octets", "one call, ms", "worst", "times plain", "by", "elsewhere, ms", "under the lock, ms", "worst", "times plain",
         "the last call, ms", "never prepared: elsewhere, ms", "under the lock, ms", "times plain", "kept, KiB", "times plain",
         "at most meanwhile, KiB", "times plain", "the same ahead, KiB", "times plain", "accepted"]
USUAL = {}


def row(name, build, length, once, ahead, judged, usual):
    """Prints the row of a case."""
    mark = "" if once.whole else ">"
    plain_once, plain_ahead, plain_judged = usual
    print("| " + " | ".join([
        name, build, str(length), number(PATIENCE if mark else once.locked, 1e3), number(once.worst, 1e3),
        mark + times(PATIENCE if mark else once.locked, plain_once.locked), ahead.ways, number(ahead.elsewhere, 1e3),
        number(ahead.locked, 1e3), number(ahead.worst, 1e3), times(ahead.locked, plain_ahead.locked), number(ahead.call, 1e3),
        number(judged.elsewhere, 1e3), number(judged.locked, 1e3), times(judged.locked, plain_judged.locked),
        number(once.held), times(once.held, plain_once.held, 0.1), number(once.peak), times(once.peak, plain_once.peak, 0.1),
        number(ahead.peak), times(ahead.peak, plain_ahead.peak, 0.1),
        "yes" if once.accepted and ahead.accepted and judged.accepted else "no"]) + " |", flush=True)


def served(subscriptions):
    return "1 subscription" if subscriptions == 1 else "%d subscriptions" % subscriptions


def costs(build, text, numbers, ways):
    path = os.path.join(folder, "calls")
    with open(path, "w") as file:
        file.write(text)
    return [Cost(build, path, way, numbers) for way in ways]


def usual_of(build, subscriptions, length, least):
    """What plain messages of this length cost, or of one nearly as long, which is found out and told once."""
    length = length if length < 1000 else length // 100 * 100
    found = (build, subscriptions, length)
    if found not in USUAL:
        # Queues have room for a million records.
        many = max(3, min(2000, 4_000_000 // length, 600_000 // max(1, (length - 20) // 10), 150_000_000 // subscriptions // length))
        many = max(least, many) if least * ((length - 20) // 10) < 900_000 else many
        text = calls(PASS, subscriptions, [FLOW] + [plain(length)] * (many + 3))
        USUAL[found] = costs(build, text, range(4, many + 4), ("once", "ahead", "judged"))
        row("plain, %s" % served(subscriptions), build, length, *USUAL[found], USUAL[found])
    return USUAL[found]


def see_bounds(name, build, once, ahead, judged, usual):
    """Notes what a case takes that is more than a message may take. What the checks at run time take is not a server's."""
    if build == "checked":
        return
    if not (once.whole and ahead.whole and judged.whole):
        OVER.append("%s: a run was not whole" % name)
        return
    for how, one in ("prepared", ahead), ("never prepared", judged):
        if one.locked > LOCKED_AT_MOST:
            OVER.append("%s, %s: %s ms under the lock" % (name, how, number(one.locked, 1e3)))
    if usual[0].locked and once.locked > TIMES_AT_MOST * usual[0].locked:
        OVER.append("%s: %s times plain" % (name, times(once.locked, usual[0].locked)))


def tell(name, rules, subscriptions, before, hostile, drained=0, behind=False, refused=False):
    """Measures a case by each program, and prints its row and that of plain messages. Where the messages are to be behind others, each
    second one is measured, and a read brings it with the one before. What a server refuses may take as long as it likes."""
    length = len(hostile[-1])
    # Messages are numbered from 0.
    numbers = range(len(before), len(before) + len(hostile))[1 if behind else 0::2 if behind else 1]
    for build in BUILDS:
        usual = usual_of(build, subscriptions, length, len(hostile))
        text = calls(rules, subscriptions, before + hostile, drained=drained)
        found = costs(build, text, numbers, ("once", "pairs" if behind else "ahead", "judged"))
        row(name, build, length, *found, usual)
        if not refused:
            see_bounds(name, build, *found, usual)


def thousands_of_domains():
    """Each message is of another domain, with a template and a record."""
    record = set_of(256, b"\xc6\x33\x64\x01\x01\xbb\0\0\x05\xdc")

    def one(domain):
        return message(set_of(2, template(256, [(8, 4), (7, 2), (1, 4)])), record, domain=domain)

    count = int(os.environ.get("DOMAINS", "20000"))
    tell("a domain of its own in each of %d messages" % count, PASS, 1, [], [one(domain) for domain in range(count)])
    again = [message(record, domain=n * 7919 % count) for n in range(2000)]
    tell("messages of %d domains in turn" % count, PASS, 1, [one(domain) for domain in range(count)], again)


def templates_redefined():
    """Each message defines as many templates as it has room for, all of them anew."""
    def definitions(first, element):
        room = (LONGEST - 20) // 8
        return message(set_of(2, b"".join(template(256 + (first + n) % 65280, [(element, 1)]) for n in range(room))))

    before = [definitions(8189 * n, 4) for n in range(8)]
    tell("65,280 templates, 8,189 redefined in each message", PASS, 1, before, [definitions(0, 5 if n % 2 == 0 else 4) for n in range(20)])
    new = [message(set_of(2, b"".join(template(256 + n, [(4, 1)]) for n in range(8189))), domain=d) for d in range(20)]
    tell("8,189 new templates in a domain of its own in each message", PASS, 1, [], new)


def wide(fields, policy, records, what, subscriptions=1, count=3, together=False, drained=0, refused=False):
    """Messages of records of a wide template."""
    define = set_of(2, template(256, fields))
    data = set_of(256, records)
    if together:
        tell(what, policy, subscriptions, [], [message(define, data)] * count, drained, refused=refused)
    else:
        tell(what, policy, subscriptions, [message(define)], [message(data)] * count, drained, refused=refused)


def wide_addresses():
    """A record of so many addresses, all inside one prefix of the customer's policy."""
    for width in [int(word) for word in os.environ.get("WIDTHS", "250 500 1000").split()]:
        wide([(8, 4)] * width, CUSTOMER, b"\xc6\x33\x64\x01" * width, "a record of %d addresses" % width)
    width = int(os.environ.get("WIDTH", "8000"))
    for subscriptions in 1, 10:
        wide([(8, 4)] * width, CUSTOMER, b"\xc6\x33\x64\x01" * width,
             "a record of %d addresses with its template, %d subscriptions" % (width, subscriptions), subscriptions, together=True)


def wide_octets():
    """Templates of 16,000 fields, most of which take no octets."""
    width = int(os.environ.get("WIDTH", "16000"))
    many = LONGEST - 20
    wide([(210, 0)] * (width - 1) + [(4, 1)], PASS, b"\x06" * many, "%d records of %d fields, one octet each" % (many, width), refused=True)
    remove = PASS.replace("pass;", "pass;rule for * in * from * to * element interfaceName remove;")
    mixed = [(82, 0), (210, 0)] * (width // 2 - 1) + [(4, 1)]
    wide(mixed, remove, b"\x06" * many, "the same, every second field removed", refused=True)
    wide([(210, 65535)] * width, PASS, b"\0" * (many // width * width), "records of %d values of no octets, each with its length" % width)
    wide([(210, 65535), *[(210, 0)] * (width - 2), (8, 4)], CUSTOMER, b"\0\xc6\x33\x64\x01" * (many // 5),
         "%d records of an address behind %d values of no octets" % (many // 5, width - 1), refused=True)


def small_records():
    """Records of one octet each."""
    many = LONGEST - 20
    for subscriptions in 1, 10:
        wide([(4, 1)], PASS, b"\x06" * many, "%d records of one octet, %d subscriptions" % (many, subscriptions), subscriptions)
    nothing = "rule for * in * from * to * withhold;"
    for subscriptions in 1, 10:
        wide([(4, 1)], nothing, b"\x06" * many, "the same, withheld, %d subscriptions" % subscriptions, subscriptions)


def turns():
    """Data Sets of two templates in turns, with one record each."""
    two = set_of(2, template(256, [(4, 1)]) + template(257, [(5, 1)]))
    many = (LONGEST - 16) // 10
    for subscriptions in 1, 10:
        tell("%d Data Sets of two templates in turns, %d subscriptions" % (2 * many, subscriptions),
             CUSTOMER.replace("198.51.100.0/24", "*"), subscriptions, [message(two)],
             [message(*[set_of(256, b"\x06"), set_of(257, b"\x06")] * many)] * 3)


def sets_of_one(numbers, room):
    """As many Data Sets with a record of one octet as there is room for, of these templates in turns."""
    return [set_of(numbers[n % len(numbers)], b"\x06") for n in range(room // 5)]


def wide_turns():
    """Data Sets of wide templates, with one record of one octet each, or none."""
    for width in [int(word) for word in os.environ.get("WIDTHS", "4000 16000").split()]:
        fields = [(210, 0)] * (width - 1)
        sets = [set_of(2, template(number, fields + [(last, 1)])) for number, last in ((256, 4), (257, 5))]
        two = [message(one) for one in sets]
        tell("16,379 empty Data Sets of a template of %d fields" % width, PASS, 1, two, [message(*[set_of(256, b"")] * 16379)] * 2, refused=True)
        for numbers, what in ([256], "a template of %d fields" % width), ([256, 257], "two templates of %d fields in turns" % width):
            some = sets_of_one(numbers, LONGEST - 16)
            tell("%d Data Sets of %s" % (len(some), what), PASS, 1, two, [message(*some)] * 2, refused=True)
        # A message brings those of its templates that it has room for; the others came before.
        for brought in range(1, 3):
            room = LONGEST - 16 - sum(len(one) for one in sets[:brought])
            for numbers in [256], [256, 257]:
                some = sets_of_one(numbers, room)
                if len(some) < 2 or brought > len(numbers):
                    continue
                tell("%d Data Sets of %d templates of %d fields in turns, and %d of these templates"
                     % (len(some), len(numbers), width, brought), PASS, 1, two, [message(*sets[:brought], *some)] * 2, refused=True)


def as_wide_as_may_be():
    """Data Sets with one record each, of two templates in turns, with nearly as many values as a server takes: those of the record count,
    and those of one more."""
    for width in 5, 400, 16000:
        # The other fields of a record take an octet each, so that their set has two values for each of its octets.
        thin = width if width < VALUES_AN_OCTET * 5 else 0
        fields = [(210, 0)] * (width - 1) if thin else [(5, 1)] * (width - 1)
        two = [message(set_of(2, template(number, fields + [(last, 1)]))) for number, last in ((256, 4), (257, 5))]
        record = b"\x06" * (1 if thin else width)
        some = [set_of(256 + n % 2, record) for n in range((LONGEST - 16) // (4 + len(record)))]
        for subscriptions in 1, 10:
            tell("%d Data Sets of two templates of %d fields in turns, %s" % (len(some), width, served(subscriptions)), PASS, subscriptions,
                 two, [message(*some)] * 3)


def behind_templates():
    """Messages that come in the same read behind one that defines their templates anew, or for the first time."""
    width = int(os.environ.get("WIDTH", "4000"))
    fields = [(210, 0)] * (width - 1)

    def defined(first):
        return message(*[set_of(2, template(number, fields + [(last, 1)])) for number, last in ((256, first), (257, 9 - first))])

    some = message(*sets_of_one([256, 257], LONGEST - 16))
    tell("%d Data Sets of two templates of %d fields in turns, behind these templates" % ((LONGEST - 16) // 5, width), PASS, 1, [],
         [defined(4), some, defined(5), some], behind=True, refused=True)
    # Plain ones, whose template is another each time.
    flows = [message(set_of(2, template(256, [(8, 4), (last, 2), (1, 4)]))) for last in (7, 11)]
    tell("plain messages, each behind its template", PASS, 1, [], [flows[0], plain(LONGEST), flows[1], plain(LONGEST)] * 4, behind=True)
    tell("the same, 10 subscriptions", PASS, 10, [], [flows[0], plain(LONGEST), flows[1], plain(LONGEST)] * 4, behind=True)


def classes():
    """Records each of another class, by thousands of rules for prefixes."""
    for count in [int(word) for word in os.environ.get("RULES", "4000").split()]:
        rules = "".join("rule for * in * from 10.%d.%d.0/24 to * pass;" % (n // 256, n % 256) for n in range(count)) + PASS
        many = (LONGEST - 20) // 8
        for subscriptions in 1, 10:
            records = b"".join(struct.pack("!II", 0x0A000001 + 256 * (n * 7919 % count), n) for n in range(many))
            wide([(8, 4), (10, 4)], rules, records, "%d records of other classes, %d rules, %d subscriptions"
                 % (many, count, subscriptions), subscriptions)


def unknown():
    """Data Sets without a template, and sets that are reserved."""
    tell("16,379 Data Sets without a template", PASS, 1, [], [message(*[set_of(300, b"")] * 16379)] * 10)
    tell("16,379 templates that are refused", PASS, 1, [], [message(set_of(2, b"\0\x05\0\0" * 16378))] * 10)
    tell("16,378 withdrawals", PASS, 1, [], [message(set_of(2, b"\x01\x2c\0\0" * 16378))] * 10)


def one_mark(count, action="withhold"):
    """Rules that name one source prefix, and another destination prefix each."""
    return "".join("rule for * in * from 198.51.100.0/24 to 10.%d.%d.0/24 %s;" % (n // 256, n % 256, action) for n in range(count))


def rules_for_one_source():
    """Records of all classes of addresses, by rules of which each might match."""
    for count in [int(word) for word in os.environ.get("RULES", "1000 4092").split()]:
        rules = one_mark(count) + PASS
        many = (LONGEST - 20) // 8
        records = b"".join(b"\xc6\x33\x64\x01" + struct.pack("!I", 0x0B000000 + n) for n in range(many))
        wide([(8, 4), (12, 4)], rules, records, "%d records outside, %d rules for one source" % (many, count))
        records = b"".join(b"\xc6\x33\x64\x01" + struct.pack("!I", 0x0A000001 + 256 * ((n * 7919) % count)) for n in range(many))
        wide([(8, 4), (12, 4)], rules, records, "%d records inside one of them each" % many)
        records = b"".join(b"\xc6\x33\x64\x01" * 4 + struct.pack("!I", 0x0B000000 + n) for n in range(many * 8 // 20))
        wide([(8, 4)] * 4 + [(12, 4)], rules, records, "%d records with four sources" % (many * 8 // 20))


def rules_for_one_element():
    """A wide record of one element, by rules that all name it, each in a domain of its own."""
    for count in [int(word) for word in os.environ.get("RULES", "100 1000").split()]:
        named = "".join("rule for * in %d from * to * element octetDeltaCount keep;" % (100 + n) for n in range(count))
        width = int(os.environ.get("WIDTH", "2000"))
        for together in False, True:
            wide([(1, 1)] * width, PASS.replace("pass;", "pass;" + named), b"\x01" * width,
                 "a record of %d fields of one element%s, %d rules that name it" % (width, " with its template" if together else "", count),
                 together=together)


def addresses_by_rules():
    """Records of thousands of addresses, by rules that look at each of them."""
    for count in [int(word) for word in os.environ.get("RULES", "100 1000 4092").split()]:
        rules = one_mark(count) + PASS
        width = int(os.environ.get("WIDTH", "2000"))
        wide([(8, 4)] + [(12, 4)] * (width - 1), rules, b"\xc6\x33\x64\x01" + b"\x0b\x00\x00\x01" * (width - 1),
             "a record of %d addresses, %d rules" % (width, count), together=True)


def aggregates():
    """Aggregate keys that never come again."""
    def one(first, many):
        return set_of(256, b"".join(struct.pack("!II", 1700000100, first + n) for n in range(many)))

    many = (LONGEST - 20) // 8
    first = message(set_of(2, template(256, [(150, 4), (10, 4)])))
    rules = "aggregate a key ingressInterface interval 300 grace 60;rule for * in * from * to * aggregate a;"
    for subscriptions in 1, 10:
        tell("%d groups a message, %d subscriptions" % (many, subscriptions), rules, subscriptions, [first],
             [message(one(many * n, many)) for n in range(6)])
    keys = ",".join(["ingressInterface", "egressInterface", "bgpSourceAsNumber", "bgpDestinationAsNumber", "observationDomainId"])
    short = message(set_of(2, template(256, [(150, 4), (10, 3), (14, 1), (16, 1), (17, 1), (149, 1)])))
    small = (LONGEST - 20) // 11
    rules = "aggregate a key %s interval 300 grace 60;rule for * in * from * to * aggregate a;" % keys
    tell("%d groups with five keys" % small, rules, 1, [short], [message(set_of(256, b"".join(
        struct.pack("!I", 1700000100) + struct.pack("!I", small * n + m)[1:] + b"\1\1\1\1" for m in range(small)))) for n in range(6)])
    defined = "".join("aggregate a%d key ingressInterface interval %d grace 60;" % (n, 300 + n) for n in range(256))
    ruled = "".join("rule for * in * from * to 10.%d.%d.0/24 aggregate a%d;" % (n // 256, n % 256, n % 256) for n in range(4096))
    wide_keys = message(set_of(2, template(256, [(150, 4), (10, 4), (12, 4)])))
    many = (LONGEST - 20) // 12
    tell("4,096 rules by 256 aggregates, %d groups a message" % many, defined + ruled, 1, [wide_keys], [message(set_of(256, b"".join(
        struct.pack("!III", 1700000100, many * n + m, 0x0A000001 + 256 * (m * 7919 % 4096)) for m in range(many)))) for n in range(6)])


def colliding_keys():
    """Groups whose keys were chosen so that the hash, whose seed is fixed, puts all into one place; and others, as many."""
    program = os.path.join(folder, "colliding_keys")
    source = os.path.join(os.path.dirname(os.path.abspath(__file__)), "colliding_keys.c")
    subprocess.run(["cc", "-O2", "-o", program, source], check=True)
    many = (LONGEST - 20) // 8
    first = message(set_of(2, template(256, [(150, 4), (10, 4)])))
    rules = "aggregate a key ingressInterface interval 300 grace 60;rule for * in * from * to * aggregate a;"
    chosen = subprocess.run([program, str(13 * many)], check=True, stdout=subprocess.PIPE).stdout
    keys = [key for key, in struct.iter_unpack("=I", chosen)]

    def one(keys):
        return message(set_of(256, b"".join(struct.pack("!II", 1700000100, key) for key in keys)))

    for what, keys in ("any", range(13 * many)), ("chosen", keys):
        some = [one(keys[n * many:(n + 1) * many]) for n in range(13)]
        tell("%d groups of %s keys a message, the first" % (many, what), rules, 1, [first], some[:2])
        tell("the same, the twelfth", rules, 1, [first] + some[:11], some[11:])


def many_subscriptions():
    """Plain messages, withheld records and groups, with many subscriptions."""
    flow, nothing = plain(LONGEST), "rule for * in * from * to * withhold;"
    groups = "aggregate a key ingressInterface interval 300 grace 60;rule for * in * from * to * aggregate a;"
    first = message(set_of(2, template(256, [(150, 4), (10, 4)])))
    many = (LONGEST - 20) // 8
    for subscriptions in [int(word) for word in os.environ.get("MANY", "50 100").split()]:
        # The audit has room for ten million entries, so it is drained behind each message.
        wide([(4, 1)], nothing, b"\x06" * (LONGEST - 20),
             "%d records of one octet, withheld, %d subscriptions" % (LONGEST - 20, subscriptions), subscriptions, drained=10_000_000)
        tell("plain records, withheld, %d subscriptions" % subscriptions, nothing, subscriptions, [FLOW], [flow] * 3, drained=10_000_000)
        tell("%d groups a message, %d subscriptions" % (many, subscriptions), groups, subscriptions, [first],
             [message(set_of(256, b"".join(struct.pack("!II", 1700000100, many * n + m) for m in range(many)))) for n in range(3)],
             refused=many * subscriptions > MOST_COUNTS)


CASES = {one.__name__: one for one in (
    thousands_of_domains, templates_redefined, wide_addresses, wide_octets, small_records, turns, wide_turns, as_wide_as_may_be, behind_templates, classes, unknown,
    rules_for_one_source, rules_for_one_element, addresses_by_rules, aggregates, colliding_keys,
    many_subscriptions)}

if __name__ == "__main__":
    if sys.argv[3:] == ["list"]:
        print("\n".join(CASES))
        sys.exit(0)
    print("| " + " | ".join(HEADS) + " |\n|" + "---|" * len(HEADS), flush=True)
    for name in sys.argv[3:] or CASES:
        CASES[name]()
    print("\n".join(["more than a message may take:"] + OVER) if OVER else "no message takes more than it may")
    sys.exit(1 if OVER else 0)
