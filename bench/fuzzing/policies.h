// Makes texts of policies, by their grammar. Where a policy isn't to be faultless, a word may be another, anywhere.

static const char *const names[] = {"acme", "beta", "peer", "c3", "web_1", "a-very-long-name-of-32-characters"};
static const char *const element_names[] = {
    "sourceIPv4Address", "destinationIPv4Address", "sourceTransportPort", "destinationTransportPort", "protocolIdentifier",
    "octetDeltaCount", "packetDeltaCount", "flowStartSeconds", "flowStartMilliseconds", "flowEndMilliseconds", "ingressInterface",
    "sourceIPv6Address", "destinationIPv6Address", "sourceMacAddress", "interfaceName", "vlanId", "e32", "e400", "e29305/1",
};
static const char *const address_names[] = {"sourceIPv4Address", "destinationIPv4Address", "sourceIPv6Address", "sourceMacAddress"};
static const char *const key_names[] = {
    "sourceIPv4Address", "destinationTransportPort", "protocolIdentifier", "sourceTransportPort", "vlanId", "ingressInterface",
    "destinationIPv6Address", "bgpSourceAsNumber",
};
static const char *const time_names[] = {"flowStartSeconds", "flowEndSeconds", "flowStartMilliseconds", "flowEndMilliseconds"};
static const char *const other_words[] = {
    "", "*", "#", "pass", "rule", "element", "keep", "0", "01", "-1", "4294967296", "99999999999999999999", "10.0.0.0/33", "10.0.0.1/8",
    "256.0.0.0/8", "1.2.3/8", "::/129", "::1::/64", "2001:db8::1/32", "1:2:3:4:5:6:7/64", "12345::/16", "/0", "Acme", "e8", "e-1",
    "e29305/40000", "octetdeltacount", "a-very-long-name-of-33-characters", "aggregate", "truncate", "degrade", "policy",
};

// One word of so many is another than it should be; 0: none.
static u64 odds_of_words;
// Which version the policy has, and which aggregates it has so far: a bit for each of the names.
static int policy_version;
static u32 aggregates_defined;

// Puts the word, or another, and what parts it from the next.
static void put_word(const char *word) {
    put_text(odds_of_words && one_in(odds_of_words) ? PICK(other_words) : word);
    put_text(odds_of_words && one_in(30) ? "\t \r" : " ");
}

static void put_number_word(u64 number) {
    if (odds_of_words && one_in(odds_of_words)) put_decimal(one_in(2) ? edge() : random_number());
    else put_decimal(number);
    put(' ');
}

static void put_prefix4(void) {
    u64 length = one_in(3) ? below(33) : 8 * between(0, 4);
    u32 address = one_in(2) ? 0x0a000000 + below(4) * 0x10000 : random_number();
    if (length < 32 && !(odds_of_words && one_in(odds_of_words))) address &= ~(0xffffffffu >> length);
    for (int i = 4; i-- > 0;) put_decimal(address >> 8 * i & 255), put_text(i ? "." : "/");
    put_decimal(length);
    put(' ');
}

// Groups of an address: all eight, or so many in front of a `::`, where the others are zeros.
static void put_prefix6(void) {
    u64 groups = between(0, 8), length = 16 * between(groups, 8);
    for (u64 i = 0; i < groups; i++) {
        if (i) put(':');
        put_hexadecimal(one_in(2) ? below(3) : random_number() & 0xffff);
    }
    put_text(groups < 8 ? "::" : "");
    put('/');
    put_decimal(odds_of_words && one_in(odds_of_words) ? edge() : length);
    put(' ');
}

static void put_prefix(void) {
    if (!one_in(3)) put_word("*");
    else if (one_in(3)) put_prefix6();
    else put_prefix4();
}

static void put_who(void) {
    put_word(one_in(3) ? "*" : names[below(odds_of_words ? 6 : 3)]);
}

static void put_aggregate(void) {
    u64 name = below(6), keys = one_in(10) ? between(1, 8) : between(1, 2), first = below(one_in(3) ? 8 : 4);
    put_word("aggregate");
    put_word(names[name]);
    put_word("key");
    for (u64 i = 0; i < keys; i++) {
        if (i) put(',');
        put_text(odds_of_words && one_in(odds_of_words) ? PICK(element_names) : key_names[(first + i) % 8]);
    }
    put(' ');
    put_word("interval"), put_number_word(one_in(3) ? between(1, 86400) : 300);
    put_word("grace"), put_number_word(one_in(3) ? between(0, 86400) : 60);
    aggregates_defined |= 1u << name;
}

// The name of an aggregate that was defined, if there is one.
static int defined_aggregate(void) {
    for (u64 i = 0, name = below(6); i < 6; i++, name = (name + 1) % 6)
        if (aggregates_defined >> name & 1) return (int)name;
    return -1;
}

static void put_element_action(void) {
    put_word("element");
    switch (below(6)) {
    case 0: put_word(PICK(element_names)), put_word("keep"); break;
    case 1: put_word(PICK(element_names)), put_word("remove"); break;
    case 2: put_word("*"), put_word("remove"); break;
    case 3:
        put_word(odds_of_words && one_in(20) ? PICK(element_names) : PICK(address_names));
        put_word("truncate"), put_number_word(odds_of_words && one_in(20) ? below(130) : below(33));
        break;
    case 4:
        if (policy_version == 1 && !(odds_of_words && one_in(20))) return put_word("*"), put_word("keep");
        put_word(odds_of_words && one_in(20) ? PICK(element_names) : PICK(time_names));
        put_word("degrade"), put_number_word(between(1, 86400));
        break;
    case 5: put_word("*"), put_word("keep"); break;
    }
}

static void put_rule(void) {
    int aggregate = defined_aggregate();
    put_word("rule"), put_word("for"), put_who(), put_word("in");
    if (one_in(3)) put_number_word(one_in(2) ? between(6, 9) : random_number() & 0xffffffff);
    else put_word("*");
    put_word("from"), put_prefix(), put_word("to"), put_prefix();
    u64 choice = below(10);
    if (choice < 3) put_word("pass");
    else if (choice == 3) put_word("withhold");
    else if (choice < 7 && aggregate >= 0) put_word("aggregate"), put_word(names[aggregate]);
    else put_element_action();
}

// The text of a policy of so many lines, or more where it is to be long. A faultless one names each aggregate once.
static void put_policy(u64 lines, size_t until, int without_faults, char line_end) {
    odds_of_words = without_faults ? 0 : one_in(3) ? 30 : 300;
    policy_version = between(1, 2);
    aggregates_defined = 0;
    put_text(policy_version == 2 ? "policy 2" : "policy 1");
    put(line_end);
    if (!without_faults && one_in(4)) put_text("\r\n # a comment\n\n");
    for (u64 aggregates = without_faults ? below(2) : below(3); aggregates > 0; aggregates--) put_aggregate(), put(line_end);
    int aggregate = defined_aggregate();
    if (aggregate >= 0 && one_in(3)) put_text("rule for * in * from * to * aggregate "), put_text(names[aggregate]), put(line_end);
    while (lines > 0 || taken < until) {
        if (taken > LONGEST - 400) break;
        if (odds_of_words && one_in(12)) put_aggregate();
        else put_rule();
        put(line_end);
        if (lines > 0) lines--;
    }
    // The last rule lets some records through.
    if (one_in(2) || without_faults) {
        put_text("rule for * in * from * to * pass");
        put(line_end);
        put_text("rule for * in * from * to * element * keep");
        if (one_in(2)) put(line_end);
    }
}

// Shapes that cost much: lines that are skipped, lines of spaces, one word of a whole line, and names that are compared.
static void put_costly_policy(void) {
    u64 choice = below(5), aggregates = between(250, 260);
    put_text("policy 1\n");
    for (u64 i = 0; taken < wanted; i++) {
        if (choice == 0) put('\n');
        else if (choice == 1) put(one_in(1000) ? '#' : ' ');
        else if (choice == 2) put('a');
        else if (choice == 3) {
            if (i < aggregates) put_text("aggregate a"), put_decimal(i), put_text(" key vlanId interval 1 grace 0\n");
            else put_text("rule for * in * from * to * aggregate a249\n");
        } else put_text("rule for a in * from * to * pass\n");
    }
}

static void make_policy(void) {
    int long_case = wanted > 1000;
    if (long_case && one_in(2)) return put_costly_policy();
    put_policy(below(6), long_case ? wanted : 0, one_in(3), '\n');
    if (one_in(3)) spoil(0, 0, octets_of_texts);
}
