// Makes IPFIX messages: templates, options templates and withdrawals, Data Sets of what is known, and sets that are reserved.

// How the values of an element are made.
enum kind { NUMBER, ADDRESS, LONG_ADDRESS, TIME_SECONDS, TIME_MILLIS, TEXT };

// Elements, with the lengths that their fields may have.
static const struct element {
    u16 number, least, most;
    enum kind kind;
} elements[] = {
    {8, 4, 4, ADDRESS},       {12, 4, 4, ADDRESS},       {7, 1, 2, NUMBER},        {11, 1, 2, NUMBER},        {4, 1, 1, NUMBER},
    {1, 1, 8, NUMBER},        {2, 1, 8, NUMBER},         {150, 4, 4, TIME_SECONDS}, {152, 8, 8, TIME_MILLIS},  {10, 1, 4, NUMBER},
    {6, 1, 2, NUMBER},        {153, 8, 8, TIME_MILLIS},  {27, 16, 16, LONG_ADDRESS}, {28, 16, 16, LONG_ADDRESS}, {15, 4, 4, ADDRESS},
    {16, 1, 4, NUMBER},       {56, 6, 6, NUMBER},        {58, 1, 2, NUMBER},       {82, 0, 20, TEXT},         {210, 0, 9, TEXT},
    {148, 1, 8, NUMBER},      {151, 4, 4, TIME_SECONDS}, {3, 1, 8, NUMBER},        {5, 1, 1, NUMBER},         {60, 1, 1, NUMBER},
};
// So many of them stand in usual flows.
enum { USUAL = 12 };

enum { MOST_FIELDS = 24, MOST_KNOWN = 16, VARIABLE = 65535 };

struct field {
    u16 number, length;
    int has_pen;
    enum kind kind;
};

// The templates that the messages of the case have brought, of all domains.
static struct known {
    u32 domain;
    u16 id;
    int count;
    struct field fields[MOST_FIELDS];
} known[MOST_KNOWN];
static int known_count;

// The sequence number that comes next, for each of the few domains.
static u32 next_sequence[4];
// Whether the messages are to be free of faults.
static int faultless;

static void begin_messages(int without_faults) {
    known_count = 0;
    faultless = without_faults;
    for (int i = 0; i < 4; i++) next_sequence[i] = one_in(8) ? 4294967295u - below(4) : 0;
}

static int faulty(u64 count) {
    return !faultless && one_in(count);
}

static struct field usual_field(int place) {
    const struct element *e = &elements[place];
    u16 length = e->most;
    if (one_in(6)) length = between(e->least, e->most);
    if (e->kind == TEXT && one_in(2)) length = VARIABLE;
    return (struct field){e->number, length, 0, e->kind};
}

static struct field some_field(void) {
    if (faulty(40)) return (struct field){below(300), edge(), one_in(4), NUMBER}; // a length that may be none of its element
    switch (below(12)) {
    case 0: return (struct field){below(400), one_in(2) ? VARIABLE : below(12), 1, TEXT}; // of an enterprise
    case 1: return (struct field){between(200, 400), one_in(2) ? VARIABLE : below(12), 0, TEXT};
    case 2: return usual_field(18);
    default: return usual_field(below(sizeof elements / sizeof *elements));
    }
}

static void put_field(struct field field) {
    put_number(2, field.number | (field.has_pen ? 0x8000 : 0));
    put_number(2, field.length);
    if (field.has_pen) put_number(4, one_in(3) ? edge() : 29305);
}

// One of the templates of a domain, mostly, where there is one.
static const struct known *known_template(u32 domain) {
    if (known_count == 0) return 0;
    const struct known *template = &known[below(known_count)];
    return template->domain == domain ? template : 0;
}

// The known template that is to have this ID, in its place or in a new one.
static struct known *place_of_template(u32 domain, u16 id) {
    for (int i = 0; i < known_count; i++)
        if (known[i].domain == domain && known[i].id == id) return &known[i];
    return known_count < MOST_KNOWN ? &known[known_count++] : &known[below(MOST_KNOWN)];
}

static void forget_templates(u32 domain, u16 id, int all) {
    for (int i = known_count; i-- > 0;)
        if (known[i].domain == domain && (all || known[i].id == id)) known[i] = known[--known_count];
}

static u16 some_id(void) {
    if (faulty(60)) return below(260);
    return one_in(20) ? between(256, 65535) : between(256, 260);
}

// A template record. Its fields are those of usual flows in their order, or any.
static void put_template(u32 domain, int options) {
    const struct known *older = known_template(domain);
    u16 id = older && one_in(4) ? older->id : some_id();
    struct known *template = place_of_template(domain, id);
    template->domain = domain;
    template->id = id;
    template->count = 0;
    if (one_in(2)) {
        for (int i = 0; i < USUAL; i++)
            if (one_in(2)) template->fields[template->count++] = usual_field(i);
    }
    if (template->count == 0)
        for (u64 more = between(1, one_in(10) ? MOST_FIELDS : 6); more > 0; more--) template->fields[template->count++] = some_field();
    put_number(2, id);
    put_number(2, faulty(60) ? edge() : (u64)template->count);
    if (options) put_number(2, faulty(10) ? below(template->count + 2) : between(1, template->count));
    for (int i = 0; i < template->count; i++) put_field(template->fields[i]);
}

static void put_withdrawal(u32 domain, int options) {
    u16 id = some_id();
    int all = one_in(6);
    if (all) id = options ? 3 : 2;
    forget_templates(domain, id, all);
    put_number(2, id);
    put_number(2, 0);
}

static void put_address(int width) {
    static const u32 nets[] = {0x0a000000, 0x0a010000, 0xc0000200, 0xc6336400, 0xcb007100};
    if (width == 16) {
        put_number(4, 0x20010db8);
        put_number(4, below(3) << 16);
        put_number(8, below(4));
    } else {
        put_number(4, one_in(10) ? random_number() : PICK(nets) + below(3));
    }
}

static void put_value(struct field field) {
    u64 length = field.length;
    if (length == VARIABLE) {
        length = one_in(20) ? between(200, 300) : below(12);
        if (length > 254 || one_in(10)) {
            put(255);
            put_number(2, length);
        } else {
            put(length);
        }
    }
    if (field.kind == ADDRESS && length == 4) put_address(4);
    else if (field.kind == LONG_ADDRESS && length == 16) put_address(16);
    else if (field.kind == TIME_SECONDS && length == 4) put_number(4, 1700000000 + below(900));
    else if (field.kind == TIME_MILLIS && length == 8) put_number(8, 1700000000000 + below(900000));
    else if (one_in(3) || length > 8) put_random(length);
    else put_number(length, below(5));
}

// The records of a Data Set, and how many they are.
static u32 put_records(const struct known *template, size_t until) {
    u32 records = 0;
    u64 most = one_in(20) ? 16 : between(1, 2);
    size_t before;
    do {
        before = taken;
        for (int i = 0; i < template->count; i++) put_value(template->fields[i]);
        records++;
    } while (taken > before && (taken < until || records < most));
    return records;
}

// What a set is headed by: its ID, and a length that is put right when the set is whole.
static void put_set_header(u64 id) {
    put_number(2, id);
    put_number(2, 0);
}

static void put_template_set(u32 domain) {
    int options = one_in(5);
    put_set_header(options ? 3 : 2);
    for (u64 count = between(1, 2); count > 0; count--) put_template(domain, options);
}

static void put_withdrawal_set(u32 domain) {
    int options = one_in(3);
    put_set_header(options ? 3 : 2);
    put_withdrawal(domain, options);
}

static u32 put_data_set(const struct known *template, size_t until) {
    put_set_header(template->id);
    u32 records = put_records(template, until);
    if (one_in(10)) put_number(between(1, 3), 0); // padding
    return records;
}

// A set that means nothing: its ID is reserved, or no template has it.
static void put_other_set(void) {
    put_set_header(one_in(2) ? between(256, 270) : one_in(3) ? below(256) : between(4, 255));
    put_random(below(30));
}

// A set, and the number of its records. `until` says how far a long set should go.
static u32 put_set(u32 domain, size_t until) {
    const struct known *template = known_template(domain);
    size_t begin = taken;
    u32 records = 0;
    u64 choice = below(20);
    if (choice < 6 || (template == 0 && choice < 16)) put_template_set(domain);
    else if (choice < 16) records = put_data_set(template, until);
    else if (choice == 16) put_withdrawal_set(domain);
    else put_other_set();
    set_number(begin + 2, 2, taken - begin);
    return records;
}

// Sets that cost much for their length. The first two have a template of few fields, and a Data Set of records of an octet a field.
static size_t put_short_records(u16 element, u16 length, size_t until) {
    size_t fields = between(1, 4);
    put_number(2, 2), put_number(2, 8 + 4 * fields), put_number(2, 256), put_number(2, fields);
    for (size_t i = 0; i < fields; i++) put_number(2, element), put_number(2, length);
    size_t begin = taken;
    put_set_header(256);
    while (taken < until) put(length == VARIABLE ? below(2) : random_number());
    return begin;
}

// Where the last of some costly sets begins.
static size_t put_costly_sets(size_t until) {
    size_t begin = taken;
    switch (below(6)) {
    case 0: return put_short_records(4, 1, until);
    case 1: return put_short_records(210, VARIABLE, until);
    case 2: // thousands of templates
        put_set_header(2);
        for (u64 id = 256; taken < until; id++) put_number(2, id), put_number(2, 1), put_number(4, 0x00040001);
        return begin;
    case 3: // a template of thousands of fields
        put_set_header(2);
        put_number(2, 256), put_number(2, (until - taken) / 4);
        while (taken < until) put_number(2, 210), put_number(2, below(2));
        return begin;
    case 4: // sets without content
        while (taken < until) begin = taken, put_number(2, between(250, 260)), put_number(2, 4);
        return begin;
    default: // thousands of withdrawals
        put_set_header(2);
        while (taken < until) put_number(2, between(256, 65535)), put_number(2, 0);
        return begin;
    }
}

// A message of a domain. One that is to be long goes on until it is.
static void put_message(u64 domain_number, size_t until) {
    size_t begin = taken;
    u32 domain = domain_number ? 6 + domain_number : 0;
    if (until > begin + 65000) until = begin + 65000;
    put_number(2, 10);
    put_number(2, 0);
    put_number(4, 1700000000 + below(100));
    put_number(4, faulty(8) ? some_number() : next_sequence[domain_number]);
    put_number(4, domain);
    u32 records = 0;
    if (until > begin + 1000 && one_in(2)) {
        size_t last = put_costly_sets(until - 400);
        set_number(last + 2, 2, taken - last);
    }
    u64 sets = one_in(10) ? 0 : between(1, 3);
    while ((taken < until || sets > 0) && taken < begin + 65000) {
        records += put_set(domain, until > begin + 1000 ? taken + below(until - begin) : 0);
        if (sets > 0) sets--;
    }
    set_number(begin + 2, 2, taken - begin);
    next_sequence[domain_number] += records;
}

// Puts the length of the message right that was made from `begin` on.
static void mend_message(size_t begin) {
    if (taken >= begin + 4) set_number(begin + 2, 2, taken - begin);
}

// One message.
static void make_items(void) {
    begin_messages(0);
    put_message(below(4), wanted);
    spoil(0, 4, octets_of_numbers);
    if (!one_in(4)) mend_message(0);
}

// A stream of messages that comes in pieces of any length.
static void make_feed(void) {
    begin_messages(0);
    for (u64 count = between(1, 3); count > 0; count--) {
        size_t begin = taken, share = count == 1 ? left() : left() / count;
        put_message(below(4), taken + share);
        if (one_in(3)) spoil(begin, 5, octets_of_numbers);
        if (!one_in(4)) mend_message(begin);
    }
    if (one_in(4)) taken -= below(taken < 20 ? taken : 20);
    size_t whole = taken, most = one_in(20) ? 2 : one_in(3) ? 60 : whole;
    for (taken = 0; taken < whole;) {
        taken += between(1, most ? most : 1);
        if (taken > whole) taken = whole;
        end_piece();
    }
}

// The messages of one session, a piece each. Most are free of faults, so that the session comes to know templates.
static void make_apply(void) {
    begin_messages(0);
    u64 domains = one_in(2) ? 1 : between(1, 4);
    for (u64 count = between(2, 5); count > 0; count--) {
        size_t begin = taken;
        faultless = !one_in(3);
        put_message(below(domains), wanted > 1000 ? taken + left() / count : 0);
        if (one_in(4)) spoil(begin, 2, octets_of_numbers);
        if (!one_in(4)) mend_message(begin);
        end_piece();
    }
}
