// Makes journal files. Their entries are those of a legal history, mostly: numbers count up, texts are policies, and messages are
// messages. The cuts alone may stand where none is due.

enum { OPEN = 1, CLOSE, MESSAGE, EDIT, SUBSCRIBE, UNSUBSCRIBE, ADVANCE, CUT };

// What the entries of the case have said so far.
static struct {
    u64 entries, sessions, subs, clock;
    u64 messages[64];  // of each session, by its number
    u64 closed, ended; // bits: sessions that are closed, and subscriptions that have ended or were cut
    u32 served;        // bits: the names of live subscriptions
    int name_of[64];
} history;
// One entry of so many says something that is not so; 0: none.
static u64 odds_of_entries;

static int false_here(void) {
    return odds_of_entries && one_in(odds_of_entries);
}

static u64 number_or_other(u64 number) {
    return false_here() ? some_number() : number;
}

// Whether lengths may be false too, so that the octets are no journal.
static int lengths_may_be_false;

static u64 length_or_other(u64 length) {
    return lengths_may_be_false ? number_or_other(length) : length;
}

static void put_kind(int kind) {
    end_piece();
    put(kind);
    history.entries++;
}

// The number of a session or subscription that is still open; 0 where there is none.
static u64 open_one(u64 count, u64 closed) {
    for (u64 i = 0, n = count ? between(1, count) : 0; i < count; i++, n = n % count + 1)
        if (!(closed >> n & 1)) return n;
    return 0;
}

static void put_open(void) {
    if (history.sessions == 60) return;
    put_kind(OPEN);
    put_number(8, number_or_other(++history.sessions));
}

static void put_edit(size_t until) {
    put_kind(EDIT);
    put_number(8, 0);
    size_t begin = taken;
    put_policy(below(4), until, !false_here(), '\n');
    set_number(begin - 8, 8, length_or_other(taken - begin));
}

static void put_subscribe(void) {
    if (history.subs == 60) return;
    u64 name = below(3);
    if (history.served >> name & 1 && !false_here()) return;
    put_kind(SUBSCRIBE);
    put_number(8, number_or_other(++history.subs));
    put(length_or_other(__builtin_strlen(names[name])));
    put_text(names[name]);
    history.served |= 1u << name;
    history.name_of[history.subs] = (int)name;
}

static void put_message_entry(size_t until) {
    u64 session = open_one(history.sessions, history.closed);
    if (session == 0) return put_open();
    put_kind(MESSAGE);
    put_number(8, number_or_other(session));
    put_number(8, number_or_other(history.messages[session]++));
    put_number(4, 0);
    size_t begin = taken;
    faultless = !false_here();
    // Each session has a domain of its own here, so that its templates are its own.
    put_message(session % 4, until);
    set_number(begin - 4, 4, length_or_other(taken - begin));
}

static void put_end(int kind) {
    u64 one = kind == CLOSE ? open_one(history.sessions, history.closed) : open_one(history.subs, history.ended);
    if (one == 0 && !false_here()) return;
    put_kind(kind);
    put_number(8, number_or_other(one));
    if (kind == CLOSE) history.closed |= 1ul << one;
    else history.ended |= 1ul << one;
    if (kind == UNSUBSCRIBE) history.served &= ~(1u << history.name_of[one]);
}

static void put_advance(void) {
    history.clock += one_in(3) ? below(1000) : below(600000);
    put_kind(ADVANCE);
    put_number(8, number_or_other(history.clock));
}

static void put_some_entry(size_t until) {
    u64 choice = below(20);
    if (choice < 9) put_message_entry(until);
    else if (choice < 12) put_advance();
    else if (choice < 14) put_edit(until);
    else if (choice < 16) put_subscribe();
    else if (choice == 16) put_open();
    else if (choice == 17 && one_in(2)) put_end(CLOSE);
    else if (choice == 18 && one_in(2)) put_end(UNSUBSCRIBE);
    else if (one_in(4)) put_end(CUT), put_message_entry(until);
}

// Puts the lengths right of the entry that was made from `begin` on. A message's own length is put right too.
static void mend_entry(size_t begin) {
    if (taken < begin + 11) return;
    size_t behind = taken - begin;
    if (room[begin] == MESSAGE && behind >= 21) set_number(begin + 17, 4, behind - 21), mend_message(begin + 21);
    if (room[begin] == EDIT) set_number(begin + 1, 8, behind - 9);
    if (room[begin] == SUBSCRIBE) set_number(begin + 9, 1, behind - 10);
}

// A file of a history, whose head and whose entries are its pieces. A long one has some long policies and messages, or very many entries.
static void put_journal(void) {
    __builtin_memset(&history, 0, sizeof history);
    history.clock = 1699999000000;
    begin_messages(1);
    put_number(4, 0x49504d4a), put_number(2, 1), put_number(8, 0);
    int many = one_in(2), long_case = wanted > 1000;
    put_edit(long_case && one_in(2) ? between(100, wanted / 2) : 0);
    put_subscribe(), put_open(), put_subscribe();
    // The shortest entries take most memory for their length.
    if (long_case && one_in(6)) while (taken < wanted) put_advance();
    for (u64 count = below(8); count > 0 || (long_case && taken < wanted - 400); count -= count > 0) {
        if (taken > LONGEST - 400) break;
        put_some_entry(long_case && !many && one_in(2) ? taken + below(left()) : 0);
    }
    set_number(6, 8, length_or_other(history.entries));
}

static void make_decode(void) {
    odds_of_entries = one_in(2) ? 0 : 40;
    lengths_may_be_false = 1;
    put_journal();
    spoil(0, 6, octets_of_numbers);
}

static void make_verify(void) {
    odds_of_entries = one_in(3) ? 40 : 0;
    lengths_may_be_false = 0;
    put_journal();
    if (one_in(20)) spoil(14, 0, octets_of_numbers);
}
