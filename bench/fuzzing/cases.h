// Which case comes next, and how it is made.
//
// A case is named by one number to six, as 17 or 17.4.250: the first is the seed from which its target makes it, and by each of the
// others it is spoilt once more. A case that reached an edge of the code that none before it had reached is kept, by its name, and one
// case of three is one of those that were kept, spoilt. So a run finds its way into the code, and any case can be made again by its name.

enum { MOST_NUMBERS = 6, MOST_KEPT = 20000, LONGEST_KEPT = 4096 };
// A case is long where its seed is a multiple of this.
enum { SEEDS_TO_LONG = 2000 };

struct name {
    int count;
    u64 numbers[MOST_NUMBERS];
};

static const struct target {
    const char *name;
    // Makes a case, with its pieces.
    void (*make)(void);
    // Puts lengths right in the piece that begins there, where it has some.
    void (*mend)(size_t);
    const char *octets_of_use;
    // The memory that a case may take: so much, so many times its octets, and so many times more for each subscription.
    u64 memory, times, times_a_subscription;
} targets[] = {
    // In the order of `run_target`.
    {"items", make_items, mend_message, octets_of_numbers, 16384, 64, 0},
    // An intake has room for 65,536 octets.
    {"feed", make_feed, 0, octets_of_numbers, 81920, 64, 0},
    {"apply", make_apply, mend_message, octets_of_numbers, 16384, 64, 0},
    {"policy", make_policy, 0, octets_of_texts, 16384, 64, 0},
    {"calls", make_calls, 0, octets_of_texts, 16384, 64, 0},
    // The reader of TOML keeps a map for each table, and two octets may make one.
    {"settings", make_settings, 0, octets_of_texts, 16384, 768, 0},
    {"admin", make_admin, 0, octets_of_texts, 16384, 64, 0},
    {"decode", make_decode, mend_entry, octets_of_numbers, 16384, 64, 0},
    // The answer has an entry of 96 octets for each record and subscription, and an octet may make a record.
    {"verify", make_verify, mend_entry, octets_of_numbers, 16384, 64, 320},
};
enum { TARGETS = sizeof targets / sizeof *targets };

static u32 target;
static struct name case_name;
static struct name kept[MOST_KEPT];
static int kept_count;
static u64 next_seed, seed_step = 1, choice_state;

static u64 memory_allowed(void) {
    const struct target *this = &targets[target];
    return this->memory + (this->times + this->times_a_subscription * history.subs) * taken;
}

static void print_name(const struct name *name) {
    for (int i = 0; i < name->count; i++) printf("%s%lu", i ? "." : "", name->numbers[i]);
}

static struct name name_of(const char *word) {
    struct name name = {0, {0}};
    char *end = (char *)word;
    do name.numbers[name.count++] = strtoul(word, &end, 10), word = end + 1;
    while (*end == '.' && name.count < MOST_NUMBERS);
    return name;
}

// Leaves out the pieces that have no octet any more, and what lies behind the end.
static void mend_pieces(void) {
    size_t count = piece_count;
    piece_count = 0;
    for (size_t i = 0; i < count; i++) {
        size_t end = pieces[i] < taken ? pieces[i] : taken;
        if (end > (piece_count ? pieces[piece_count - 1] : 0)) pieces[piece_count++] = end;
    }
}

// Spoils the case within one of its pieces; the others stay as they are. Mostly its lengths are right again then.
static void spoil_case(void) {
    static u8 behind[LONGEST];
    if (piece_count == 0) return;
    size_t piece = below(piece_count), begin = piece ? pieces[piece - 1] : 0, end = pieces[piece], rest = taken - end;
    __builtin_memcpy(behind, room + end, rest);
    taken = end;
    for (u64 times = one_in(3) ? between(1, 4) : 1; times > 0; times--) spoil_once(begin, targets[target].octets_of_use);
    if (targets[target].mend && !one_in(4)) targets[target].mend(begin);
    for (size_t i = piece; i < piece_count; i++) pieces[i] = pieces[i] + taken - end;
    for (size_t i = 0; i < rest; i++) put(behind[i]);
    mend_pieces();
}

// How long a long case is to be: of each power of two from 1 to 64 KiB alike.
static size_t some_length(void) {
    size_t length = (size_t)1024 << below(6);
    length += below(length);
    return length < LONGEST - 600 ? length : LONGEST - 600;
}

// Makes the case of a name.
static void make_case(const struct name *name) {
    random_state = name->numbers[0] * 0x2545f4914f6cdd1dul + target;
    taken = piece_count = 0;
    wanted = name->numbers[0] % SEEDS_TO_LONG == 0 ? some_length() : 0;
    targets[target].make();
    end_piece();
    mend_pieces();
    for (int i = 1; i < name->count; i++) {
        random_state = name->numbers[i];
        spoil_case();
    }
}

// The name of the next case.
static struct name choose_case(void) {
    random_state = choice_state;
    struct name name = {1, {next_seed}};
    if (kept_count > 0 && one_in(3)) {
        name = kept[below(kept_count)];
        name.numbers[name.count++] = below(1000000);
    } else {
        next_seed += seed_step;
    }
    choice_state = random_state;
    return name;
}

// Keeps a case that led further than those before it, unless it is long or was spoilt too often.
static void keep_case(void) {
    if (kept_count < MOST_KEPT && taken <= LONGEST_KEPT && case_name.count < MOST_NUMBERS) kept[kept_count++] = case_name;
}
