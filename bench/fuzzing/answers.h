// What was answered: a count for each name. Accepted and refused, by what was found or by the fault.

enum { ACCEPTED, REFUSED, WRONG };
enum { MOST_NAMES = 64 };

static struct answer {
    u32 kind;
    const u8 *name;
    size_t length;
    u64 count;
} answers[MOST_NAMES];
static int answer_count;

static int is_of(const struct answer *answer, u32 kind, const u8 *name, size_t length) {
    return answer->kind == kind && answer->length == length && (answer->name == name || memcmp(answer->name, name, length) == 0);
}

// Counts an answer; 0 where there are too many names.
static int keep_answer(u32 kind, const u8 *name, size_t length) {
    int place = 0;
    while (place < answer_count && !is_of(&answers[place], kind, name, length)) place++;
    if (place == MOST_NAMES) return 0;
    if (place == answer_count) answers[answer_count++] = (struct answer){kind, name, length, 0};
    answers[place].count++;
    return 1;
}

static u64 answers_of(u32 kind) {
    u64 sum = 0;
    for (int i = 0; i < answer_count; i++)
        if (answers[i].kind == kind) sum += answers[i].count;
    return sum;
}

// The most frequent answer of a kind that was not taken before; it is taken then.
static struct answer *take_most_frequent(u32 kind) {
    struct answer *most = 0;
    for (int i = 0; i < answer_count; i++)
        if (answers[i].kind == kind && answers[i].count > (most ? most->count : 0)) most = &answers[i];
    return most;
}

// Prints the answers of a kind, the most frequent first. It leaves none of them.
static void print_answers(u32 kind, const char *word) {
    printf("  %s %lu", word, answers_of(kind));
    const char *parting = ": ";
    for (struct answer *next; (next = take_most_frequent(kind)); next->count = 0, parting = ", ")
        printf("%s%.*s %lu", parting, (int)next->length, next->name, next->count);
    printf("\n");
}
