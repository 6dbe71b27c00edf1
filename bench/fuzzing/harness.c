// The harness of the fuzzer. It makes cases, hands each to the program in targets.rattle, counts what is answered, and measures the
// time and the memory that a case takes. It ends, and names the case, where one is answered wrongly, stops the program, takes too long
// or too much memory, or leaves memory that is not given back.
//
//   fuzz TARGET SEED CASES [STEP]   makes so many cases, with this seed, and further ones by this step
//   fuzz TARGET NAME                makes one case, shows it, and says how each of its pieces is answered
//   fuzz TARGET -                   the same with the octets of standard input, in one piece
#include "making.h"
#include "system.h"
#include "messages.h"
#include "policies.h"
#include "journals.h"
#include "lines.h"
#include "cases.h"
#include "answers.h"
#include "memory.h"
#include "edges.h"

// No case may take longer, in nanoseconds of the processor's time.
static const u64 most_nanoseconds = 1000000000;
static u64 cases_wanted, cases_done, octets_made;
static int shows_case, reads_case;
// Whether the harness was told to end: it reports what it has done by then.
static volatile int told_to_end;

// Whether a case is under way, when it began, what memory was in use then, and how many of its pieces were handed out.
static int under_way;
static u64 case_begin, in_use_before;
static size_t pieces_taken;

// The greatest of some measure, and the case that had it.
static struct greatest {
    u64 amount;
    size_t length;
    struct name name;
} longest, hungriest, greediest, furthest; // the last: how many cases there were when the last new edge was reached

// The nanoseconds of the processor that the program has had.
static u64 now(void) {
    struct time t;
    clock_gettime(CLOCK_OF_THREAD, &t);
    return (u64)t.seconds * 1000000000 + (u64)t.nanoseconds;
}

// Ends: the case that is under way is wrong.
static void fail(const char *why) {
    const char *name = targets[target].name;
    printf("FAILED %s: %s. The case has %lu octets, and took %lu octets of memory; to make it again: bench/fuzz %s ", name, why, taken,
           most_in_use - in_use_before, name);
    print_name(&case_name);
    printf("\n");
    fflush(0);
    _exit(1);
}

static void on_signal(int number) {
    static u64 seen = ~0ul;
    if (number == SIGINT || number == SIGTERM) {
        told_to_end = 1;
        return;
    }
    if (number == SIGILL || number == SIGTRAP) fail("a trap");
    if (number == SIGSEGV) fail("a bad address, or no stack left");
    if (number != SIGVTALRM) fail("a signal");
    // The program has used two seconds since the last such signal, and is at the same case still.
    if (seen == cases_done) fail(under_way ? "no answer within two seconds" : "a case that can't be made");
    seen = cases_done;
}

static void watch(void) {
    static u8 stack[65536];
    static const int numbers[] = {SIGILL, SIGTRAP, SIGABRT, SIGBUS, SIGFPE, SIGSEGV, SIGVTALRM, SIGINT, SIGTERM};
    sigaltstack(&(struct signal_stack){stack, 0, sizeof stack}, 0);
    for (size_t i = 0; i < sizeof numbers / sizeof *numbers; i++)
        sigaction(numbers[i], &(struct signal_action){.handler = on_signal, .flags = ON_STACK | RESTART}, 0);
    setitimer(TIMER_VIRTUAL, &(struct timer){{2, 0}, {2, 0}}, 0);
}

static void refuse_words(void) {
    printf("usage: fuzz TARGET SEED CASES [STEP], fuzz TARGET NAME, or fuzz TARGET -. The targets:");
    for (int i = 0; i < TARGETS; i++) printf(" %s", targets[i].name);
    printf("\n");
    fflush(0);
    _exit(2);
}

// Reads the words of the command line, which the loader hands to each such function.
__attribute__((constructor)) static void begin(int count, char **words) {
    while (count > 2 && target < TARGETS && strcmp(words[1], targets[target].name)) target++;
    if (count < 3 || count > 5 || target == TARGETS) refuse_words();
    shows_case = count == 3;
    reads_case = shows_case && strcmp(words[2], "-") == 0;
    case_name = name_of(words[2]);
    next_seed = choice_state = case_name.numbers[0];
    cases_wanted = shows_case ? 1 : strtoul(words[3], 0, 10);
    if (count == 5) seed_step = strtoul(words[4], 0, 10);
    watch();
}

static void read_case(void) {
    for (long count = 1; count > 0; taken += (size_t)count) count = read(0, room + taken, LONGEST - taken);
    end_piece();
}

static void show_case(void) {
    printf("%s ", targets[target].name);
    print_name(&case_name);
    printf(": a case of %lu octets, %lu pieces", taken, piece_count);
    for (size_t i = 0; i < taken; i++) printf("%s%02x", i % 32 ? "" : "\n", room[i]);
    printf("\n");
    fflush(0);
}

static void keep_greatest(struct greatest *greatest, u64 amount) {
    if (amount > greatest->amount) *greatest = (struct greatest){amount, taken, case_name};
}

// Takes the measure of the case that was answered.
static void end_case(void) {
    u64 spent = now() - case_begin, memory = most_in_use - in_use_before;
    under_way = 0;
    if (in_use != in_use_before) fail("memory that is not given back");
    if (memory > memory_allowed() && !reads_case) fail("too much memory");
    if (spent > most_nanoseconds) fail("no answer within a second");
    keep_greatest(&longest, spent);
    keep_greatest(&hungriest, memory);
    if (taken >= 1024) keep_greatest(&greediest, 100 * memory / taken);
    octets_made += taken;
    cases_done++;
    if (has_new_edge()) {
        keep_case();
        furthest = (struct greatest){cases_done, taken, case_name};
    }
}

static void begin_case(void) {
    pieces_taken = 0;
    in_use_before = most_in_use = in_use;
    under_way = 1;
    case_begin = now();
}

static void print_case(const char *before, const struct greatest *greatest) {
    printf("%s a case of %lu octets, ", before, greatest->length);
    print_name(&greatest->name);
    printf("\n");
}

static void report(void) {
    double seconds = (double)now() / 1e9, cases = (double)(cases_done ? cases_done : 1);
    printf("%s: %lu cases, seeds up to %lu, in %.1f s of a processor: %.2f us and %.0f octets each\n", targets[target].name, cases_done,
           next_seed - seed_step, seconds, seconds * 1e6 / cases, (double)octets_made / cases);
    print_answers(ACCEPTED, "accepted");
    print_answers(REFUSED, "refused ");
    printf("  longest  %.3f ms", (double)longest.amount / 1e6), print_case(" for", &longest);
    printf("  memory   %lu octets", hungriest.amount), print_case(" for", &hungriest);
    if (greediest.amount) printf("           %.1f times the octets", (double)greediest.amount / 100), print_case(" of", &greediest);
    printf("  edges    %lu were reached, the last of them by case %lu; %d cases were kept\n", edges_reached, furthest.amount, kept_count);
    fflush(0);
}

// Says of a single case what it took.
static void report_case(void) {
    printf("%.3f ms, %lu octets of memory, %lu edges\n", (double)longest.amount / 1e6, hungriest.amount, edges_reached);
    fflush(0);
}

// What the program in targets.rattle calls.

u32 chosen_target(void) {
    return target;
}

size_t next_case(u8 *input, size_t length) {
    if (under_way) end_case();
    if (cases_done == cases_wanted || told_to_end) return shows_case ? report_case() : report(), length + 1;
    if (!shows_case) case_name = choose_case();
    if (reads_case) read_case();
    else make_case(&case_name);
    __builtin_memcpy(input, room, taken);
    if (shows_case) show_case();
    begin_case();
    return taken;
}

size_t next_piece(void) {
    return pieces_taken < piece_count ? pieces[pieces_taken++] : 0;
}

void count_answer(u32 kind, const u8 *name, size_t length) {
    static char why[200];
    if (kind == WRONG) {
        __builtin_memcpy(why, name, length < 199 ? length : 199);
        fail(why);
    }
    if (shows_case) printf("%s: %.*s\n", kind == ACCEPTED ? "accepted" : "refused", (int)length, name);
    if (!keep_answer(kind, name, length)) fail("too many names of answers");
}
