// What the harness takes from the C library of x86-64 Linux, since the kit's clang comes without its headers.

struct time { long seconds, nanoseconds; };
struct timer { struct { long seconds, microseconds; } interval, value; };
struct signal_stack { void *base; int flags; size_t size; };
struct signal_action { void (*handler)(int); unsigned long mask[16]; int flags; void (*restorer)(void); };

enum { CLOCK_OF_THREAD = 3, TIMER_VIRTUAL = 1, ON_STACK = 0x08000000, RESTART = 0x10000000 };
enum { SIGINT = 2, SIGILL = 4, SIGTRAP = 5, SIGABRT = 6, SIGBUS = 7, SIGFPE = 8, SIGSEGV = 11, SIGTERM = 15, SIGVTALRM = 26 };

int clock_gettime(int, struct time *);
int setitimer(int, const struct timer *, struct timer *);
int sigaction(int, const struct signal_action *, struct signal_action *);
int sigaltstack(const struct signal_stack *, struct signal_stack *);
int printf(const char *, ...) __attribute__((format(printf, 1, 2)));
int fflush(void *);
long read(int, void *, size_t);
int strcmp(const char *, const char *);
int memcmp(const void *, const void *, size_t);
unsigned long strtoul(const char *, char **, int);
void _exit(int) __attribute__((noreturn));

// The allocator, under the names by which the functions of these names in harness.c reach it.
void *__libc_malloc(size_t);
void *__libc_calloc(size_t, size_t);
void *__libc_realloc(void *, size_t);
void __libc_free(void *);
size_t malloc_usable_size(void *);
