/* The allocator of the program of this folder: it counts the requests for memory that are made while it is told to, and refuses one of
 * them. It stands before the C library's, whose own is behind other names. */

extern void *__libc_malloc(unsigned long size);
extern void *__libc_realloc(void *old, unsigned long size);
extern long write(int file, const void *octets, unsigned long count);
extern void (*signal(int number, void (*handler)(int)))(int);
extern void _exit(int status);

enum { ILLEGAL_INSTRUCTION = 4, SEGMENT_VIOLATION = 11, TRAPPED = 132 };

static unsigned long refused, made;
static int counts;
static const unsigned char *name;
static unsigned long name_length;

/* Says in which call the program trapped, as it does at an index out of range. */
static void trap(int number) {
    (void)number;
    write(2, "FAULT trapped in ", 17);
    write(2, name, name_length);
    write(2, "\n", 1);
    _exit(TRAPPED);
}

/* The call of this name is tried from here on. */
void name_call(const unsigned char *octets, unsigned long length) {
    name = octets;
    name_length = length;
    signal(ILLEGAL_INSTRUCTION, trap);
    signal(SEGMENT_VIOLATION, trap);
}

/* The next call is refused its request of this number, from 1 on; where it is 0, none. */
void refuse_request(unsigned long number) {
    refused = number;
    made = 0;
}

/* The call begins. */
void count_requests(void) { counts = 1; }

/* The call has ended. */
void stop_counting(void) { counts = 0; }

/* How many requests it made. */
unsigned long requests_made(void) { return made; }

static int refuses(void) { return counts && ++made == refused; }

void *malloc(unsigned long size) { return refuses() ? 0 : __libc_malloc(size); }

void *realloc(void *old, unsigned long size) { return refuses() ? 0 : __libc_realloc(old, size); }
