// The exporters and collectors of `bench/serve`, which compiles this file:
//
//     peers STREAM EXPORTERS COLLECTORS WANTED SAMPLE OFFSET
//
// Each exporter is a thread that sends the octets of the file STREAM from memory by one call. Each
// collector is a thread that reads many octets at a time into one buffer, and looks at the headers
// of messages and sets alone: it counts records, and sees that each message's sequence number is
// the count of the records before it. It has everything when it has WANTED records.
//
// 1. It prints the ports that the collectors listen on.
// 2. It reads a line, "PORT PROCESS": where the server takes exporters, and its process. It
//    connects the exporters, and waits until the server has connected to each collector.
// 3. It sends. When all collectors have everything, or no more comes for them, it prints a line:
//    the seconds from the first send until then; the processor seconds of the server in that time,
//    and its own; the records that all collectors have; the fewest of one collector; the messages
//    with a wrong sequence number; and of the lock what stands below.
// 4. It reads another line, ends the exporters' connections, reads what the collectors still get,
//    and ends.
//
// The lock: with SAMPLE above 0 a thread looks at the lock's word in the server's memory every so
// many microseconds. The word is 1 or 4 where nobody has the lock, 0 where somebody has it, and 2
// or 3 where somebody has it and another may sleep for it. Which word it is shows by the system's
// calls of the server's threads: before the first send the deliveries sleep on condition variables
// that are near each other, and later those that find the lock taken sleep on the lock, which is
// near them. OFFSET is how far the lock lies from the first of the condition variables, as an
// earlier run of the same program printed it, or 0. Printed are that offset, the number of samples,
// and those in which the lock was taken, and in which another might sleep for it; all 0 where the
// lock isn't found. This needs Linux on x86-64 and the right to read another process's memory.
#define _POSIX_C_SOURCE 200809L
#include <arpa/inet.h>
#include <dirent.h>
#include <errno.h>
#include <fcntl.h>
#include <netinet/in.h>
#include <poll.h>
#include <pthread.h>
#include <stdbool.h>
#include <stdint.h>
#include <stdio.h>
#include <stdlib.h>
#include <string.h>
#include <sys/socket.h>
#include <sys/stat.h>
#include <time.h>
#include <unistd.h>

enum {
    BUFFER = 1 << 20,
    // A collector is woken for so many octets at once.
    AT_ONCE = 64 << 10,
    RECEIVE_BUFFER = 4 << 20,
    // The lock's word lies at most so many words before the first condition variable, or behind it.
    NEAR = 1024,
    MOST_PEERS = 64,
    MOST_TASKS = 256,
    // The system's call by which a thread sleeps on a word, and how the program's locks use it. Who
    // waits for a thread's end does it otherwise.
    FUTEX = 202,
    WAIT_PRIVATE = 0x80,
    // Nothing here takes so many seconds.
    SECONDS = 120,
};

struct collector {
    int listener, stream;
    uint64_t records, wrong;
    double ended;
    // Of each template, the octets of its records; and the fewest of a template.
    uint16_t lengths[1 << 16];
    unsigned shortest;
    unsigned char buffer[BUFFER];
};

// In how many samples a word was that of a lock that is taken, or slept for, or never that of a
// lock; and how often a thread slept on it.
struct word {
    uint64_t taken, slept_for, never, votes;
};

struct sampler {
    pid_t process;
    int memory, tasks[MOST_TASKS];
    size_t task_count;
    uint64_t condition, samples, micros;
    int64_t offset;
    struct word words[2 * NEAR];
};

static const unsigned char *stream_octets;
static size_t stream_length;
static uint64_t wanted;
static struct collector *collectors[MOST_PEERS];
static int exporters[MOST_PEERS];
static struct sampler sampler;
static pthread_mutex_t lock = PTHREAD_MUTEX_INITIALIZER;
static pthread_cond_t moved = PTHREAD_COND_INITIALIZER;
static bool go;
// How many collectors are connected, and how many have everything.
static int connected, complete;

static void fail(const char *what) {
    fprintf(stderr, "peers: %s: %s\n", what, strerror(errno));
    exit(1);
}

static double seconds_of(clockid_t clock) {
    struct timespec now;
    if (clock_gettime(clock, &now) != 0) fail("clock");
    return (double)now.tv_sec + (double)now.tv_nsec / 1e9;
}

static unsigned two(const unsigned char *octets) { return (unsigned)octets[0] << 8 | octets[1]; }

static uint32_t four(const unsigned char *octets) {
    return (uint32_t)two(octets) << 16 | two(octets + 2);
}

static void read_stream(const char *path) {
    struct stat about;
    int file = open(path, O_RDONLY);
    if (file < 0 || fstat(file, &about) != 0) fail(path);
    stream_length = (size_t)about.st_size;
    unsigned char *octets = malloc(stream_length);
    if (octets == NULL) fail("memory");
    for (size_t at = 0; at < stream_length;) {
        ssize_t count = read(file, octets + at, stream_length - at);
        if (count <= 0) fail(path);
        at += (size_t)count;
    }
    close(file);
    stream_octets = octets;
}

static struct sockaddr_in loopback(unsigned port) {
    struct sockaddr_in address = {.sin_family = AF_INET, .sin_port = htons((uint16_t)port)};
    address.sin_addr.s_addr = htonl(INADDR_LOOPBACK);
    return address;
}

// Adds one to a count that the main thread waits for.
static void count_one(int *count) {
    pthread_mutex_lock(&lock);
    *count += 1;
    pthread_cond_broadcast(&moved);
    pthread_mutex_unlock(&lock);
}

static void wait_for(const int *count, int all) {
    pthread_mutex_lock(&lock);
    while (*count < all) pthread_cond_wait(&moved, &lock);
    pthread_mutex_unlock(&lock);
}

static void wait_to_go(void) {
    pthread_mutex_lock(&lock);
    while (!go) pthread_cond_wait(&moved, &lock);
    pthread_mutex_unlock(&lock);
}

// An exporter: sends the stream.
static void *export_stream(void *given) {
    int stream = *(int *)given;
    wait_to_go();
    for (size_t at = 0; at < stream_length;) {
        ssize_t count = send(stream, stream_octets + at, stream_length - at, MSG_NOSIGNAL);
        if (count < 0) fail("an exporter's connection");
        at += (size_t)count;
    }
    return NULL;
}

// Learns how long the records of a set of templates are.
static void learn(struct collector *it, const unsigned char *set, unsigned length) {
    for (unsigned at = 4; at + 4 <= length;) {
        unsigned template = two(set + at), fields = two(set + at + 2), sum = 0;
        at += 4;
        for (; fields > 0 && at + 4 <= length; fields -= 1) {
            sum += two(set + at + 2);
            at += set[at] & 0x80 ? 8 : 4;
        }
        it->lengths[template] = (uint16_t)sum;
        if (sum > 0 && (it->shortest == 0 || sum < it->shortest)) it->shortest = sum;
    }
}

// Counts the records of a message.
static void take_message(struct collector *it, const unsigned char *message, unsigned length) {
    it->wrong += four(message + 8) != (uint32_t)it->records;
    for (unsigned at = 16; at + 4 <= length;) {
        unsigned set = two(message + at), octets = two(message + at + 2);
        if (octets < 4 || octets > length - at) {
            it->wrong += 1;
            return;
        }
        if (set == 2) learn(it, message + at, octets);
        if (set >= 256 && it->lengths[set] > 0) it->records += (octets - 4) / it->lengths[set];
        at += octets;
    }
}

// Takes the whole messages that the buffer has, and answers their octets.
static size_t take_messages(struct collector *it, size_t held) {
    size_t at = 0;
    while (held - at >= 16) {
        unsigned length = two(it->buffer + at + 2);
        if (length < 16) {
            it->wrong += 1;
            return held;
        }
        if (held - at < length) break;
        take_message(it, it->buffer + at, length);
        at += length;
    }
    return at;
}

// Asks to be woken for as many octets as surely come: those of the records that aren't here yet,
// but not more than AT_ONCE.
static void wake_late(struct collector *it, int *asked, size_t begun) {
    uint64_t missing = wanted > it->records ? (wanted - it->records) * it->shortest : 0;
    int least = missing > AT_ONCE + begun ? AT_ONCE : missing > begun ? (int)(missing - begun) : 1;
    if (least != *asked) setsockopt(it->stream, SOL_SOCKET, SO_RCVLOWAT, &least, sizeof least);
    *asked = least;
}

// Waits for what comes, and reads it behind what was begun: so many octets, or none at the end. It
// waits before it reads, since a read that has a part is woken for AT_ONCE octets more, which may
// never come.
static size_t read_more(struct collector *it, size_t begun) {
    struct pollfd wanting = {.fd = it->stream, .events = POLLIN};
    for (;;) {
        poll(&wanting, 1, -1);
        ssize_t count = recv(it->stream, it->buffer + begun, BUFFER - begun, MSG_DONTWAIT);
        if (count >= 0) return (size_t)count;
        if (errno != EAGAIN && errno != EINTR) return 0;
    }
}

// A collector: reads to the end of its stream.
static void *collect(void *given) {
    struct collector *it = given;
    size_t begun = 0;
    int asked = 1;
    it->stream = accept(it->listener, NULL, NULL);
    if (it->stream < 0) fail("accept");
    count_one(&connected);
    for (;;) {
        size_t count = read_more(it, begun);
        if (count == 0) break;
        size_t held = begun + count, taken = take_messages(it, held);
        begun = held - taken;
        memmove(it->buffer, it->buffer + taken, begun);
        if (it->ended == 0 && it->records >= wanted) {
            it->ended = seconds_of(CLOCK_MONOTONIC);
            count_one(&complete);
        }
        wake_late(it, &asked, begun);
    }
    if (it->ended == 0) {
        it->ended = seconds_of(CLOCK_MONOTONIC);
        count_one(&complete);
    }
    return NULL;
}

static pthread_t start(void *(*what)(void *), void *given) {
    pthread_t thread;
    if (pthread_create(&thread, NULL, what, given) != 0) fail("thread");
    return thread;
}

// Makes a collector, and answers its port.
static unsigned listen_at(struct collector *it) {
    struct sockaddr_in address = loopback(0);
    socklen_t size = sizeof address;
    int octets = RECEIVE_BUFFER;
    it->listener = socket(AF_INET, SOCK_STREAM, 0);
    if (it->listener < 0) fail("socket");
    setsockopt(it->listener, SOL_SOCKET, SO_RCVBUF, &octets, sizeof octets);
    if (bind(it->listener, (struct sockaddr *)&address, size) != 0 || listen(it->listener, 1) != 0)
        fail("listen");
    if (getsockname(it->listener, (struct sockaddr *)&address, &size) != 0) fail("name");
    return ntohs(address.sin_port);
}

static int connect_to(unsigned port) {
    struct sockaddr_in address = loopback(port);
    int stream = socket(AF_INET, SOCK_STREAM, 0);
    if (stream < 0 || connect(stream, (struct sockaddr *)&address, sizeof address) != 0)
        fail("connect");
    return stream;
}

// The address on which a thread of the server sleeps, or 0.
static uint64_t sleeps_on(int task) {
    char text[256];
    int call;
    unsigned long long address, how;
    ssize_t count = pread(task, text, sizeof text - 1, 0);
    if (count <= 0) return 0;
    text[count] = 0;
    if (sscanf(text, "%d %llx %llx", &call, &address, &how) != 3 || call != FUTEX ||
        how != WAIT_PRIVATE)
        return 0;
    return address;
}

// Opens what the system tells of the calls of each of the server's threads.
static void open_tasks(void) {
    char path[512];
    snprintf(path, sizeof path, "/proc/%ld/task", (long)sampler.process);
    DIR *tasks = opendir(path);
    if (tasks == NULL) return;
    for (struct dirent *entry;
         (entry = readdir(tasks)) != NULL && sampler.task_count < MOST_TASKS;) {
        if (entry->d_name[0] == '.') continue;
        snprintf(path, sizeof path, "/proc/%ld/task/%s/syscall", (long)sampler.process,
                 entry->d_name);
        int task = open(path, O_RDONLY);
        if (task >= 0) sampler.tasks[sampler.task_count++] = task;
    }
    closedir(tasks);
}

// Whether two addresses on which threads sleep may be those of one server's deliveries.
static bool are_near(uint64_t one, uint64_t other) {
    return (one > other ? one - other : other - one) < NEAR * 4;
}

// Finds the first of the deliveries' condition variables: the lowest of the addresses, near each
// other, on which most of the server's threads sleep.
static void find_condition(void) {
    uint64_t found[MOST_TASKS];
    size_t most = 0;
    for (size_t n = 0; n < sampler.task_count; n += 1) found[n] = sleeps_on(sampler.tasks[n]);
    for (size_t n = 0; n < sampler.task_count; n += 1) {
        size_t near = 0;
        for (size_t other = 0; other < sampler.task_count; other += 1)
            near += found[other] != 0 && are_near(found[other], found[n]);
        if (found[n] == 0 || near < most) continue;
        if (near > most || found[n] < sampler.condition) sampler.condition = found[n];
        most = near;
    }
}

static void begin_samples(void) {
    char path[64];
    snprintf(path, sizeof path, "/proc/%ld/mem", (long)sampler.process);
    sampler.memory = open(path, O_RDONLY);
    open_tasks();
    find_condition();
    if (sampler.memory < 0 || sampler.condition == 0) sampler.micros = 0;
}

// Looks at what one thread sleeps on, in turn: that may be the lock.
static void vote(void) {
    uint64_t slept_on = sleeps_on(sampler.tasks[sampler.samples % sampler.task_count]);
    uint64_t place = (slept_on - (sampler.condition - NEAR * 8)) / 8;
    if (slept_on != 0 && slept_on != sampler.condition && place < 2 * NEAR)
        sampler.words[place].votes += 1;
}

// Looks once at the lock's word, or at each word that may be it.
static void sample(void) {
    static uint64_t seen[2 * NEAR];
    size_t first = sampler.offset == 0 ? 0 : (size_t)(NEAR + sampler.offset / 8);
    size_t count = sampler.offset == 0 ? 2 * NEAR : 1;
    uint64_t address = sampler.condition - NEAR * 8 + first * 8;
    if (pread(sampler.memory, seen, count * 8, (off_t)address) != (ssize_t)(count * 8)) return;
    for (size_t n = 0; n < count; n += 1) {
        struct word *word = &sampler.words[first + n];
        word->taken += seen[n] == 0 || seen[n] == 2 || seen[n] == 3;
        word->slept_for += seen[n] == 2 || seen[n] == 3;
        word->never += seen[n] > 4;
    }
    if (sampler.offset == 0) vote();
    sampler.samples += 1;
}

static void *take_samples(void *given) {
    (void)given;
    struct timespec pause = {.tv_nsec = (long)sampler.micros * 1000};
    wait_to_go();
    for (;;) {
        pthread_mutex_lock(&lock);
        bool going = go;
        pthread_mutex_unlock(&lock);
        if (!going) return NULL;
        sample();
        nanosleep(&pause, NULL);
    }
}

// Prints what is known of the lock.
static void print_lock(void) {
    size_t best = (size_t)(NEAR + sampler.offset / 8);
    if (sampler.offset == 0) {
        for (size_t n = 0; n < 2 * NEAR; n += 1) {
            const struct word *word = &sampler.words[n];
            if (word->never == 0 && word->votes > sampler.words[best].votes) best = n;
        }
    }
    const struct word *word = &sampler.words[best];
    if (best == NEAR || word->never > 0) {
        printf(" 0 0 0 0\n");
    } else {
        printf(" %ld %llu %llu %llu\n", ((long)best - NEAR) * 8,
               (unsigned long long)sampler.samples, (unsigned long long)word->taken,
               (unsigned long long)word->slept_for);
    }
}

static void let_go(bool value) {
    pthread_mutex_lock(&lock);
    go = value;
    pthread_cond_broadcast(&moved);
    pthread_mutex_unlock(&lock);
}

// Prints what was measured of a run that began then.
static void print_run(double begin, double server, double own, int collector_count) {
    double ended = begin;
    uint64_t records = 0, fewest = UINT64_MAX, wrong = 0;
    for (int n = 0; n < collector_count; n += 1) {
        if (collectors[n]->ended > ended) ended = collectors[n]->ended;
        if (collectors[n]->records < fewest) fewest = collectors[n]->records;
        records += collectors[n]->records;
        wrong += collectors[n]->wrong;
    }
    printf("%.6f %.6f %.6f %llu %llu %llu", ended - begin, server, own, (unsigned long long)records,
           (unsigned long long)fewest, (unsigned long long)wrong);
    print_lock();
    fflush(stdout);
}

// Sends all, waits until all have come, and prints what was measured.
static void measure(int exporter_count, int collector_count) {
    clockid_t servers;
    pthread_t sampling = pthread_self();
    // The server's threads are there, and sleep, when the samples begin.
    struct timespec settle = {.tv_nsec = 50000000};
    if (clock_getcpuclockid(sampler.process, &servers) != 0) fail("the server's clock");
    for (int n = 0; n < exporter_count; n += 1) start(export_stream, &exporters[n]);
    nanosleep(&settle, NULL);
    if (sampler.micros > 0) begin_samples();
    if (sampler.micros > 0) sampling = start(take_samples, NULL);
    double own = seconds_of(CLOCK_PROCESS_CPUTIME_ID), server = seconds_of(servers),
           begin = seconds_of(CLOCK_MONOTONIC);
    let_go(true);
    wait_for(&complete, collector_count);
    server = seconds_of(servers) - server;
    own = seconds_of(CLOCK_PROCESS_CPUTIME_ID) - own;
    let_go(false);
    if (sampler.micros > 0) pthread_join(sampling, NULL);
    print_run(begin, server, own, collector_count);
}

int main(int count, char **words) {
    char line[128];
    pthread_t collecting[MOST_PEERS];
    unsigned port;
    long process;
    if (count != 7) return 2;
    int exporter_count = atoi(words[2]), collector_count = atoi(words[3]);
    if (exporter_count < 1 || exporter_count > MOST_PEERS || collector_count < 1 ||
        collector_count > MOST_PEERS)
        return 2;
    read_stream(words[1]);
    wanted = strtoull(words[4], NULL, 10);
    sampler.micros = strtoull(words[5], NULL, 10);
    sampler.offset = strtoll(words[6], NULL, 10);
    alarm(SECONDS);
    for (int n = 0; n < collector_count; n += 1) {
        if ((collectors[n] = calloc(1, sizeof **collectors)) == NULL) fail("memory");
        printf("%u ", listen_at(collectors[n]));
        collecting[n] = start(collect, collectors[n]);
    }
    printf("\n");
    fflush(stdout);
    if (fgets(line, sizeof line, stdin) == NULL || sscanf(line, "%u %ld", &port, &process) != 2)
        return 2;
    sampler.process = (pid_t)process;
    for (int n = 0; n < exporter_count; n += 1) exporters[n] = connect_to(port);
    wait_for(&connected, collector_count);
    measure(exporter_count, collector_count);
    if (fgets(line, sizeof line, stdin) == NULL) return 2;
    for (int n = 0; n < exporter_count; n += 1) close(exporters[n]);
    for (int n = 0; n < collector_count; n += 1) pthread_join(collecting[n], NULL);
    return 0;
}
