// The memory of the program. Each of its allocations comes by here, and counts for the octets that it may use.

static u64 in_use, most_in_use;

// Counts memory that was handed out in the place of some that counted for so much.
static void *count_memory(void *memory, u64 given_back) {
    if (memory == 0) return 0;
    in_use += malloc_usable_size(memory);
    if (in_use > most_in_use) most_in_use = in_use;
    in_use -= given_back;
    return memory;
}

void *malloc(size_t size) {
    return count_memory(__libc_malloc(size), 0);
}

void *calloc(size_t count, size_t size) {
    return count_memory(__libc_calloc(count, size), 0);
}

// Both the old room and the new one count, since both may be there while the octets are moved.
void *realloc(void *old, size_t size) {
    u64 before = old ? malloc_usable_size(old) : 0;
    return count_memory(__libc_realloc(old, size), before);
}

void free(void *memory) {
    if (memory) in_use -= malloc_usable_size(memory);
    __libc_free(memory);
}
