// Which edges of the program's code were reached: the kit's clang keeps an octet for each, which is 1 once it was.

static u8 *edges, *edges_end;
static u64 edges_reached;

// Called once by what the clang adds to the program.
void __sanitizer_cov_bool_flag_init(u8 *begin, u8 *end) {
    edges = begin, edges_end = end;
}

// How many octets of 1 are among so many words of octets that are 0 or 1; at most 255 words.
static u64 ones_in(const u8 *at, size_t words) {
    u64 sums = 0, word;
    for (size_t i = 0; i < words; i++) {
        __builtin_memcpy(&word, at + 8 * i, 8);
        sums += word;
    }
    sums = (sums & 0x00ff00ff00ff00ff) + (sums >> 8 & 0x00ff00ff00ff00ff);
    return sums * 0x0001000100010001 >> 48;
}

// Whether an edge was reached since the last question that was never reached before.
static int has_new_edge(void) {
    u64 sum = 0;
    const u8 *at = edges;
    for (size_t words; (words = (size_t)(edges_end - at) / 8) > 0; at += 8 * words) {
        if (words > 255) words = 255;
        sum += ones_in(at, words);
    }
    for (; at < edges_end; at++) sum += *at;
    int is_new = sum > edges_reached;
    edges_reached = sum;
    return is_new;
}
