// What the makers of cases share: random numbers, the room in which a case is made, its pieces, and what spoils it.
// All that a case is made of comes from its seed.

typedef unsigned char u8;
typedef unsigned short u16;
typedef unsigned int u32;
typedef unsigned long u64;
typedef __SIZE_TYPE__ size_t;

// The longest case, in octets.
enum { LONGEST = 65536 };

// Random numbers (SplitMix64).
static u64 random_state;

static u64 random_number(void) {
    u64 x = random_state += 0x9e3779b97f4a7c15ul;
    x = (x ^ x >> 30) * 0xbf58476d1ce4e5b9ul;
    x = (x ^ x >> 27) * 0x94d049bb133111ebul;
    return x ^ x >> 31;
}

// A number below `count`, or 0 where that is 0.
static u64 below(u64 count) {
    return (u64)((unsigned __int128)random_number() * count >> 64);
}

static u64 between(u64 least, u64 most) {
    return least + below(most - least + 1);
}

static int one_in(u64 count) {
    return below(count) == 0;
}

// One of the elements of an array.
#define PICK(array) ((array)[below(sizeof(array) / sizeof *(array))])

// The room in which a case is made, how much of it is taken, and how much a long case should take; 0 for a case that is not long.
static u8 room[LONGEST];
static size_t taken, wanted;

static size_t left(void) {
    return taken < wanted ? wanted - taken : 0;
}

// Puts an octet behind the others. What has no room is dropped.
static void put(u64 octet) {
    if (taken < LONGEST) room[taken++] = (u8)octet;
}

// Puts a number, in network byte order.
static void put_number(int width, u64 number) {
    for (int i = width; i-- > 0;) put(i < 8 ? number >> 8 * i : 0);
}

// Writes a number over what stands at a place.
static void set_number(size_t place, int width, u64 number) {
    for (int i = 0; i < width; i++)
        if (place + i < taken) room[place + i] = (u8)(number >> 8 * (width - 1 - i));
}

static void put_random(u64 count) {
    while (count-- > 0) put(random_number() >> 40);
}

static void put_text(const char *text) {
    while (*text) put((u8)*text++);
}

static void put_decimal(u64 number) {
    if (number > 9) put_decimal(number / 10);
    put('0' + number % 10);
}

static void put_hexadecimal(u64 number) {
    if (number > 15) put_hexadecimal(number / 16);
    put((one_in(3) ? "0123456789ABCDEF" : "0123456789abcdef")[number % 16]);
}

// Where the pieces of the case end.
static size_t pieces[LONGEST];
static size_t piece_count;

// The piece ends here, if it has an octet.
static void end_piece(void) {
    if (taken > (piece_count ? pieces[piece_count - 1] : 0)) pieces[piece_count++] = taken;
}

// Numbers at which something often changes.
static u64 edge(void) {
    static const u64 edges[] = {
        0, 1, 2, 3, 4, 5, 7, 8, 9, 10, 15, 16, 17, 31, 32, 33, 127, 128, 129, 254, 255, 256, 257, 1000, 1024, 1025, 4095, 4096, 4097,
        10000, 32767, 32768, 65279, 65280, 65534, 65535, 65536, 86400, 86401, 999999, 1000000, 1000001, 2147483647, 2147483648,
        4294967295, 4294967296, 9223372036854775807ul, 9223372036854775808ul, 18446744073709551615ul,
    };
    u64 number = PICK(edges);
    return one_in(8) ? number + below(3) - 1 : number;
}

// A small number mostly, else one at an edge, else any.
static u64 some_number(void) {
    if (!one_in(4)) return below(6);
    return one_in(3) ? random_number() : edge();
}

// Makes room for `count` octets at a place, or as many as there is room for.
static void open_gap(size_t place, size_t count) {
    if (count > LONGEST - taken) count = LONGEST - taken;
    __builtin_memmove(room + place + count, room + place, taken - place);
    taken += count;
}

static void remove_octets(size_t place, size_t count) {
    if (count > taken - place) count = taken - place;
    __builtin_memmove(room + place, room + place + count, taken - place - count);
    taken -= count;
}

static const char octets_of_texts[] = " \n\t\r#*/.,:;0129afAF-_+\"'=[]{}\\\x7f";
static const char octets_of_numbers[] = "\x01\x02\x03\x04\x05\x07\x08\x0a\x0f\x10\x11\x7f\x80\xfe\xff";

// Spoils what was made from `begin` on, at one place: an octet, a number, a stretch of octets, or the end. Texts stay ASCII, mostly.
static void spoil_once(size_t begin, const char *octets_of_use) {
    size_t length = taken - begin;
    if (length == 0) return;
    size_t place = begin + below(length), other = begin + below(length), count = between(1, 12);
    u64 mask = octets_of_use == octets_of_texts && !one_in(10) ? 0x7f7f : 0xffff;
    if (count > taken - place) count = taken - place;
    if (count > taken - other) count = taken - other;
    switch (below(10)) {
    case 0: room[place] ^= (1 << below(8)) & mask; break;
    case 1: room[place] = (u8)(random_number() & mask); break;
    case 2: room[place] = (u8)octets_of_use[below(__builtin_strlen(octets_of_use))]; break;
    case 3: room[place] = (u8)((room[place] + (one_in(2) ? 1 : -1)) & mask); break;
    case 4: set_number(place, 2, (one_in(3) ? length + below(5) - 2 : edge()) & mask); break;
    case 5: remove_octets(place, count); break;
    case 6: open_gap(place, count); break; // the octets that stand there are doubled
    case 7: __builtin_memmove(room + place, room + other, count); break;
    case 8: taken = one_in(4) ? place : taken - below(length < 4 ? length : 4); break;
    case 9: put(octets_of_use[below(__builtin_strlen(octets_of_use))]); break;
    }
}

// Spoils what was made from `begin` on at one place to four, but in so many cases of ten not at all.
static void spoil(size_t begin, u64 whole_of_ten, const char *octets_of_use) {
    if (below(10) < whole_of_ten) return;
    for (u64 times = one_in(2) ? 1 : between(1, 4); times > 0; times--) spoil_once(begin, octets_of_use);
}
