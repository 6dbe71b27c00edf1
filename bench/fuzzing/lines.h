// Makes lists of calls, lines of the admin connection, and settings of `serve`.

// A number in a range, which is mostly among the first few.
static u64 number_in(u64 least, u64 most) {
    u64 few = most - least < 4 ? most - least : 4;
    return least + below(one_in(3) ? most - least : few + 1);
}

// A number in a line: one that fits, mostly.
static void put_count(u64 least, u64 most) {
    if (!one_in(50)) return put_decimal(number_in(least, most));
    put_text(one_in(6) ? PICK(other_words) : "");
    put_decimal(one_in(2) ? edge() : random_number());
}

static void put_name(void) {
    put_text(one_in(12) ? PICK(other_words) : PICK(names));
}

// The octets of a message in hexadecimal: they are made behind the others, and then each becomes two digits.
static void put_message_digits(size_t until) {
    size_t begin = taken;
    if (begin + 40000 > LONGEST) return;
    put_message(below(2), until > 1000 ? begin + until / 2 : 0);
    if (one_in(10)) spoil(begin, 5, octets_of_numbers);
    size_t count = taken - begin;
    if (begin + 2 * count > LONGEST) count = (LONGEST - begin) / 2;
    const char *digits = one_in(4) ? "0123456789ABCDEF" : "0123456789abcdef";
    for (size_t i = count; i-- > 0;) {
        u8 octet = room[begin + i];
        room[begin + 2 * i] = (u8)digits[octet >> 4];
        room[begin + 2 * i + 1] = (u8)digits[octet & 15];
    }
    taken = begin + 2 * count;
}

static void put_call(size_t until) {
    switch (below(14)) {
    case 0: put_text("open"); break;
    case 1: put_text("close "), put_count(0, 5); break;
    case 2: case 3: case 4:
        put_text("receive "), put_count(0, 5), put(' '), put_count(0, 100), put(' '), put_message_digits(until);
        break;
    case 5: put_text("edit "), put_policy(below(4), 0, one_in(2), ';'); break;
    case 6: put_text("subscribe "), put_name(); break;
    case 7: put_text("unsubscribe "), put_count(0, 5); break;
    case 8: put_text("advance "), put_count(0, 18446744073709551615ul); break;
    case 9: case 10: put_text("pull "), put_count(0, 5), put(' '), put_count(0, 4294967295), put(' '), put_count(0, 65535); break;
    case 11: put_text("status "), put_count(0, 5); break;
    case 12: put_text("audit "), put_count(0, 4294967295); break;
    case 13: put_text(one_in(2) ? "" : "# "), put_text(one_in(30) ? PICK(other_words) : ""); break;
    }
}

static void make_calls(void) {
    begin_messages(0);
    int long_case = wanted > 1000;
    if (one_in(3)) {
        put_text("limits ");
        for (int i = 0; i < 5; i++) put_count(1, 1000), put_text(i < 4 ? " " : "\n");
    }
    // The shortest calls take most memory for their length.
    if (long_case && one_in(4)) while (taken < wanted) put_text("open\n");
    for (u64 count = below(8); count > 0 || (long_case && taken < wanted - 400); count -= count > 0) {
        if (taken > LONGEST - 400) break;
        put_call(long_case && one_in(3) ? below(left()) : 0);
        put('\n');
    }
    if (one_in(4)) spoil(0, 3, octets_of_texts);
}

static void put_command(void) {
    static const char *const commands[] = {"edit ", "subscribe ", "unsubscribe ", "advance ", "status ", "audit ",
        "stop", "status", "run", "policy", "help"};
    u64 command = below(11);
    put_text(commands[command]);
    switch (command) {
    case 0: put_count(0, 1048576); break;
    case 1: put_name(); break;
    case 3: put_count(0, 18446744073709551615ul); break;
    case 5: put_count(1, 10000); break;
    case 2: case 4: put_count(0, 5); break;
    default: break;
    }
}

// Lines, a piece each; now and then one about as long as the longest may be, or of any octets.
static void make_admin(void) {
    for (u64 count = between(1, 5); count > 0 || (wanted > 1000 && taken < wanted); count -= count > 0) {
        size_t begin = taken;
        if (taken > LONGEST - 2000) break;
        if (one_in(200)) put_random(below(40));
        else put_command();
        if (one_in(wanted > 1000 ? 4 : 100)) for (u64 more = between(990, 1030); taken < begin + more;) put(one_in(500) ? ' ' : 'a');
        if (one_in(4)) spoil(begin, 2, octets_of_texts);
        end_piece();
    }
}

// A text of TOML in one of its forms.
static void put_toml_text(const char *text) {
    static const char *const quotes[] = {"\"", "\"", "\"", "'", "\"\"\"", "'''"};
    const char *quote = PICK(quotes);
    put_text(quote);
    if (quote[0] == '"' && one_in(12)) put_text(one_in(10) ? "\\x" : "\\u00e9\\n\\t");
    put_text(text);
    put_text(quote);
}

static void put_toml_number(u64 least, u64 most) {
    u64 number = one_in(100) ? edge() : number_in(least, most);
    switch (below(10)) {
    case 0: put_text("0x"), put_hexadecimal(number); break;
    case 1: put('+'), put_decimal(number); break;
    case 2:
        if (number > 999) put_decimal(number / 10), put('_'), put_decimal(number % 10);
        else put_decimal(number);
        break;
    default: put_decimal(number); break;
    }
}

static void put_address_text(void) {
    static const char *const addresses[] = {"127.0.0.1:4739", "[::1]:4740", "localhost:1", "0.0.0.0:65535", ""};
    put_toml_text(PICK(addresses));
}

// Any value of TOML, nested at most so deep.
static void put_toml_value(int depth) {
    static const char *const values[] = {
        "true", "1.5e3", "-0", "inf", "nan", "1979-05-27T07:32:00Z", "1979-05-27 07:32:00.5+01:30", "07:32:00",
        "1979-05-27", "\"\"\"a\"\"b\"\"\"\"\"", "0o17", "0b101", "1__0", "{}",
    };
    switch (below(depth > 0 ? 6 : 4)) {
    case 0: put_text(PICK(values)); break;
    case 1: put_toml_text("any"); break;
    case 2: put_toml_number(0, 1000); break;
    case 3: put_address_text(); break;
    case 4:
        put('[');
        for (u64 i = below(4); i > 0; i--) {
            put_toml_value(depth - 1);
            put_text(i > 1 || one_in(3) ? ", " : "");
        }
        put(']');
        break;
    case 5:
        put_text("{ ");
        for (u64 i = below(3); i > 0; i--) {
            put('k'), put_decimal(i), put_text(" = "), put_toml_value(depth - 1);
            put_text(i > 1 ? ", " : " ");
        }
        put('}');
        break;
    }
}

static const struct setting {
    const char *key;
    u64 least, most; // 0 of both: an address or a path
} settings[] = {
    {"exporters", 0, 0}, {"admin", 0, 0}, {"policy", 0, 0}, {"connections", 1, 1000}, {"target", 16, 65535}, {"workers", 1, 64},
    {"queue", 1, 1000000}, {"shapes", 1, 65280}, {"audit", 1, 10000000}, {"journal_entries", 1, 100000000},
    {"journal_octets", 1, 1099511627776}, {"turns", 1, 1000000000}, {"journal", 0, 0}, {"runs", 1, 1000},
};

// A line for a setting; in one case of 100 it is left out, and in one it has some other value.
static void put_setting(const struct setting *setting) {
    if (one_in(100)) return;
    if (one_in(300)) put_text("\"");
    put_text(setting->key);
    put_text(one_in(10) ? "=" : " = ");
    if (one_in(100)) put_toml_value(2);
    else if (setting->most) put_toml_number(setting->least, setting->most);
    else put_address_text();
    put_text(one_in(20) ? " # why\r\n" : "\n");
}

static void put_collectors(u64 count, size_t until) {
    int in_line = one_in(4), dotted = !in_line && one_in(4);
    if (in_line) put_text("deliver = { ");
    else if (!dotted) put_text("[deliver]\n");
    for (u64 i = 0; i < count || taken < until; i++) {
        if (in_line && i) put_text(", ");
        if (dotted) put_text("deliver.");
        put_text(PICK(names));
        if (i > 0 && !one_in(10)) put_decimal(one_in(3) ? random_number() : i);
        put_text(" = ");
        if (one_in(60)) put_toml_value(1);
        else put_address_text();
        if (!in_line) put('\n');
        if (taken > LONGEST - 400) break;
    }
    if (in_line) put_text(" }\n");
}

// Shapes that cost much: depth, long keys, long texts, tables in tables, and arrays of them.
static void put_costly_toml(void) {
    u64 choice = below(8), i = 0;
    if (choice == 0) put_text("a = ");
    if (choice == 1) put_text("a = \"");
    if (choice == 2) put_text("a = [");
    for (; taken < wanted; i++) {
        switch (choice) {
        case 0: put('['); break;
        case 1: put('x'); break;
        case 2: put_text("1,"); break;
        case 3: put_text("a."); break;
        case 4: put_text("[[a]]\n"); break;
        case 5: put_text("k"), put_decimal(i), put_text("=1\n"); break;
        case 6: put_text("[a"), put_decimal(i % 100), put_text(".b"), put_decimal(i), put_text("]\n"); break;
        case 7: put_text("a={"); break;
        }
    }
    if (choice == 0) for (; taken < LONGEST && i > 0; i--) put(']');
    if (choice == 1) put_text("\"\n");
    if (choice == 2) put_text("]\n");
    if (choice == 3) put_text("a = 1\n");
    if (choice == 7) for (; taken < LONGEST && i > 0; i--) put('}');
}

static void make_settings(void) {
    int long_case = wanted > 1000;
    if (long_case && one_in(2)) return put_costly_toml();
    u64 count = sizeof settings / sizeof *settings;
    for (u64 i = 0; i < count; i++) put_setting(&settings[i]);
    if (one_in(20)) put_text("other = "), put_toml_value(3), put('\n');
    if (!one_in(60)) put_collectors(below(4), long_case ? wanted : 0);
    if (one_in(20)) put_text("[[other.tables]]\nx = "), put_toml_value(2), put('\n');
    if (one_in(4)) spoil(0, 2, octets_of_texts);
}
