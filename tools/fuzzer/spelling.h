/* Arguments and lines of a trace, most of them in the grammar, from the fuzzer's bytes. */
#ifndef FUZZER_SPELLING_H
#define FUZZER_SPELLING_H

#include "input.h"

enum { LONGEST_TEXT = 8192 };

/* A text that is being spelled. */
typedef struct spelling {
    char text[LONGEST_TEXT];
    size_t len;
} spelling;

static inline void spell(spelling *its, const char *word) {
    size_t len = strlen(word);
    CHECK(its->len + len <= LONGEST_TEXT);
    memcpy(its->text + its->len, word, len);
    its->len += len;
}

static inline void spell_byte(spelling *its, int byte) {
    CHECK(its->len < LONGEST_TEXT);
    its->text[its->len++] = (char)byte;
}

/* Mostly a small number, and now and then one at a limit or none. */
static inline void spell_number(spelling *its, input *given) {
    static const char *const strange[] = {
        "18446744073709551615", "18446744073709551616", "4294967296", "2147483648", "1303", "1304", "00000000000000000000007", "007",
        "255", "256", "511", "512", "63", "64", "1000000", "-1", "0x1", ""};
    uint8_t kind = next_byte(given);
    char digits[8];
    if (kind >= 200) {
        spell(its, strange[kind % (sizeof strange / sizeof *strange)]);
        return;
    }
    snprintf(digits, sizeof digits, "%u", kind % 100 < 80 ? kind % 8u : kind);
    spell(its, digits);
}

/* Mostly the digits of a line of memory. */
static inline void spell_bytes(spelling *its, input *given) {
    uint8_t kind = next_byte(given), value = next_byte(given);
    size_t count = kind < 230 ? PMEM_LINE_BYTES : kind % 70;
    char digits[4];
    for (size_t i = 0; i < count; i++) {
        unsigned byte = (unsigned)(value + (kind & 2 ? i : 0)) & 255u;
        snprintf(digits, sizeof digits, kind & 1 ? "%02x" : "%02X", byte);
        spell(its, digits);
    }
    if (kind == 255) spell_byte(its, 'g');
}

/* A line of a trace: a command (p stands for a port, n for a number, l for a line's bytes), or any bytes. */
static inline void spell_line(spelling *its, input *given) {
    static const char *const forms[] = {
        "post pnl", "post pnl", "part pnnl", "drain p", "drain p", "fence p", "read pn", "turn", "flush", "loss n", "cut n", "off", "on", "on",
        "poke nl", "flip nn", "move nn", "snap", "back n", "peek n", "stat", "write nl", "write nl", "read n", "place n", "begin", "put nl",
        "commit", "abort", "#", ""};
    uint8_t kind = next_byte(given);
    const char *form = forms[kind % (sizeof forms / sizeof *forms)];
    its->len = 0;
    if (kind > 248) {
        for (size_t i = 0, count = next_byte(given) * (size_t)(kind & 1 ? 9 : 1); i < count; i++)
            spell_byte(its, i & 7 ? kind + (int)i : next_byte(given));
        return;
    }
    while (*form != '\0' && *form != ' ') spell_byte(its, *form++);
    if (*form == ' ') form++;
    for (; *form != '\0'; form++) {
        spell_byte(its, kind > 240 ? '\t' : ' ');
        if (*form == 'p') spell_byte(its, '0' + next_byte(given) % 9);
        else if (*form == 'n') spell_number(its, given);
        else spell_bytes(its, given);
    }
    if (kind > 244) spell_byte(its, '\r');
}

/* An option with a value that it may have, or not; one in four is of the persistence policy or of the queues, and has one of its values. */
static inline void spell_option(spelling *its, input *given) {
    static const char *const names[] = {"--sets", "--ways", "--loss", "--major", "--key", "--tag-key", "--every", "--log", "--suite", "--x", "x",
                                        "--persist", "--shadow", "--queue", "--combine"};
    static const char *const policies[] = {"--persist=1", "--persist=2", "--shadow=off", "--queue=durable", "--combine=on", "--persist=0",
                                           "--shadow=on", "--queue=volatile", "--combine=off"};
    uint8_t kind = next_byte(given);
    spell_byte(its, 0);
    if (kind % 4 == 3) {
        spell(its, policies[kind / 4 % (sizeof policies / sizeof *policies)]);
        return;
    }
    spell(its, names[kind % (sizeof names / sizeof *names)]);
    spell_byte(its, kind & 64 ? '=' : 0);
    if (kind < 128) spell_number(its, given);
    else for (int i = 0; i < 32; i++) spell_byte(its, "0123456789abcdefABCDEF"[(kind + i) % 22]);
}

/* The arguments of a session; a byte 0 stands between them. */
static inline void spell_words(spelling *its, input *given) {
    static const char *const kinds[] = {"run", "wear", "txn", "tree", "run", "wear", "txn", "tree", "make", "check", "Run", "", "sample"};
    uint8_t kind = next_byte(given);
    its->len = 0;
    if (kind > 250) {
        for (size_t count = next_byte(given); count != 0; count--) spell_byte(its, next_byte(given));
        return;
    }
    spell(its, kinds[kind < 200 ? kind % 8 : kind % 13]);
    spell_byte(its, 0);
    spell(its, kind % 32 == 31 ? "--suite=aes" : kind & 1 ? "--suite=weak" : "--suite=blur");
    spell_byte(its, 0);
    spell(its, kind % 16 == 15 ? "--levels=2" : "--levels=1");
    if (kind & 32) {
        spell_byte(its, 0);
        spell(its, "--log");
    }
    for (size_t count = kind & 64 ? next_below(given, 4) : 0; count != 0; count--) spell_option(its, given);
}

#endif
