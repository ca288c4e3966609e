/* A reader and a writer of program text as one writes them by hand in C, from one table of forms. With KEYS names are compared as numbers, as ours are; without, by length and
   memcmp. The writer goes by the table or, with KEYS, by what is known of each family of instructions, without it. */
#include <stddef.h>
#include <stdint.h>
#include <string.h>

struct operand { uint32_t limit; int place; };
struct form { const char *name; size_t length; uint64_t key; uint32_t word; int count; struct operand operands[4]; };
struct read_text { uint32_t refusal; size_t line; uint32_t words[64]; uint8_t n; };
struct written { uint32_t refusal; size_t place; size_t size; };

#define RD {32, 0}
#define RS1 {32, 5}
#define RS2 {32, 10}
#define RS3 {32, 15}
#define FORM(name, key, word, count, ...) { name, sizeof name - 1, key, word, count, { __VA_ARGS__ } }
static const struct form forms[26] = {
    FORM("li", 0x16C69, 0x0000000, 3, RD, {8, 21}, {65536, 5}),
    FORM("simals", 0x173696D616C73, 0x1000000, 4, RD, RS1, RS2, RS3),
    FORM("simahs", 0x173696D616873, 0x1100000, 4, RD, RS1, RS2, RS3),
    FORM("simsls", 0x173696D736C73, 0x1200000, 4, RD, RS1, RS2, RS3),
    FORM("simshs", 0x173696D736873, 0x1300000, 4, RD, RS1, RS2, RS3),
    FORM("slmals", 0x1736C6D616C73, 0x1400000, 4, RD, RS1, RS2, RS3),
    FORM("slmahs", 0x1736C6D616873, 0x1500000, 4, RD, RS1, RS2, RS3),
    FORM("slmsls", 0x1736C6D736C73, 0x1600000, 4, RD, RS1, RS2, RS3),
    FORM("slmshs", 0x1736C6D736873, 0x1700000, 4, RD, RS1, RS2, RS3),
    FORM("nop", 0x16E6F70, 0x1800000, 0, {0, 0}),
    FORM("shrhi", 0x17368726869, 0x1808000, 3, RD, RS1, {16, 10}),
    FORM("au", 0x16175, 0x1810000, 3, RD, RS1, RS2),
    FORM("cntih", 0x1636E746968, 0x1818000, 2, RD, RS1),
    FORM("ahs", 0x1616873, 0x1820000, 3, RD, RS1, RS2),
    FORM("or", 0x16F72, 0x1828000, 3, RD, RS1, RS2),
    FORM("bcw", 0x1626377, 0x1830000, 2, RD, RS1),
    FORM("maxws", 0x16D61787773, 0x1838000, 3, RD, RS1, RS2),
    FORM("minws", 0x16D696E7773, 0x1840000, 3, RD, RS1, RS2),
    FORM("mlhu", 0x16D6C6875, 0x1848000, 3, RD, RS1, RS2),
    FORM("mlhcu", 0x16D6C686375, 0x1850000, 3, RD, RS1, RS2),
    FORM("and", 0x1616E64, 0x1858000, 3, RD, RS1, RS2),
    FORM("clzw", 0x1636C7A77, 0x1860000, 2, RD, RS1),
    FORM("rotw", 0x1726F7477, 0x1868000, 3, RD, RS1, RS2),
    FORM("sfwu", 0x173667775, 0x1870000, 3, RD, RS1, RS2),
    FORM("sfhs", 0x173666873, 0x1878000, 3, RD, RS1, RS2),
    FORM(".word", 0x12E776F7264, 0x0000000, 0, {0, 0}),
};

static void refuse(struct read_text *r, uint32_t number, size_t good) {
    memset(r, 0, sizeof *r);
    r->refusal = number;
    r->line = good + 1;
}

/* the word of seven hex digits, or -1 */
static int64_t seven(const uint8_t *digits) {
    uint32_t word = 0;
    for (int i = 0; i < 7; i++) {
        uint8_t b = digits[i];
        if (b >= '0' && b <= '9') word = word << 4 | (b - '0');
        else if (b >= 'A' && b <= 'F') word = word << 4 | (b - 'A' + 10);
        else return -1;
    }
    return word >> 25 ? -1 : word;
}

void peer_text(struct read_text *r, const uint8_t *text, size_t size) {
    size_t at = 0, n = 0;
    memset(r, 0, sizeof *r);
    while (at < size) {
        if (n == 64) return refuse(r, 13, n);
        size_t end = at;
        const struct form *f = NULL;
#ifdef KEYS
        uint64_t key = 1;
        while (end < size && text[end] != ' ' && text[end] != '\n') {
            if (end - at == 7) return refuse(r, 11, n);
            key = key << 8 | text[end++];
        }
        for (int i = 0; i < 26; i++)
            if (forms[i].key == key) { f = &forms[i]; break; }
#else
        while (end < size && text[end] != ' ' && text[end] != '\n') end++;
        for (int i = 0; i < 26; i++)
            if (forms[i].length == end - at && memcmp(forms[i].name, text + at, end - at) == 0) { f = &forms[i]; break; }
#endif
        if (!f) return refuse(r, 11, n);
        uint32_t word = f->word;
        at = end;
        if (f == &forms[25]) {
            int64_t said = size - at > 8 && text[at] == ' ' ? seven(text + at + 1) : -1;
            if (said < 0) return refuse(r, 12, n);
            word = said;
            at += 8;
        }
        for (int o = 0; o < f->count; o++) {
            if (at == size || text[at] != ' ') return refuse(r, 12, n);
            size_t first = ++at;
            uint32_t value = 0;
            while (at < size && text[at] >= '0' && text[at] <= '9') {
                value = 10 * value + (text[at] - '0');
                if (value >= f->operands[o].limit) return refuse(r, 12, n);
                at++;
            }
            if (at == first || (text[first] == '0' && at != first + 1)) return refuse(r, 12, n);
            word |= value << f->operands[o].place;
        }
        if (at == size || text[at] != '\n') return refuse(r, 12, n);
        at++;
        r->words[n++] = word;
    }
    r->n = n;
}

/* ---- the writer */

static uint8_t *put_hex(uint8_t *out, uint32_t word) {
    memcpy(out, ".word ", 6);
    out += 6;
    for (int i = 24; i >= 0; i -= 4) *out++ = "0123456789ABCDEF"[word >> i & 15];
    *out++ = '\n';
    return out;
}

#ifdef KEYS

static uint8_t *put_number(uint8_t *out, uint32_t value) {
    uint8_t digits[5];
    int n = 0;
    *out++ = ' ';
    if (value < 10) { *out++ = '0' + value; return out; }
    do digits[n++] = '0' + value % 10; while (value /= 10);
    while (n) *out++ = digits[--n];
    return out;
}

static uint8_t *put_line(uint8_t *out, uint32_t word) {
    static const uint8_t counts[16] = { 0, 3, 3, 2, 3, 3, 2, 3, 3, 3, 3, 3, 2, 3, 3, 3 };
    uint32_t row, count = 4;
    if (word < 0x1000000) {
        *out++ = 'l';
        *out++ = 'i';
        out = put_number(out, word & 31);
        out = put_number(out, word >> 21 & 7);
        out = put_number(out, word >> 5 & 0xFFFF);
        *out++ = '\n';
        return out;
    }
    if (word < 0x1800000) row = 1 + (word >> 20 & 7);
    else {
        uint32_t code = word >> 15 & 15;
        row = 9 + code;
        count = counts[code];
        if (word >> 19 & 15 || (word & 0x7FFF) >> (code == 1 ? 14 : 5 * count)) return put_hex(out, word);
    }
    for (const char *name = forms[row].name; *name;) *out++ = *name++;
    for (; count > 0; count--, word >>= 5) out = put_number(out, word & 31);
    *out++ = '\n';
    return out;
}

#else

static uint8_t *put_decimal(uint8_t *out, uint32_t value) {
    int digits = value < 10 ? 1 : value < 100 ? 2 : value < 1000 ? 3 : value < 10000 ? 4 : 5;
    for (int i = digits; i > 0; value /= 10) out[--i] = '0' + value % 10;
    return out + digits;
}

static uint8_t *put_line(uint8_t *out, uint32_t word) {
    uint32_t numbers[4];
    const struct form *f = &forms[word < 0x1000000 ? 0 : word < 0x1800000 ? 1 + (word >> 20 & 7) : 9 + (word >> 15 & 15)];
    uint32_t made = f->word;
    for (int o = 0; o < f->count; o++) {
        numbers[o] = word >> f->operands[o].place & (f->operands[o].limit - 1);
        made |= numbers[o] << f->operands[o].place;
    }
    if (made != word) return put_hex(out, word);
    memcpy(out, f->name, f->length);
    out += f->length;
    for (int o = 0; o < f->count; o++) {
        *out++ = ' ';
        out = put_decimal(out, numbers[o]);
    }
    *out++ = '\n';
    return out;
}

#endif

void peer_list(struct written *r, const uint32_t *words, size_t n, uint8_t *out, size_t room) {
    uint8_t text[1216], *end = text;
    memset(r, 0, sizeof *r);
    if (n > 64) { r->refusal = 2; return; }
    for (size_t i = 0; i < n; i++)
        if (words[i] >> 25) { r->refusal = 6; r->place = i; return; }
    for (size_t i = 0; i < n; i++) end = put_line(end, words[i]);
    if (room < (size_t)(end - text)) { r->refusal = 9; return; }
    r->size = end - text;
    memcpy(out, text, r->size);
}
