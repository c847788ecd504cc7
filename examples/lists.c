/* Lists from the browser: each escape, white space everywhere, every limit from both sides, a list cut at every byte, outputs one byte
   short. Prints what ot_from_json and ot_to_json answer; lists.out has what it prints. A byte outside of plain ASCII is printed as its
   number in angle brackets. Behind "cut", "put", "set" and "rooms" stand the numbers of refusals, "same" for the record of the whole list
   and "other" for another record, each with the places from which to which it is the answer. */
#include <stdio.h>
#include <string.h>

#include "ot.h"

static uint8_t list[300000], edit[OT_RECORD_MAX + 2], back[OT_JSON_MAX + 2], again[OT_RECORD_MAX + 2];
static size_t list_len;

/* ---- lists, put together piece by piece */

static void none(void) { list_len = 0; }

static void add(const char *s, size_t n) {
    memcpy(list + list_len, s, n);
    list_len += n;
}

#define ADD(s) add(s, sizeof(s) - 1)

static void add_times(const char *s, size_t times) {
    for (size_t i = 0; i < times; i++) {
        add(s, strlen(s));
    }
}

/* ---- what is printed */

static void print_bytes(const uint8_t *bytes, size_t n) {
    for (size_t i = 0; i < n; i++) {
        if (bytes[i] >= 0x20 && bytes[i] < 0x7F && bytes[i] != '<') {
            putchar(bytes[i]);
        } else {
            printf("<%02x>", bytes[i]);
        }
    }
}

static void print_list(void) {
    if (list_len <= 80) {
        print_bytes(list, list_len);
    } else {
        print_bytes(list, 20);
        printf(".. (%zu bytes)", list_len);
    }
}

/* A record in words: R, I and D with their counts and texts. */
static void print_record(const uint8_t *rec, size_t n) {
    uint64_t k = 0, step;
    if (ot_step(rec, n, 0) == 0) {
        printf(" empty");
    }
    for (; k < 6 && (step = ot_step(rec, n, k)) != 0; k++) {
        uint64_t text = ot_insert_text(rec, n, k);
        size_t count = (size_t)(step >> 8);
        if ((step & 0xFF) == 2 && count <= 60) {
            printf(" I\"");
            print_bytes(rec + OT_FIRST(text), OT_SECOND(text));
            printf("\"");
        } else {
            printf(" %c%zu", " RID"[step & 0xFF], count);
        }
    }
    if (ot_step(rec, n, k) != 0) {
        printf(" ..");
    }
}

/* Whether all but the first n bytes of a filled buffer are as they were. */
static int untouched(const uint8_t *buffer, size_t n, size_t size) {
    for (size_t i = n; i < size; i++) {
        if (buffer[i] != 0xEE) {
            return 0;
        }
    }
    return 1;
}

/* One call into an output of `room` bytes; the answer. The bytes behind the result, and all bytes of a refused call's output, must be as
   they were. */
static uint64_t from(size_t room) {
    memset(edit, 0xEE, sizeof edit);
    uint64_t x = ot_from_json(list, list_len, edit, room);
    if (!untouched(edit, OT_REFUSED(x) ? 0 : OT_FIRST(x), sizeof edit)) {
        printf(" TOUCHED");
    }
    return x;
}

/* The list, the answer and the record. */
static void show_in(size_t room) {
    print_list();
    uint64_t x = from(room);
    if (OT_REFUSED(x)) {
        printf(" -> refused %d\n", OT_REFUSAL(x));
        return;
    }
    printf(" -> %zu bytes, %zu to %zu:", OT_FIRST(x), (size_t)ot_base_len(edit, OT_FIRST(x)), (size_t)ot_target_len(edit, OT_FIRST(x)));
    print_record(edit, OT_FIRST(x));
    printf("\n");
}

static void show(void) { show_in(OT_RECORD_MAX); }

#define LIST(s)   \
    do {          \
        none();   \
        ADD(s);   \
        show();   \
    } while (0)

/* ---- rows of calls: places that follow each other and have the same answer are one run */

static int last, begun;
static const uint8_t *whole;
static size_t whole_len;

/* 0 for the whole list's record, 1 for another, or the refusal's number. */
static int kind_of(uint64_t x) {
    if (OT_REFUSED(x)) {
        return OT_REFUSAL(x);
    }
    return OT_FIRST(x) == whole_len && memcmp(edit, whole, whole_len) == 0 ? 0 : 1;
}

static void end_run(int to) {
    const char *names[] = {"same", "other"};
    if (last >= 0) {
        printf(" %d..%d ", begun, to);
        if (last < 2) {
            printf("%s", names[last]);
        } else {
            printf("%d", last);
        }
    }
}

static void next(int i, int kind) {
    if (kind != last) {
        end_run(i - 1);
        last = kind;
        begun = i;
    }
}

/* The list's own record, to compare with. */
static uint8_t record[OT_RECORD_MAX], kept[300000];
static size_t kept_len;

static void keep(void) {
    uint64_t x = from(OT_RECORD_MAX);
    memcpy(record, edit, sizeof record);
    whole = record;
    whole_len = OT_FIRST(x);
    memcpy(kept, list, list_len);
    kept_len = list_len;
    last = -1;
}

/* Every prefix of the list. */
static void cut(void) {
    print_list();
    printf(" cut:");
    keep();
    for (size_t n = 0; n <= kept_len; n++) {
        list_len = n;
        next((int)n, kind_of(from(OT_RECORD_MAX)));
    }
    end_run((int)kept_len);
    printf("\n");
}

/* A byte put in at every place, or in the stead of every byte. */
static void with_byte(uint8_t b, int put) {
    printf("%s %02x:", put ? "put" : "set", b);
    keep();
    for (size_t i = 0; i < kept_len + (size_t)put; i++) {
        memcpy(list, kept, i);
        list[i] = b;
        memcpy(list + i + 1, kept + i + (put ? 0 : 1), kept_len - i - (put ? 0 : 1));
        list_len = kept_len + (size_t)put;
        next((int)i, kind_of(from(OT_RECORD_MAX)));
    }
    end_run((int)kept_len - 1 + put);
    printf("\n");
    memcpy(list, kept, kept_len);
    list_len = kept_len;
}

/* Outputs of every size up to one byte more than the record has. */
static void rooms(void) {
    print_list();
    printf(" rooms:");
    keep();
    size_t most = whole_len + 1;
    for (size_t n = 0; n <= most; n++) {
        next((int)n, kind_of(from(n)));
    }
    end_run((int)most);
    printf("\n");
}

/* ---- records */

static uint8_t rec[OT_RECORD_MAX];
static size_t rec_len;

static void put16(size_t at, size_t v) {
    rec[at] = (uint8_t)v;
    rec[at + 1] = (uint8_t)(v >> 8);
}

/* A record that inserts one text. */
static void inserts(const char *text, size_t n, size_t chars) {
    put16(0, 1);
    put16(2, n);
    put16(4, 0);
    put16(6, chars);
    rec[8] = 2;
    put16(9, n);
    memcpy(rec + 11, text, n);
    rec_len = 11 + n;
}

/* The record's list, and whether reading it gives the record again; outputs one byte short, just long enough and longer. */
static void written(void) {
    memset(back, 0xEE, sizeof back);
    uint64_t x = ot_to_json(rec, rec_len, back, OT_JSON_MAX);
    size_t n = OT_FIRST(x);
    if (OT_REFUSED(x)) {
        printf("refused %d%s\n", OT_REFUSAL(x), untouched(back, 0, sizeof back) ? "" : " TOUCHED");
        return;
    }
    if (n <= 120) {
        print_bytes(back, n);
    } else {
        unsigned sum = 0;
        for (size_t i = 0; i < n; i++) {
            sum = sum * 31 + back[i];
        }
        printf("%zu bytes, sum %08x", n, sum);
    }
    printf("%s", untouched(back, n, sizeof back) ? "" : " TOUCHED");
    memset(again, 0xEE, sizeof again);
    uint64_t y = ot_from_json(back, n, again, OT_RECORD_MAX);
    printf(" -> %s", !OT_REFUSED(y) && OT_FIRST(y) == rec_len && memcmp(again, rec, rec_len) == 0 ? "same" : "OTHER");
    memset(back, 0xEE, sizeof back);
    x = ot_to_json(rec, rec_len, back, n - 1);
    printf(", one byte short %s%d%s", OT_REFUSED(x) ? "refused " : "", OT_REFUSAL(x), untouched(back, 0, sizeof back) ? "" : " TOUCHED");
    x = ot_to_json(rec, rec_len, back, n);
    printf(", exact %s\n", !OT_REFUSED(x) && OT_FIRST(x) == n && untouched(back, n, sizeof back) ? "the same" : "OTHER");
}

static void limits(void) {
    printf("; operations: 1,024 and 1,025\n");
    none(), ADD("["), add_times("1,-1,", 511), ADD("1,-1]"), show();
    none(), ADD("["), add_times("1,-1,", 512), ADD("1]"), show();
    printf("; text: 32,768 and 32,769 bytes, as it is, by escapes, in several strings, in characters of three bytes\n");
    none(), ADD("[\""), add_times("a", 32768), ADD("\"]"), show();
    none(), ADD("[\""), add_times("a", 32769), ADD("\"]"), show();
    none(), ADD("[\""), add_times("\\u00e4", 16384), ADD("\"]"), show();
    none(), ADD("[\""), add_times("\\u00e4", 16384), ADD("a\"]"), show();
    none(), ADD("[\""), add_times("a", 32767), ADD("\",\"b\"]"), show();
    none(), ADD("[\""), add_times("a", 32768), ADD("\",\"b\"]"), show();
    none(), ADD("[\""), add_times("\xE2\x82\xAC", 10922), ADD("ab\"]"), show();
    none(), ADD("[\""), add_times("\xE2\x82\xAC", 10923), ADD("\"]"), show();
    printf("; base and target: 32,768 and 32,769\n");
    none(), ADD("[-1,32767]"), show();
    none(), ADD("[-1,32768]"), show();
    none(), ADD("[-32767,-1]"), show();
    none(), ADD("[-32767,-2]"), show();
    none(), ADD("[32767,\"a\"]"), show();
    none(), ADD("[32768,\"a\"]"), show();
    none(), ADD("[\"\xC3\xA4\",32767]"), show();
    none(), ADD("[\"\xC3\xA4\xC3\xA4\",32767]"), show();
    printf("; 11 before 9: a limit is passed, then the form is left\n");
    none(), ADD("[32769,0]"), show();
    none(), ADD("[99999999999999999999"), show();
    none(), ADD("[\""), add_times("a", 40000), ADD("\\ud83d\"]"), show();
    none(), ADD("["), add_times("1,-1,", 600), ADD("1"), show();
    none(), ADD("["), add_times("1,-1,", 600), ADD("]"), show();
    none(), ADD("[32769,\"\xC3\"]"), show();
    printf("; 11 before 10, 9 before 10, and 10\n");
    none(), ADD("[0]"), show_in(0);
    none(), ADD("[32769]"), show_in(0);
    none(), ADD("[5,\"!\"]"), show_in(0);
    none(), ADD("[5,\"!\"]"), rooms();
    none(), ADD("[]"), rooms();
    none(), ADD("[-3,\"a\\ud83d\\ude00\",4]"), rooms();
}

static void rows(void) {
    static const uint8_t white[] = {0x20, 0x09, 0x0A, 0x0D};
    static const uint8_t others[] = {0x00, 0x0B, 0x0C, 0x1F, 0x22, 0x2C, 0x2F, 0x30, 0x31, 0x5B, 0x5C, 0x5D, 0x7F, 0x85, 0xA0, 0xC3, 0xFF};
    printf("; a list with a token of each kind, cut at every byte, and with a byte put in or set at every place\n");
    none(), ADD("[12,-3,\"a\\n\\u00e4\\ud83d\\ude00\xC3\xA4\" , 4]"), cut();
    none(), ADD(" [ 1 , -20 , \"\" , \"abcdefghijklmnop\\\"\\\\\\/\\b\\f\\n\\r\\t\\u20ac\xE2\x82\xAC\xF0\x9F\x98\x80 nicht\" , -3 , 32000 ] "), cut();
    none(), ADD("[12,-3,\"a\\n\\u00e4\\ud83d\\ude00\xC3\xA4\" , 4]");
    for (size_t i = 0; i < sizeof white; i++) {
        with_byte(white[i], 1);
        with_byte(white[i], 0);
    }
    for (size_t i = 0; i < sizeof others; i++) {
        with_byte(others[i], 1);
        with_byte(others[i], 0);
    }
    printf("; an escape and a character of each width at each of ten places behind plain text\n");
    for (size_t i = 0; i < 10; i++) {
        none(), ADD("[\""), add_times("x", i), ADD("\\\"\\u20ac\xC3\xA4\xE2\x82\xAC\xF0\x9F\x98\x80"), add_times("y", 9 - i), ADD("\"]"), show();
    }
}

static void records(void) {
    char text[64];
    printf("; written: the empty record, each operation, each code below 20, what is escaped and what isn't\n");
    memset(rec, 0, 8), rec_len = 8, written();
    none(), ADD("[1,\"a\",-1,32766]"), from(OT_RECORD_MAX), memcpy(rec, edit, 64), rec_len = OT_FIRST(ot_check(rec, 64)), written();
    for (int b = 0; b < 0x22; b++) {
        text[0] = (char)b;
        inserts(text, 1, 1), written();
    }
    inserts("\"\\/\x7F", 4, 4), written();
    inserts("\xC3\xA4\xE2\x82\xAC\xF0\x9F\x98\x80", 9, 3), written();
    for (int i = 0; i < 10; i++) {
        memset(text, 'x', 10);
        text[i] = i % 2 ? '"' : 1;
        inserts(text, 10, 10), written();
    }
    printf("; numbers of one to five digits\n");
    none(), ADD("[9,-10,99,-100,999,-1000,9999,-10000]"), from(OT_RECORD_MAX), memcpy(rec, edit, 64), rec_len = OT_FIRST(ot_check(rec, 64)), written();
    printf("; the longest text: 32,768 codes 0; 1,024 operations\n");
    static char zeros[32768];
    inserts(zeros, 32768, 32768), written();
    none(), ADD("["), add_times("1,\"a\",-1,", 341), ADD("1]"), from(OT_RECORD_MAX), rec_len = OT_FIRST(ot_check(edit, sizeof edit)), memcpy(rec, edit, rec_len), written();
    printf("; refusals 1 to 5\n");
    rec_len = 7, written();
    inserts("a", 1, 1), rec[8] = 4, written();
    inserts("\xC3", 1, 1), written();
    put16(0, 2), put16(2, 0), put16(4, 2), put16(6, 2), rec[8] = 1, rec[9] = 1, put16(10, 1), put16(12, 1), rec_len = 14, written();
    inserts("a", 1, 2), written();
    printf("; 5 before 10\n");
    printf("refused %d\n", OT_REFUSAL(ot_to_json(rec, rec_len, back, 0)));
}

int main(void) {
    printf("; values\n");
    LIST("[]");
    LIST("[5]");
    LIST("[-5]");
    LIST("[\"!\"]");
    LIST("[5,\"!\"]");
    LIST("[\"\"]");
    LIST("[\"\",\"\",5]");
    LIST("[1,\"\",1]");
    printf("; joined as the builders do\n");
    LIST("[1,2]");
    LIST("[\"a\",\"b\"]");
    LIST("[-1,\"a\"]");
    LIST("[-1,\"a\",-2,\"b\"]");
    LIST("[-1,\"a\",2,\"b\",-3,\"c\"]");
    LIST("[1,-2,-3,4]");
    printf("; short escapes\n");
    LIST("[\"\\\"\"]");
    LIST("[\"\\\\\"]");
    LIST("[\"\\/\"]");
    LIST("[\"\\b\"]");
    LIST("[\"\\f\"]");
    LIST("[\"\\n\"]");
    LIST("[\"\\r\"]");
    LIST("[\"\\t\"]");
    printf("; no such escapes\n");
    LIST("[\"\\a\"]");
    LIST("[\"\\0\"]");
    LIST("[\"\\'\"]");
    LIST("[\"\\B\"]");
    LIST("[\"\\u\"]");
    LIST("[\"\\x\"]");
    LIST("[\"\\U\"]");
    LIST("[\"\\v\"]");
    LIST("[\"\\ \"]");
    printf("; escapes by number\n");
    LIST("[\"\\u0041\"]");
    LIST("[\"\\u00e4\\u00E4\"]");
    LIST("[\"\\uabCD\"]");
    LIST("[\"\\u0000\"]");
    LIST("[\"\\u001f\"]");
    LIST("[\"\\u007f\\u0080\"]");
    LIST("[\"\\u07ff\\u0800\"]");
    LIST("[\"\\uffff\"]");
    LIST("[\"\\ud7ff\\ue000\"]");
    printf("; too few digits, or others\n");
    LIST("[\"\\u\"]");
    LIST("[\"\\u0\"]");
    LIST("[\"\\u00\"]");
    LIST("[\"\\u004\"]");
    LIST("[\"\\u00g1\"]");
    LIST("[\"\\u 041\"]");
    LIST("[\"\\u-041\"]");
    LIST("[\"\\u0x41\"]");
    printf("; surrogate pairs\n");
    LIST("[\"\\ud800\\udc00\"]");
    LIST("[\"\\ud83d\\ude00\"]");
    LIST("[\"\\uDBFF\\uDFFF\"]");
    LIST("[\"a\\ud83d\\ude00b\\ud83d\\ude00\"]");
    printf("; lone halves\n");
    LIST("[\"\\ud83d\"]");
    LIST("[\"\\ude00\"]");
    LIST("[\"\\ud83da\"]");
    LIST("[\"\\ud83d\\ud83d\\ude00\"]");
    LIST("[\"\\ud83d\\n\"]");
    LIST("[\"\\ude00\\ud83d\"]");
    LIST("[\"\\ud83d\\u0041\"]");
    LIST("[\"\\ud83d\\\\ude00\"]");
    LIST("[\"\\ud83d\\udbff\"]");
    LIST("[\"\\ud83d\\ue000\"]");
    LIST("[\"\\ud83d");
    LIST("[\"\\ud83d\\\\\"]");
    LIST("[\"\\ud83d\\u\"]");
    LIST("[\"\\ud83d\\ude0\"]");
    printf("; characters as they are\n");
    LIST("[\"\303\244\"]");
    LIST("[\"\342\202\254\"]");
    LIST("[\"\360\237\230\200\"]");
    LIST("[\"\177\"]");
    LIST("[\"G\303\244ste \360\237\230\200\"]");
    printf("; bytes that are no characters\n");
    LIST("[\"\200\"]");
    LIST("[\"\300\200\"]");
    LIST("[\"\303\"]");
    LIST("[\"\342\202\"]");
    LIST("[\"\355\240\200\"]");
    LIST("[\"\364\220\200\200\"]");
    LIST("[\"\377\"]");
    LIST("[\"a\303\",\"b\"]");
    LIST("[\303\244]");
    LIST("[5\200]");
    LIST("[5]\377");
    LIST("\357\273\277[5]");
    printf("; codes below 20 as they are\n");
    LIST("[\"\000\"]");
    LIST("[\"\001\"]");
    LIST("[\"\010\"]");
    LIST("[\"\011\"]");
    LIST("[\"\012\"]");
    LIST("[\"\015\"]");
    LIST("[\"\037\"]");
    printf("; numbers\n");
    LIST("[1]");
    LIST("[9]");
    LIST("[10]");
    LIST("[32767]");
    LIST("[32768]");
    LIST("[32769]");
    LIST("[-32768]");
    LIST("[-32769]");
    LIST("[65536]");
    LIST("[99999]");
    LIST("[4294967297]");
    LIST("[18446744073709551617]");
    LIST("[1000000000000000000000000000000000000000]");
    LIST("[-100000000000000000000000000000000000000000000000000000000000]");
    printf("; no such numbers\n");
    LIST("[0]");
    LIST("[-0]");
    LIST("[00]");
    LIST("[01]");
    LIST("[-01]");
    LIST("[+1]");
    LIST("[-]");
    LIST("[--1]");
    LIST("[- 1]");
    LIST("[1.0]");
    LIST("[1.]");
    LIST("[.5]");
    LIST("[1e3]");
    LIST("[1E+2]");
    LIST("[0x10]");
    LIST("[1 2]");
    LIST("[1-]");
    LIST("[1");
    LIST("[-");
    LIST("[Infinity]");
    LIST("[NaN]");
    printf("; no such lists\n");
    LIST("");
    LIST(" ");
    LIST("[");
    LIST("]");
    LIST("5");
    LIST("\"a\"");
    LIST("{}");
    LIST("[[]]");
    LIST("[{}]");
    LIST("[true]");
    LIST("[false]");
    LIST("[null]");
    LIST("[,]");
    LIST("[5,]");
    LIST("[,5]");
    LIST("[5,,5]");
    LIST("[5 5]");
    LIST("[\"a\"\"b\"]");
    LIST("[5");
    LIST("[\"a");
    LIST("[\"a\"");
    LIST("5]");
    LIST("[5]]");
    LIST("[5][5]");
    LIST("[5],");
    LIST("[5]x");
    LIST("['a']");
    LIST("[a]");
    LIST("//[5]");
    LIST("[5]//");
    LIST("[5/**/]");
    printf("; white space\n");
    LIST(" [5]");
    LIST("[5] ");
    LIST("\011\012\015 [ \011\012\0155 \011\012\015,\011\012\015 \"a\"\011\012\015 ] \011\012\015");
    LIST("[ ]");
    LIST("\013[5]");
    LIST("\014[5]");
    LIST("[5\302\240]");
    LIST("\342\200\250[5]");
    limits();
    rows();
    records();
    return 0;
}
