/* Calls every function of ot.h and prints its name and what came back, then each output's bytes in hexadecimal. Outputs are
   filled with EE before the call, and two bytes behind each result are printed too; of a refused call these two alone.

   tools/archive
   gcc -Wall -Wextra -Werror -I include examples/every_call.c target/staticlib/libc_api.a -o target/every_call
   target/every_call */
#include "ot.h"

#include <stdio.h>
#include <stdlib.h>
#include <string.h>

#define ROOM 64

/* What a call reads or writes, and how many bytes it has. The two bytes behind ROOM are never lent. */
struct buffer {
    size_t len;
    uint8_t bytes[ROOM + 2];
};

static uint8_t *filled(struct buffer *b) {
    memset(b->bytes, 0xEE, sizeof b->bytes);
    return b->bytes;
}

/* A buffer as two arguments of a call: one that is read, one that is written to, and one that is both. */
#define IN(b) (b).bytes, (b).len
#define OUT(b) filled(&(b)), ROOM
#define BOTH(b) (b).bytes, ROOM

static void print_bytes(struct buffer *b, size_t len) {
    if (len > ROOM) {
        printf("  %zu bytes are more than there is room for\n", len);
        exit(1);
    }
    b->len = len;
    printf(" ");
    for (size_t i = 0; i < len + 2; i++) {
        printf(" %02X", b->bytes[i]);
    }
    printf("\n");
}

/* The answer of a call that gives one result. */
static void one(const char *call, uint64_t answer) {
    if (OT_REFUSED(answer)) {
        printf("%s: refused %d\n", call, OT_REFUSAL(answer));
    } else {
        printf("%s: %llu\n", call, (unsigned long long)answer);
    }
}

/* The answer of a call that gives two. */
static void two(const char *call, uint64_t answer) {
    if (OT_REFUSED(answer)) {
        one(call, answer);
    } else {
        printf("%s: %zu, %zu\n", call, OT_FIRST(answer), OT_SECOND(answer));
    }
}

/* The answer of a call that gives the number of bytes in its output, and the output. */
static void wrote(const char *call, uint64_t answer, struct buffer *out) {
    one(call, answer);
    print_bytes(out, OT_REFUSED(answer) ? 0 : OT_FIRST(answer));
}

static void transformed(uint64_t answer, struct buffer *a, struct buffer *b) {
    two("ot_transform", answer);
    print_bytes(a, OT_REFUSED(answer) ? 0 : OT_FIRST(answer));
    print_bytes(b, OT_REFUSED(answer) ? 0 : OT_SECOND(answer));
}

/* The log as it stands after the call, and the counterparts. */
static void accepted(const char *call, uint64_t answer, struct buffer *log, struct buffer *out) {
    two(call, answer);
    print_bytes(log, log->len + (OT_REFUSED(answer) ? 0 : OT_FIRST(answer)));
    print_bytes(out, OT_REFUSED(answer) ? 0 : OT_SECOND(answer));
}

int main(void) {
    static const struct buffer empty = {8, {0}};
    static const struct buffer text = {6, "T\xC3\xBCr 1"}, umlaut = {2, "\xC3\xA4"}, half = {1, "\xC3"}, digits = {2, "22"};
    static const struct buffer list = {20, "[ 4, -1, \"2\\u0032\" ]"}, pair = {20, "[\"\\\"\\ud83D\\uDE00\\t\"]"};
    static const struct buffer zero = {6, "[4, 0]"}, far = {7, "[32769]"}, single = {10, "[\"\\ud83d\"]"};
    static struct buffer kept, cut, first, second, undo, x, y, z, log;

    one("ot_well_formed", ot_well_formed(IN(text)));
    one("ot_well_formed", ot_well_formed(IN(half)));
    one("ot_num_chars", ot_num_chars(IN(text)));

    /* The first edit puts 22 for the 1, the second appends an ä. */
    wrote("ot_retain", ot_retain(IN(empty), 4, OUT(kept)), &kept);
    wrote("ot_delete", ot_delete(IN(kept), 1, OUT(cut)), &cut);
    wrote("ot_insert", ot_insert(IN(cut), IN(digits), OUT(first)), &first);
    wrote("ot_retain", ot_retain(IN(empty), 5, OUT(kept)), &kept);
    wrote("ot_insert", ot_insert(IN(kept), IN(umlaut), OUT(second)), &second);
    wrote("ot_retain", ot_retain(IN(kept), 32764, OUT(x)), &x);
    wrote("ot_insert", ot_insert(IN(kept), IN(half), OUT(x)), &x);

    /* The first edit as a browser may send it; a text with a quotation mark, a character above U+FFFF and a tab. */
    wrote("ot_from_json", ot_from_json(IN(list), OUT(x)), &x);
    wrote("ot_to_json", ot_to_json(IN(x), OUT(y)), &y);
    wrote("ot_from_json", ot_from_json(IN(pair), OUT(x)), &x);
    wrote("ot_to_json", ot_to_json(IN(x), OUT(y)), &y);
    wrote("ot_from_json", ot_from_json(IN(zero), OUT(y)), &y);
    wrote("ot_from_json", ot_from_json(IN(single), OUT(y)), &y);
    wrote("ot_from_json", ot_from_json(IN(far), OUT(y)), &y);
    wrote("ot_from_json", ot_from_json(IN(list), filled(&y), first.len - 1), &y);
    wrote("ot_to_json", ot_to_json(first.bytes, first.len - 1, OUT(y)), &y);
    wrote("ot_to_json", ot_to_json(IN(first), filled(&y), 10), &y);

    one("ot_check", ot_check(IN(first)));
    one("ot_check", ot_check(first.bytes, first.len - 1));
    one("ot_base_len", ot_base_len(IN(first)));
    one("ot_target_len", ot_target_len(IN(first)));
    one("ot_is_noop", ot_is_noop(IN(first)));
    one("ot_is_noop", ot_is_noop(IN(kept)));
    one("ot_step", ot_step(IN(first), 1));
    one("ot_step", ot_step(IN(first), 3));
    two("ot_insert_text", ot_insert_text(IN(first), 1));

    wrote("ot_apply", ot_apply(IN(first), IN(text), OUT(x)), &x);
    wrote("ot_apply", ot_apply(IN(first), IN(x), OUT(y)), &y);
    wrote("ot_invert", ot_invert(IN(first), IN(x), OUT(undo)), &undo);
    wrote("ot_invert", ot_invert(IN(first), IN(text), OUT(undo)), &undo);
    wrote("ot_compose", ot_compose(IN(first), IN(undo), OUT(x)), &x);
    transformed(ot_transform(IN(first), IN(second), OUT(x), OUT(y)), &x, &y);

    /* Both edits were made for the text that the session begins with. */
    wrote("ot_open", ot_open(5, OUT(log)), &log);
    accepted("ot_accept", ot_accept(IN(first), 0, BOTH(log), OUT(x)), &log, &x);
    accepted("ot_accept", ot_accept(IN(second), 0, BOTH(log), OUT(x)), &log, &x);
    accepted("ot_accept", ot_accept(IN(second), 3, BOTH(log), OUT(x)), &log, &x);
    wrote("ot_summary", ot_summary(IN(log), OUT(x)), &x);
    wrote("ot_play", ot_play(IN(log), IN(text), OUT(x), OUT(y), OUT(z)), &z);
    wrote("ot_play", ot_play(IN(log), IN(text), x.bytes, 7, OUT(y), OUT(z)), &z);

    /* The first edit is taken back: the 1 stands there again, and before the ä. */
    accepted("ot_undo", ot_undo(BOTH(log), 1, IN(text), OUT(x), OUT(y), OUT(z)), &log, &z);
    wrote("ot_play", ot_play(IN(log), IN(text), OUT(x), OUT(y), OUT(z)), &z);
    accepted("ot_undo", ot_undo(BOTH(log), 0, IN(text), OUT(x), OUT(y), OUT(z)), &log, &z);
    return 0;
}
