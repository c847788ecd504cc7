/* Two people edit the label of a router's port at the same time.

   tools/archive
   gcc -Wall -Wextra -Werror -I include examples/label.c target/staticlib/libc_api.a -o target/label
   target/label */
#include "ot.h"

#include <stdio.h>
#include <stdlib.h>
#include <string.h>

struct edit {
    size_t len;
    uint8_t bytes[OT_RECORD_MAX];
};

static uint64_t must(const char *call, uint64_t answer) {
    if (OT_REFUSED(answer)) {
        fprintf(stderr, "%s: refused %d\n", call, OT_REFUSAL(answer));
        exit(1);
    }
    return answer;
}

/* Keeps `len` characters of the label, deletes `gone` behind them and inserts the text there. The library puts an insert
   before a delete that stands last. */
static void make(struct edit *e, uint64_t len, uint64_t gone, const char *text) {
    static const uint8_t empty[8];
    static uint8_t kept[OT_RECORD_MAX], cut[OT_RECORD_MAX];
    size_t n = must("retain", ot_retain(empty, sizeof empty, len, kept, sizeof kept));
    n = must("delete", ot_delete(kept, n, gone, cut, sizeof cut));
    e->len = must("insert", ot_insert(cut, n, (const uint8_t *)text, strlen(text), e->bytes, sizeof e->bytes));
}

static void print(const char *who, const uint8_t *text, size_t len) {
    printf("%s: %.*s\n", who, (int)len, (const char *)text);
}

int main(void) {
    static const uint8_t label[] = "uplink 1";
    static struct edit ann, bob;
    static uint8_t log[4096], counterparts[4096], a[256], b[256], out[256];
    size_t label_len = sizeof label - 1, len, n;

    /* Both start from revision 0. Ann writes another number, Bob adds a word. */
    make(&ann, 7, 1, "2");
    make(&bob, 8, 0, " (spare)");

    /* The server takes both in, Ann's first. Bob's is moved past hers, and what he has to do besides is the counterpart. */
    must("open", ot_open(ot_num_chars(label, label_len), log, sizeof log));
    must("accept", ot_accept(ann.bytes, ann.len, 0, log, sizeof log, counterparts, sizeof counterparts));
    n = OT_SECOND(must("accept", ot_accept(bob.bytes, bob.len, 0, log, sizeof log, counterparts, sizeof counterparts)));
    len = must("play", ot_play(log, sizeof log, label, label_len, a, sizeof a, b, sizeof b, out, sizeof out));
    print("server", out, len);

    /* Bob has the label with his own edit, and applies the counterpart. */
    len = must("apply", ot_apply(bob.bytes, bob.len, label, label_len, a, sizeof a));
    len = must("apply", ot_apply(counterparts, n, a, len, b, sizeof b));
    print("Bob", b, len);
    return 0;
}
