/* Pages in browsers change one label at the same time. A page sends its edit as a JSON list, and plays the lists that the server
   answers with.

   tools/archive
   gcc -Wall -Wextra -Werror -I include examples/browser.c target/staticlib/libc_api.a -o target/browser
   target/browser */
#include "ot.h"

#include <stdio.h>
#include <string.h>

static uint8_t log_[OT_LOG_MAX], parts[OT_COUNTERPARTS_MAX];
static size_t log_len;

static void reject(int refusal) {
    printf("  refused %d\n", refusal);
}

static void send_list(const uint8_t *list, size_t len) {
    printf("  the page plays %.*s\n", (int)len, (const char *)list);
}

/* Takes in an edit as a page sends it: a JSON list, written against revision r. */
static void receive(const uint8_t *list, size_t list_len, uint64_t r) {
    static uint8_t edit[OT_RECORD_MAX], reply[OT_JSON_MAX];
    uint64_t x = ot_from_json(list, list_len, edit, sizeof edit);
    if (!OT_REFUSED(x)) {
        x = ot_accept(edit, OT_FIRST(x), r, log_, sizeof log_, parts, sizeof parts);
    }
    if (OT_REFUSED(x)) {
        reject(OT_REFUSAL(x));                                      /* 6 to 11; nothing has changed */
        return;
    }
    log_len += OT_FIRST(x);
    /* The counterparts stand end to end. Each goes to the page as a list of its own, oldest first. */
    for (size_t at = 0, end = OT_SECOND(x); at < end; at += ot_check(parts + at, end - at)) {
        send_list(reply, OT_FIRST(ot_to_json(parts + at, end - at, reply, sizeof reply)));
    }
}

static void page(const char *name, const char *list, uint64_t r) {
    printf("%s, against revision %d: %s\n", name, (int)r, list);
    receive((const uint8_t *)list, strlen(list), r);
}

int main(void) {
    static const uint8_t label[] = "Ger\xC3\xA4te sperren";
    static uint8_t a[256], b[256], out[256];
    size_t label_len = sizeof label - 1;
    uint64_t x;

    log_len = OT_FIRST(ot_open(ot_num_chars(label, label_len), log_, sizeof log_));
    page("A", "[6, \" nicht\", 8]", 0);
    page("B", "[-6, \"Ger\\u00e4te \\\"Gast\\\"\", 8]", 0);
    page("C", "[14, \"\\ud83d\\ude00\"]", 0);
    page("D", "[14, \"\\ud83d\"]", 0);
    page("D", "[15]", 0);

    x = ot_play(log_, log_len, label, label_len, a, sizeof a, b, sizeof b, out, sizeof out);
    if (OT_REFUSED(x)) {
        return 1;
    }
    printf("what ships: %.*s\n", (int)OT_FIRST(x), (const char *)out);
    return 0;
}
