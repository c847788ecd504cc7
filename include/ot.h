/* Shared string editing: the calls of the library libc_api.a.

   An edit is a record of bytes: four sizes (operations, text bytes, base, target), then the kinds (1 retain, 2 insert,
   3 delete), the counts and the inserted text. Eight zero bytes are the empty edit. A log is a session's history: the
   number of revisions, the starting length, then the revisions' records end to end. A text is UTF-8 (RFC 3629).
   Lengths of texts, retains and deletes are in characters, an insert's count in bytes.

   Buffers. Each is given as a pointer and the number of bytes it holds, two arguments after another. The pointer is
   never NULL, not even where that number is 0. Every buffer is the caller's: the library keeps no pointer after a call, asks for
   no memory and has no state of its own, so that calls on different buffers may run on different threads at once. A buffer that
   is written to (not const) overlaps no other argument of the same call; two const ones may overlap. Bytes behind a record's
   or a log's own contents aren't read, so a buffer may be longer than what stands in it. A text or a list has all bytes given.

   Results stand at the front of their buffer, and bytes behind them are untouched. A refused call changes nothing,
   the scratch buffers of ot_play and ot_undo apart.

   Answers. Every call gives one uint64_t. Where bit 63 is set the call is refused, and the low byte says why (enum ot_refusal).
   Otherwise it is the result; of two results the first is the low 32 bits and the second the high 32.
   ot_well_formed, ot_num_chars, ot_step and ot_insert_text are never refused.

   Stack: ot_accept uses about 12 KB, and 55 KB where the edit on its way past other revisions has more than 1,024 bytes, it or a
   counterpart more than 128 operations, or the counterparts more than 8,192 bytes; ot_undo 36 KB more than ot_accept does with the
   inverse for its edit; ot_summary 82 KB, ot_compose 9 KB, ot_transform 7 KB, every other call less than 4 KB. */
#ifndef OT_H
#define OT_H

#include <stddef.h>
#include <stdint.h>

#ifdef __cplusplus
extern "C" {
#endif

/* Why a call is refused. Operands are checked in order: records or a list, text, log, then the rest. */
enum ot_refusal {
    OT_BAD_SIZE = 1,       /* an edit's buffer is too short for it, or it has over 1,024 operations or another size over 32,768 */
    OT_BAD_ENTRY = 2,      /* an edit has an unknown kind or a count of 0, or its insert counts don't add up to its text */
    OT_BAD_UTF8 = 3,       /* a text, or one insert's bytes, isn't well-formed UTF-8 */
    OT_BAD_NEIGHBOURS = 4, /* two neighbours in an edit have the same kind, or an insert directly follows a delete */
    OT_BAD_SUMS = 5,       /* an edit's stated base or target differs from the sum of its operations */
    OT_BAD_LOG = 6,        /* the log can't be read */
    OT_NO_REVISION = 7,    /* the revision named is greater than the log's count, or 0 where one is to be undone */
    OT_LENGTHS_DIFFER = 8, /* the edit wasn't made for this text, this revision or this other edit: the lengths differ */
    OT_OVER_LIMIT = 9,     /* the result would pass a limit: 1,024 operations, 32,768 of another size, 256 revisions */
    OT_NO_ROOM = 10,       /* an output, a scratch buffer or the rest of the log's buffer is too short; nothing was written */
    OT_BAD_JSON = 11       /* the bytes are no list of the form that ot_from_json reads */
};

/* Sizes in bytes that always suffice: for an edit, a log, all counterparts of one ot_accept or ot_undo, a text after an edit,
   the list that ot_to_json writes. */
#define OT_RECORD_MAX 35848
#define OT_LOG_MAX (4 + 256 * 35848)
#define OT_COUNTERPARTS_MAX (255 * 35848)
#define OT_TEXT_MAX 131072
#define OT_JSON_MAX 203778

/* Reading an answer. */
#define OT_REFUSED(answer) ((int)((uint64_t)(answer) >> 63))
#define OT_REFUSAL(answer) ((int)((uint64_t)(answer) & 0xFF))
#define OT_FIRST(answer) ((size_t)((uint64_t)(answer) & 0xFFFFFFFF))
#define OT_SECOND(answer) ((size_t)((uint64_t)(answer) >> 32))

/* ---- texts */

/* 1 where the text is well-formed UTF-8, else 0. */
uint64_t ot_well_formed(const uint8_t *text, size_t text_len);

/* How many characters it has: bytes that aren't continuations. */
uint64_t ot_num_chars(const uint8_t *bytes, size_t bytes_len);

/* ---- what can be asked of an edit */

/* How many bytes its record has; the lowest of the refusals 1 to 5 that is found in it. */
uint64_t ot_check(const uint8_t *rec, size_t rec_len);

/* How many characters the text before and after the edit has. */
uint64_t ot_base_len(const uint8_t *rec, size_t rec_len);
uint64_t ot_target_len(const uint8_t *rec, size_t rec_len);

/* 1 where the edit changes no text (no operations, or one retain), else 0. */
uint64_t ot_is_noop(const uint8_t *rec, size_t rec_len);

/* What stands at operation `at`, counted from 0: the kind plus 256 times the count. 0 past the last one and where the edit is
   one that ot_check refuses. */
uint64_t ot_step(const uint8_t *rec, size_t rec_len, uint64_t at);

/* The text that operation k inserts: where it begins in rec, then how many bytes it has. 0 where there is none. */
uint64_t ot_insert_text(const uint8_t *rec, size_t rec_len, uint64_t k);

/* ---- building an edit: rec with one more operation goes to out; how many bytes out then has */

uint64_t ot_retain(const uint8_t *rec, size_t rec_len, uint64_t n, uint8_t *out, size_t out_len);
uint64_t ot_delete(const uint8_t *rec, size_t rec_len, uint64_t n, uint8_t *out, size_t out_len);
uint64_t ot_insert(const uint8_t *rec, size_t rec_len, const uint8_t *text, size_t text_len, uint8_t *out, size_t out_len);

/* ---- an edit as a JSON list (RFC 8259), as a browser sends and takes it: a positive whole number retains, a negative one
   deletes, a string inserts; how many bytes were written */

/* The edit of a list, one value after another through the builders. White space, all escapes and numbers of any length are read.
   OT_BAD_JSON, before any other refusal, where the bytes are anything else: also for ill-formed UTF-8, a 0, a fraction, an
   exponent or a lone surrogate. */
uint64_t ot_from_json(const uint8_t *list, size_t list_len, uint8_t *out, size_t out_len);

/* The list of an edit, which ot_from_json reads as the same record. It has no white space; a quotation mark, a backslash and the
   codes below 20 hexadecimal are escaped, and nothing else is. */
uint64_t ot_to_json(const uint8_t *rec, size_t rec_len, uint8_t *out, size_t out_len);

/* ---- edits and texts: how many bytes were written */

/* The text after the edit. */
uint64_t ot_apply(const uint8_t *rec, size_t rec_len, const uint8_t *text, size_t text_len, uint8_t *out, size_t out_len);

/* The edit that undoes rec on the text: applied to what ot_apply gives, it gives the text again. OT_LENGTHS_DIFFER where the text
   hasn't as many characters as rec asks for. */
uint64_t ot_invert(const uint8_t *rec, size_t rec_len, const uint8_t *text, size_t text_len, uint8_t *out, size_t out_len);

/* The one edit that does what a does, then b. */
uint64_t ot_compose(const uint8_t *a, size_t a_len, const uint8_t *b, size_t b_len, uint8_t *out, size_t out_len);

/* Two edits of one text, each moved past the other: a, then out_b, gives the text that b, then out_a, gives. Two results: how many
   bytes out_a has, then out_b. */
uint64_t ot_transform(const uint8_t *a, size_t a_len, const uint8_t *b, size_t b_len, uint8_t *out_a, size_t out_a_len,
                      uint8_t *out_b, size_t out_b_len);

/* ---- a session's log. `log_len` is the size of its buffer, not of its contents. */

/* A log with no revisions, for a text of `start` characters; its 4 bytes. */
uint64_t ot_open(uint64_t start, uint8_t *log, size_t log_len);

/* Takes in an edit that was written against revision r, 0 being the start: it is moved past the revisions that came since and
   appended as a new one. The counterparts, which take the author's own text to the newest, go to out, oldest
   first, end to end. Two results: how many bytes the log grew by, then how many the counterparts have. */
uint64_t ot_accept(const uint8_t *edit, size_t edit_len, uint64_t r, uint8_t *log, size_t log_len, uint8_t *out, size_t out_len);

/* Takes revision k back, 1 being the first, although others came after it. text is the text that the session began with: the
   revisions before k are played on it, revision k is inverted on what they give, and the inverse is taken in as ot_accept takes in
   an edit that was written against revision k, with the same two results. For the newest revision the text is then the one before
   it, and undoing that undo gives the edited text again. k is this log's number: a copy of the session may have its revisions under
   others. Of the text only the length is tested. Each scratch buffer has to hold every text up to revision k - 1, the first
   included; what stands in them afterwards is nobody's. */
uint64_t ot_undo(uint8_t *log, size_t log_len, uint64_t k, const uint8_t *text, size_t text_len, uint8_t *scratch_a,
                 size_t scratch_a_len, uint8_t *scratch_b, size_t scratch_b_len, uint8_t *out, size_t out_len);

/* All revisions as one edit; how many bytes it has. */
uint64_t ot_summary(const uint8_t *log, size_t log_len, uint8_t *out, size_t out_len);

/* The text after all revisions, played on the starting text; how many bytes it has. Each scratch buffer has to hold every text on
   the way, the first and the last included; what stands in them afterwards is nobody's. */
uint64_t ot_play(const uint8_t *log, size_t log_len, const uint8_t *text, size_t text_len, uint8_t *scratch_a, size_t scratch_a_len,
                 uint8_t *scratch_b, size_t scratch_b_len, uint8_t *out, size_t out_len);

#ifdef __cplusplus
}
#endif

#endif
