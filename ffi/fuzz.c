/* Random calls with random bytes on two documents in each of two threads: `ffi/fuzz` builds and runs it, under valgrind.
 *
 *   fuzz CALLS SEED     prints how many calls were made, how many of them were refused, and how often each status came
 *
 * After each call what the header says of it is checked: which statuses it may return, how long the answer is, what a refusal
 * leaves. In a part of the calls growths are refused at random, by taking the place of malloc and realloc. In half of the rounds
 * of 500 calls no bytes of the engine are changed on their way; it ends by a merge both ways, which leaves equal documents. */
#include "textpeer.h"

#include <pthread.h>
#include <stdbool.h>
#include <stdio.h>
#include <stdlib.h>
#include <string.h>

enum { THREADS = 2, DOCUMENTS = 2, ROUND = 500, ROOM = 1 << 16, LINKS = 4, STATUSES = 1024 };

/* ---- growths that are refused */

void *__real_malloc(size_t size);
void *__real_realloc(void *block, size_t size);

static _Thread_local uint64_t random_state;
static _Thread_local unsigned growths_refused_in; /* one growth in this many is refused; 0: none */

static uint64_t draw(void)
{
    uint64_t x = random_state += 0x9e3779b97f4a7c15;
    x = (x ^ (x >> 30)) * 0xbf58476d1ce4e5b9;
    x = (x ^ (x >> 27)) * 0x94d049bb133111eb;
    return x ^ (x >> 31);
}

static size_t below(size_t end)
{
    return draw() % end;
}

static bool is_refused(void)
{
    return growths_refused_in && below(growths_refused_in) == 0;
}

void *__wrap_malloc(size_t size)
{
    return is_refused() ? NULL : __real_malloc(size);
}

void *__wrap_realloc(void *block, size_t size)
{
    return is_refused() ? NULL : __real_realloc(block, size);
}

/* ---- what a thread has */

typedef struct {
    tp_handle documents[DOCUMENTS];
    size_t links[DOCUMENTS];
    uint64_t lives[DOCUMENTS]; /* how often each was replaced: its actors are new then */
    bool honest;
    uint8_t bytes[ROOM], answer[ROOM]; /* what is given, and what was answered last */
    size_t answer_len;
    uint64_t seed, calls, refused, agreed, counts[STATUSES];
} fuzzer;

static void fail(const char *call, const char *what)
{
    fprintf(stderr, "%s: %s\n", call, what);
    exit(1);
}

static void check(bool holds, const char *call, const char *what)
{
    if (!holds)
        fail(call, what);
}

/* The status is 0 or one of these, up to a 0. */
static uint32_t status_of(fuzzer *f, const char *call, uint32_t status, const uint32_t *allowed)
{
    bool known = status == 0;
    for (; *allowed; allowed++)
        known |= status == *allowed;
    if (!known) {
        fprintf(stderr, "%s: status %u\n", call, (unsigned)status);
        exit(1);
    }
    f->counts[status]++;
    f->refused += status != 0;
    return status;
}

#define STATUS(call, status, ...) status_of(f, call, status, (const uint32_t[]){__VA_ARGS__ __VA_OPT__(, ) 0})

/* Keeps the answer, and checks that there is as much of it as was said. */
static void keep_answer(fuzzer *f, tp_handle *handle, const char *call, size_t len)
{
    uint8_t *out = __real_malloc(len + 1);
    if (out == NULL)
        fail(call, "no memory");
    out[len] = 0xa5;
    check(tp_answer(handle, out, len + 1) == len, call, "the answer has another length");
    check(out[len] == 0xa5, call, "more was written than was told");
    f->answer_len = len < ROOM ? len : ROOM;
    memcpy(f->answer, out, f->answer_len);
    size_t part = below(len + 1);
    memset(out, 0, len);
    check(tp_answer(handle, out, part) == part, call, "a part of the answer has another length");
    check(memcmp(out, f->answer, part < ROOM ? part : ROOM) == 0, call, "a part of the answer is other bytes");
    free(out);
}

/* ---- what is given */

/* Bytes: none, random ones, or those of the last answer, whole or cut or changed. */
static size_t some_bytes(fuzzer *f)
{
    size_t len = f->answer_len;
    switch (below(12)) {
    case 0:
        return 0;
    case 1:
        len = below(200);
        for (size_t i = 0; i < len; i++)
            f->bytes[i] = draw();
        return len;
    default:
        memcpy(f->bytes, f->answer, len);
        break;
    }
    if (f->honest)
        return len;
    if (len && below(3) == 0)
        len = below(len);
    for (size_t changed = below(4) == 0 ? below(4) : 0; len && changed; changed--)
        f->bytes[below(len)] ^= 1 << below(8);
    return len;
}

/* A text as UTF-8, of scalars of one to four bytes, or rarely bytes that are none; *scalars is how many it has. */
static size_t some_text(uint8_t *out, size_t most, size_t *scalars)
{
    static const char *const UNITS[] = {"a", " ", "\n", "\xc3\xa9", "\xe2\x82\xac", "\xf0\x9f\x98\x80", "\xff"};
    size_t len = 0, count = below(most);
    for (size_t i = 0; i < count; i++) {
        const char *unit = UNITS[below(512) == 0 ? 6 : below(6)];
        memcpy(out + len, unit, strlen(unit));
        len += strlen(unit);
    }
    *scalars = count;
    return len;
}

static const uint8_t *some_actor(fuzzer *f, size_t document)
{
    static _Thread_local uint8_t actor[16];
    memset(actor, 0, sizeof actor);
    memcpy(actor, &f->lives[document], sizeof f->lives[document]);
    actor[14] = document;
    actor[15] = below(2);
    return actor;
}

static const uint8_t *some_id(void)
{
    static const uint8_t IDS[2][16] = {{1}, {2}};
    return IDS[below(16) == 0];
}

/* A position: within the text, or anywhere. */
static size_t some_position(tp_handle *handle)
{
    return below(16) == 0 ? (size_t)draw() : below(tp_len(handle) + 2);
}

/* ---- calls */

static void fuzz_edit(fuzzer *f, size_t document)
{
    tp_handle *handle = &f->documents[document];
    uint8_t text[200], message[100];
    size_t scalars, message_scalars, len = 1, before = tp_len(handle), changes = tp_change_count(handle);
    size_t text_len = some_text(text, 40, &scalars), message_len = below(4) ? 0 : some_text(message, 20, &message_scalars);
    size_t at = some_position(handle), del = below(4) ? 0 : below(20);
    uint32_t status = STATUS("tp_edit", tp_edit(handle, some_actor(f, document), at, del, text_len ? (char *)text : NULL, text_len, draw(),
                             message_len ? (char *)message : NULL, message_len, &len), 4, 101, 102, 103, 104, 108, 109, 111, 112);
    if (status == 0) {
        check(tp_len(handle) == before - del + scalars, "tp_edit", "the text has another length");
        check(len == (scalars || del ? 32 : 0), "tp_edit", "the answer is no hash");
        check(tp_change_count(handle) == changes + (len != 0), "tp_edit", "another number of changes");
        keep_answer(f, handle, "tp_edit", len);
    } else {
        check(tp_len(handle) == before && tp_change_count(handle) == changes, "tp_edit", "a refusal changed the document");
        check(len == 0 && tp_answer(handle, text, 1) == 0, "tp_edit", "a refusal has an answer");
    }
}

/* Splices one after another; *left is how long the text is that they leave, and *fit whether each is within the text that the
 * ones before it leave, as mostly. */
static size_t some_splices(tp_handle *handle, tp_splice *splices, uint8_t *texts, size_t *texts_len, size_t *left, bool *fit)
{
    size_t count = below(8), scalars, length = tp_len(handle);
    *texts_len = 0;
    *fit = true;
    for (size_t i = 0; i < count; i++) {
        size_t at = below(32) == 0 ? (size_t)draw() : below(length + 1), most = at <= length ? length - at : 0;
        size_t del = below(32) == 0 ? below(20) : below((most < 20 ? most : 20) + 1);
        splices[i] = (tp_splice){.at = at, .del = del, .len = some_text(texts + *texts_len, 10, &scalars)};
        *texts_len += splices[i].len;
        *fit &= at <= length && del <= most;
        length = *fit ? length - del + scalars : length;
    }
    *left = length;
    return count;
}

static void fuzz_edit_many(fuzzer *f, size_t document)
{
    tp_handle *handle = &f->documents[document];
    tp_splice splices[8];
    uint8_t texts[512];
    size_t texts_len, left, before = tp_len(handle), changes = tp_change_count(handle), together = 0, len = 1;
    bool fit;
    size_t count = some_splices(handle, splices, texts, &texts_len, &left, &fit);
    if (count && below(16) == 0)
        splices[below(count)].len += below(2) ? 1 : (size_t)draw();
    for (size_t i = 0; i < count; i++)
        together += splices[i].len;
    uint32_t status = STATUS("tp_edit_many", tp_edit_many(handle, some_actor(f, document), count ? splices : NULL, count, texts_len ? (char *)texts : NULL,
                             texts_len, draw(), NULL, 0, &len), 1, 4, 5, 101, 102, 103, 104, 108, 109, 111, 112);
    check((status == 5) == (together != texts_len), "tp_edit_many", "refused otherwise");
    check(status != 101 || !fit, "tp_edit_many", "refused within the text");
    if (status == 0) {
        check(fit && tp_len(handle) == left, "tp_edit_many", "the text has another length");
        check(len == 0 || len == 32, "tp_edit_many", "the answer is no hash");
        check(tp_change_count(handle) == changes + (len != 0), "tp_edit_many", "another number of changes");
        keep_answer(f, handle, "tp_edit_many", len);
    } else {
        check(tp_len(handle) == before && tp_change_count(handle) == changes, "tp_edit_many", "a refusal changed the document");
    }
}

static void fuzz_answers(fuzzer *f, tp_handle *handle)
{
    size_t len = 0, count = tp_change_count(handle), place = below(8) ? below(count + 1) : (size_t)draw();
    switch (below(4)) {
    case 0:
        if (STATUS("tp_text", tp_text(handle, &len), 109) == 0)
            check(len >= tp_len(handle), "tp_text", "fewer bytes than characters");
        break;
    case 1:
        if (STATUS("tp_heads", tp_heads(handle, &len), 109) == 0)
            check(len % 32 == 0 && (len == 0) == (count == 0), "tp_heads", "no list of heads");
        break;
    case 2: {
        uint32_t status = STATUS("tp_change_at", tp_change_at(handle, place, &len), 3, 1);
        check((status == 3) == (place >= count), "tp_change_at", "refused otherwise");
        break;
    }
    default:
        STATUS("tp_save", tp_save(handle, &len), 307);
    }
    keep_answer(f, handle, "an answer", len);
}

static void fuzz_cursor(fuzzer *f, tp_handle *handle)
{
    tp_element element = {draw(), {0}};
    size_t at = some_position(handle), found = 77;
    if (STATUS("tp_cursor", tp_cursor(handle, at, &element), 101) == 0) {
        check(tp_cursor_position(handle, &element, &found) == 0 && found == at, "tp_cursor", "the cursor is elsewhere");
    } else {
        check(at >= tp_len(handle), "tp_cursor", "refused within the text");
        STATUS("tp_cursor_position", tp_cursor_position(handle, &element, &found), 106);
    }
}

/* ---- earlier texts */

/* The answer, which the caller frees. */
static uint8_t *answer_of(tp_handle *handle, const char *call, size_t len)
{
    uint8_t *out = __real_malloc(len + 1);
    if (out == NULL)
        fail(call, "no memory");
    check(tp_answer(handle, out, len) == len, call, "the answer has another length");
    return out;
}

static size_t scalars_of(const uint8_t *text, size_t len)
{
    size_t count = 0;
    for (size_t i = 0; i < len; i++)
        count += (text[i] & 0xc0) != 0x80;
    return count;
}

/* Heads: how many bytes they have, and what is wrong with them. */
typedef struct {
    uint8_t bytes[32 * 8];
    size_t len;
    bool ends_within, is_unknown;
} some_heads;

/* Hashes of changes, none or one twice among them, or the heads of now; rarely cut or changed. */
static void draw_heads(tp_handle *handle, some_heads *heads)
{
    size_t changes = tp_change_count(handle), count = below(4);
    tp_change change;
    memset(heads, 0, sizeof *heads);
    if (changes && below(4) == 0 && tp_heads(handle, &heads->len) == 0 && heads->len <= 32 * 7) {
        tp_answer(handle, heads->bytes, heads->len);
    } else {
        heads->len = 0;
        for (size_t unused; changes && count--; heads->len += 32)
            if (tp_change_describe(handle, below(changes), &change, &unused) == 0)
                memcpy(heads->bytes + heads->len, change.hash, 32);
    }
    if (below(16) == 0) {
        heads->bytes[heads->len ? below(heads->len) : 0] ^= 1 << below(8);
        heads->is_unknown = heads->len != 0;
    }
    if (below(16) == 0) {
        heads->len += 1 + below(31);
        heads->ends_within = true;
    }
}

/* A refusal is one that the heads are due, and no other call was done. */
static void check_heads(const char *call, uint32_t status, bool ends_within, bool is_unknown)
{
    check(status != 5 || ends_within, call, "refused whole hashes");
    check(status != 105 || is_unknown, call, "refused hashes of changes");
    check(status != 109 || growths_refused_in, call, "refused for want of memory");
    check(status != 0 || !(ends_within || is_unknown), call, "done at such heads");
}

/* The text at the heads, which the caller frees; *len is its length. */
static uint8_t *text_at(tp_handle *handle, const some_heads *heads, size_t *len)
{
    check(tp_text_at(handle, heads->bytes, heads->len, len) == 0, "tp_text_at", "refused");
    return answer_of(handle, "tp_text_at", *len);
}

static void fuzz_text_at(fuzzer *f, tp_handle *handle)
{
    some_heads heads;
    size_t len = 77, count = 77;
    unsigned refuse = growths_refused_in;
    growths_refused_in = 0;
    draw_heads(handle, &heads);
    growths_refused_in = refuse;
    const uint8_t *bytes = heads.len ? heads.bytes : NULL;
    uint32_t status = STATUS("tp_len_at", tp_len_at(handle, bytes, heads.len, &count), 5, 105, 109);
    check_heads("tp_len_at", status, heads.ends_within, heads.is_unknown);
    check(status == 0 || count == 77, "tp_len_at", "a refusal wrote a number");
    bool is_counted = status == 0;
    status = STATUS("tp_text_at", tp_text_at(handle, bytes, heads.len, &len), 5, 105, 109);
    check_heads("tp_text_at", status, heads.ends_within, heads.is_unknown);
    keep_answer(f, handle, "tp_text_at", len);
    if (status == 0 && is_counted) {
        uint8_t *text = answer_of(handle, "tp_text_at", len);
        check(scalars_of(text, len) == count, "tp_len_at", "another length than the text's");
        free(text);
    }
}

/* The splices, each with the next bytes of the texts, lead from the one text to the other: they rise, none is empty or
 * touches another, and no bytes are left over. */
static void check_leads(const uint8_t *from, size_t from_len, const uint8_t *to, size_t to_len, const tp_splice *splices,
                        size_t count, const uint8_t *texts, size_t texts_len)
{
    static const char CALL[] = "tp_differences";
    size_t read = 0, written = 0, at = 0, used = 0, end_of_last = 0;
    for (size_t i = 0; i <= count; i++) {
        /* What stays, up to the next splice or the end. */
        for (size_t end = i < count ? splices[i].at : SIZE_MAX; at < end && read < from_len; at++)
            do {
                check(written < to_len && from[read] == to[written], CALL, "what stays is another text");
                read++, written++;
            } while (read < from_len && (from[read] & 0xc0) == 0x80);
        if (i == count)
            break;
        tp_splice splice = splices[i];
        check(at == splice.at && (i == 0 || at > end_of_last), CALL, "splices don't rise, or touch");
        check(splice.del + splice.len != 0, CALL, "a splice that does nothing");
        check(splice.len <= texts_len - used && splice.len <= to_len - written, CALL, "a splice of more text than there is");
        for (size_t left = splice.del; left; left--) {
            check(read < from_len, CALL, "more is deleted than is there");
            do
                read++;
            while (read < from_len && (from[read] & 0xc0) == 0x80);
        }
        check(memcmp(texts + used, to + written, splice.len) == 0, CALL, "what comes is another text");
        end_of_last = at += scalars_of(texts + used, splice.len);
        used += splice.len;
        written += splice.len;
    }
    check(read == from_len && written == to_len && used == texts_len, CALL, "something is left over");
}

/* The differences from some heads to others, or to the text now where there are none. */
static uint32_t differences_of(tp_handle *handle, const some_heads *from, const some_heads *to, tp_splice *splices, size_t room,
                               size_t *count, size_t *len)
{
    return to ? tp_differences(handle, from->bytes, from->len, to->bytes, to->len, splices, room, count, len)
              : tp_differences_since(handle, from->bytes, from->len, splices, room, count, len);
}

static void fuzz_differences(fuzzer *f, tp_handle *handle)
{
    some_heads from, others, *to = below(2) ? &others : NULL;
    tp_splice first[8];
    size_t room = below(8), count = 77, len = 77;
    unsigned refuse = growths_refused_in;
    growths_refused_in = 0;
    draw_heads(handle, &from);
    draw_heads(handle, &others);
    growths_refused_in = refuse;
    memset(first, 0x5a, sizeof first);
    uint32_t status = STATUS("tp_differences", differences_of(handle, &from, to, room ? first : NULL, room, &count, &len), 5, 105, 109);
    check_heads("tp_differences", status, from.ends_within || (to && to->ends_within), from.is_unknown || (to && to->is_unknown));
    keep_answer(f, handle, "tp_differences", len);
    size_t written = status != 0 ? 0 : count < room ? count : room;
    for (size_t i = written; i < 8; i++)
        check(first[i].at == 0x5a5a5a5a5a5a5a5a && first[i].len == first[i].at, "tp_differences", "more was written than there is, or is room for");
    if (status != 0) {
        check(count == 77, "tp_differences", "a refusal wrote a number");
        return;
    }
    growths_refused_in = 0;
    tp_splice *splices = __real_malloc((count + 1) * sizeof *splices);
    if (splices == NULL)
        fail("tp_differences", "no memory");
    size_t again = 0, texts_len = 0, from_len, to_len = 0;
    check(differences_of(handle, &from, to, splices, count, &again, &texts_len) == 0, "tp_differences", "refused");
    check(again == count && texts_len == len, "tp_differences", "other differences the second time");
    check(memcmp(first, splices, written * sizeof *splices) == 0, "tp_differences", "other splices the second time");
    uint8_t *texts = answer_of(handle, "tp_differences", texts_len), *text = text_at(handle, &from, &from_len), *then;
    if (to) {
        then = text_at(handle, to, &to_len);
    } else {
        check(tp_text(handle, &to_len) == 0, "tp_text", "refused");
        then = answer_of(handle, "tp_text", to_len);
    }
    check_leads(text, from_len, then, to_len, splices, count, texts, texts_len);
    free(splices);
    free(texts);
    free(text);
    free(then);
}

/* ---- what changes say, and forks */

/* The number in the next bytes, with the most significant byte first. */
static uint64_t read_number(const uint8_t **bytes, size_t size)
{
    uint64_t number = 0;
    while (size--)
        number = number << 8 | *(*bytes)++;
    return number;
}

/* A change says what its bytes do (docs/FORMATS.md); named are the hashes that it depends on, and its message. */
static void check_change(const tp_change *change, const uint8_t *named, size_t named_len, const uint8_t *bytes, size_t len)
{
    static const char CALL[] = "tp_change_describe";
    const uint8_t *at = bytes + 1;
    check(memcmp(at, change->actor, 16) == 0, CALL, "another actor");
    at += 16;
    check(read_number(&at, 8) == change->seq, CALL, "another sequence number");
    at += 8;
    check(read_number(&at, 8) == change->time, CALL, "another time");
    size_t message_len = read_number(&at, 2);
    const uint8_t *message = at;
    at += message_len;
    check(read_number(&at, 2) == change->deps && named_len == 32 * change->deps + message_len, CALL, "another number of dependencies");
    check(memcmp(named, at, 32 * change->deps) == 0, CALL, "other dependencies");
    check(memcmp(named + 32 * change->deps, message, message_len) == 0, CALL, "another message");
    at += 32 * change->deps;
    size_t inserted = 0, deleted = 0;
    for (size_t records = read_number(&at, 4); records; records--) {
        uint64_t tag = read_number(&at, 1);
        if (tag == 1) {
            at += *at ? 25 : 1;
            size_t text_len = read_number(&at, 4);
            inserted += scalars_of(at, text_len);
            at += text_len;
        } else {
            at += 24;
            deleted += tag == 3 ? read_number(&at, 4) : 1;
        }
    }
    check(at == bytes + len && inserted == change->inserted && deleted == change->deleted, CALL, "other counts");
}

static void fuzz_describe(fuzzer *f, tp_handle *handle)
{
    size_t count = tp_change_count(handle), place = below(8) ? below(count + 1) : (size_t)draw(), len = 77, bytes_len = 0;
    tp_change change, before;
    memset(&before, 0x5a, sizeof before);
    change = before;
    uint32_t status = STATUS("tp_change_describe", tp_change_describe(handle, place, &change, &len), 3, 1);
    check((status == 3) == (place >= count), "tp_change_describe", "refused otherwise");
    keep_answer(f, handle, "tp_change_describe", len);
    if (status != 0) {
        check(memcmp(&change, &before, sizeof change) == 0, "tp_change_describe", "a refusal wrote a change");
        return;
    }
    growths_refused_in = 0;
    uint8_t *named = answer_of(handle, "tp_change_describe", len);
    check(tp_change_at(handle, place, &bytes_len) == 0, "tp_change_at", "refused");
    uint8_t *bytes = answer_of(handle, "tp_change_at", bytes_len);
    check_change(&change, named, len, bytes, bytes_len);
    free(named);
    free(bytes);
}

/* The answers of a call on two handles are the same. */
static void check_same(tp_handle *handle, tp_handle *other, const char *call, uint32_t (*answers)(tp_handle *, size_t *))
{
    size_t len = 0, other_len = 0;
    check(answers(handle, &len) == 0 && answers(other, &other_len) == 0, call, "refused");
    uint8_t *out = answer_of(handle, call, len), *other_out = answer_of(other, call, other_len);
    check(len == other_len && memcmp(out, other_out, len) == 0, call, "two documents that are equal differ");
    free(out);
    free(other_out);
}

/* A fork has what the document has, and what is done to either is no change of the other. */
static void fuzz_fork(fuzzer *f, tp_handle *handle)
{
    static const uint8_t ACTOR[16] = {0xff};
    tp_handle fork = {NULL};
    size_t count = tp_change_count(handle), len;
    if (STATUS("tp_fork", tp_fork(handle, ACTOR, &fork.at), 1, 109) != 0) {
        check(fork.at == NULL && growths_refused_in, "tp_fork", "a refusal wrote a handle");
        return;
    }
    growths_refused_in = 0;
    check(tp_change_count(&fork) == count && tp_answer(&fork, f->bytes, 1) == 0, "tp_fork", "not a copy");
    check_same(handle, &fork, "tp_heads", tp_heads);
    check_same(handle, &fork, "tp_text", tp_text);
    check_same(handle, &fork, "tp_save", tp_save);
    check(tp_shared_edit(&fork, 0, 0, "x", 1, 0, NULL, 0, &len) == 0 && tp_change_count(&fork) == count + 1, "tp_fork", "no edit");
    check(tp_change_count(handle) == count, "tp_fork", "an edit of a copy changed the document");
    tp_free(fork);
}

static void fuzz_earlier(fuzzer *f, tp_handle *handle)
{
    switch (below(8)) {
    case 0: case 1:
        fuzz_text_at(f, handle);
        break;
    case 2: case 3: case 4:
        fuzz_differences(f, handle);
        break;
    case 5: case 6:
        fuzz_describe(f, handle);
        break;
    default:
        fuzz_fork(f, handle);
    }
}

/* ---- what others have */

/* Bytes for tp_load, tp_apply or tp_receive: of the other document, or any. */
static size_t bytes_for(fuzzer *f, tp_handle *other, unsigned call, size_t link)
{
    size_t len = 0;
    if (below(8)) {
        unsigned saved = growths_refused_in;
        growths_refused_in = 0;
        if (call == 0 && tp_save(other, &len) == 0)
            keep_answer(f, other, "tp_save", len);
        else if (call == 1 && tp_change_at(other, below(tp_change_count(other) + 1), &len) == 0)
            keep_answer(f, other, "tp_change_at", len);
        else if (call == 2 && tp_generate(other, link, &len) == 0 && len)
            keep_answer(f, other, "tp_generate", len);
        growths_refused_in = saved;
    }
    return some_bytes(f);
}

static void replaced(fuzzer *f, size_t document)
{
    f->links[document] = 0;
    f->lives[document]++;
}

static void fuzz_bytes(fuzzer *f, size_t document)
{
    tp_handle *handle = &f->documents[document], *other = &f->documents[1 - document];
    size_t before = tp_len(handle), changes = tp_change_count(handle), link = below(f->links[document] + 1);
    unsigned call = below(16) == 0 ? 0 : 1 + below(2);
    size_t len = bytes_for(f, other, call, below(f->links[1 - document] + 1));
    const uint8_t *bytes = len ? f->bytes : NULL;
    uint32_t status;
    if (call == 0) {
        status = STATUS("tp_load", tp_load(handle, bytes, len), 301, 302, 303, 304, 305, 307);
        if (status == 0)
            replaced(f, document);
    } else if (call == 1) {
        status = STATUS("tp_apply", tp_apply(handle, bytes, len), 1, 107, 109, 401, 402, 403, 404, 405, 406, 407, 408, 409, 410, 411, 412);
    } else {
        status = STATUS("tp_receive", tp_receive(handle, link, bytes, len), 1, 2, 201, 202, 204, 205);
        check(status != 2 || link >= f->links[document], "tp_receive", "the link is there");
    }
    if (status >= 300 && status != 411)
        check(tp_len(handle) == before && tp_change_count(handle) == changes, "tp_load or tp_apply", "a refusal changed the document");
    check(call == 0 || tp_change_count(handle) >= changes, "tp_apply or tp_receive", "changes are gone");
}

static void fuzz_link(fuzzer *f, size_t document)
{
    tp_handle *handle = &f->documents[document];
    size_t link = 77, len = 77;
    if (f->links[document] < LINKS && below(2)) {
        if (STATUS("tp_link", tp_link(handle, &link)) == 0)
            check(link == f->links[document]++, "tp_link", "another number");
        return;
    }
    link = below(LINKS + 1);
    uint32_t status = STATUS("tp_generate", tp_generate(handle, link, &len), 2, 1, 203);
    check((status == 2) == (link >= f->links[document]), "tp_generate", "refused otherwise");
    check(status == 0 || len == 0, "tp_generate", "a refusal has a length");
    if (len)
        keep_answer(f, handle, "tp_generate", len);
}

static void fuzz_merge(fuzzer *f, size_t document)
{
    tp_handle *handle = &f->documents[document], *other = &f->documents[1 - document];
    uint8_t id[16], other_id[16];
    tp_id(handle, id);
    tp_id(other, other_id);
    size_t others = tp_change_count(other);
    uint32_t status = STATUS("tp_merge", tp_merge(handle, other), 109, 110);
    check((status == 110) == (memcmp(id, other_id, sizeof id) != 0), "tp_merge", "refused otherwise");
    check(status != 0 || !f->honest || tp_change_count(handle) >= others, "tp_merge", "fewer changes than the other has");
    check(tp_change_count(other) == others, "tp_merge", "the other one changed");
}

/* ---- sessions */

/* One side of a session: what it has to send, and what was sent to it last. */
typedef struct {
    tp_handle *handle;
    uint8_t *due;
    size_t due_len;
    size_t changes; /* that were there before */
    uint32_t status, going;
    uint64_t entered;
} side;

static side begin_side(fuzzer *f, tp_handle *handle, uint32_t role)
{
    side side = {.handle = handle, .changes = tp_change_count(handle)};
    side.status = STATUS("tp_shared_begin", tp_shared_begin(handle, role, &side.due_len), 608);
    side.going = side.status == 0;
    side.due = answer_of(handle, "tp_shared_begin", side.due_len);
    check(side.status == 0 ? side.due_len != 0 || role == 1 : side.due_len == 0, "tp_shared_begin", "another answer");
    return side;
}

/* What one side has to send goes to the other, in pieces of any lengths; *is_harmed is set where bytes were changed. */
static void carry(fuzzer *f, side *from, side *to, bool *is_harmed)
{
    uint8_t *bytes = from->due;
    size_t left = from->due_len, len;
    for (; left && !f->honest && below(64) == 0; *is_harmed = true)
        bytes[below(left)] ^= 1 << below(8);
    from->due = NULL;
    from->due_len = 0;
    for (size_t at = 0; at < left;) {
        size_t piece = below(4) ? left - at : 1 + below(left - at);
        bool was_going = to->going;
        uint32_t status = tp_shared_feed(to->handle, bytes + at, piece, &len, &to->going, &to->entered);
        check(status < 706 || (status < 956 && *is_harmed), "tp_shared_feed", "another status");
        if (status < 700)
            STATUS("tp_shared_feed", status, 201, 202, 203, 204, 205, 509, 602, 603, 604, 605, 608);
        check(status == 0 || !to->going, "tp_shared_feed", "goes on after a refusal");
        check(was_going || !to->going, "tp_shared_feed", "goes on after its end");
        to->status = to->status ? to->status : status;
        to->due = __real_realloc(to->due, to->due_len + len + 1);
        if (to->due == NULL)
            fail("tp_shared_feed", "no memory");
        to->due_len += tp_answer(to->handle, to->due + to->due_len, len);
        at += piece;
    }
    free(bytes);
}

/* A session between the two documents: it ends, where no bytes were harmed on their way and memory was there; and both have the
 * same changes then, where none was harmed before. */
static void fuzz_session(fuzzer *f)
{
    uint8_t id[16], other_id[16];
    bool is_harmed = false;
    side client = begin_side(f, &f->documents[0], 0), server = begin_side(f, &f->documents[1], 1);
    tp_id(client.handle, id);
    tp_id(server.handle, other_id);
    for (int turns = 0; (client.due_len || server.due_len) && turns < 100; turns++) {
        carry(f, &client, &server, &is_harmed);
        carry(f, &server, &client, &is_harmed);
    }
    if (!is_harmed && !growths_refused_in)
        check(!client.going && !server.going, "tp_shared_feed", "a session has no end");
    if (f->honest && !growths_refused_in) {
        bool is_same = memcmp(id, other_id, sizeof id) == 0;
        check(is_same == (client.status == 0 && server.status == 0), "tp_shared_feed", "refused otherwise");
        check(tp_change_count(client.handle) == client.changes + client.entered, "tp_shared_feed", "another number of changes entered");
        check(tp_change_count(server.handle) == server.changes + server.entered, "tp_shared_feed", "another number of changes entered");
        if (is_same)
            check_same(client.handle, server.handle, "tp_shared_feed", tp_heads);
    }
    tp_shared_end(client.handle);
    tp_shared_end(server.handle);
    free(client.due);
    free(server.due);
}

static void begin_anew(fuzzer *f, size_t document)
{
    const uint8_t *id = some_id();
    uint8_t given[16];
    if (below(2)) {
        tp_handle fresh;
        if (STATUS("tp_open", tp_open(&fresh.at), 1) != 0)
            return;
        tp_free(f->documents[document]);
        f->documents[document] = fresh;
    }
    tp_new(&f->documents[document], id);
    replaced(f, document);
    tp_id(&f->documents[document], given);
    check(memcmp(id, given, sizeof given) == 0 && tp_len(&f->documents[document]) == 0, "tp_new", "not blank");
}

static void fuzz_call(fuzzer *f)
{
    size_t document = below(DOCUMENTS);
    growths_refused_in = below(4) ? 0 : 1 + below(20);
    f->calls++;
    switch (below(20)) {
    case 0: case 1: case 2: case 3:
        fuzz_edit(f, document);
        break;
    case 4:
        fuzz_edit_many(f, document);
        break;
    case 5: case 6: case 7:
        fuzz_answers(f, &f->documents[document]);
        break;
    case 8:
        fuzz_cursor(f, &f->documents[document]);
        break;
    case 9: case 10: case 11: case 12:
        fuzz_bytes(f, document);
        break;
    case 13:
        fuzz_link(f, document);
        break;
    case 14:
        fuzz_merge(f, document);
        break;
    case 15: case 16: case 17:
        fuzz_earlier(f, &f->documents[document]);
        break;
    case 18:
        fuzz_session(f);
        break;
    default:
        if (below(12) == 0)
            begin_anew(f, document);
        else
            fuzz_edit(f, document);
    }
    growths_refused_in = 0;
}

/* ---- rounds */

/* Both have new documents, of one identifier; then random calls, and a merge both ways where nothing was changed. */
static void fuzz_round(fuzzer *f, size_t calls)
{
    static const uint8_t ID[16] = {1};
    uint8_t id[16], other_id[16];
    f->honest = draw() & 1;
    for (size_t i = 0; i < DOCUMENTS; i++) {
        tp_new(&f->documents[i], ID);
        replaced(f, i);
    }
    f->answer_len = 0;
    while (calls--)
        fuzz_call(f);
    tp_id(&f->documents[0], id);
    tp_id(&f->documents[1], other_id);
    if (!f->honest || memcmp(id, other_id, sizeof id) != 0)
        return;
    check(tp_merge(&f->documents[0], &f->documents[1]) == 0 && tp_merge(&f->documents[1], &f->documents[0]) == 0, "tp_merge", "refused");
    check_same(&f->documents[0], &f->documents[1], "tp_heads", tp_heads);
    check_same(&f->documents[0], &f->documents[1], "tp_text", tp_text);
    f->agreed++;
}

/* ---- threads */

static fuzzer fuzzers[THREADS];
static uint64_t calls_each;

static void *run(void *fuzzer_of_thread)
{
    fuzzer *f = fuzzer_of_thread;
    random_state = f->seed * 0x5851f42d4c957f2d + 1;
    for (size_t i = 0; i < DOCUMENTS; i++)
        check(tp_open(&f->documents[i].at) == 0, "tp_open", "refused");
    while (f->calls < calls_each)
        fuzz_round(f, ROUND);
    for (size_t i = 0; i < DOCUMENTS; i++)
        tp_free(f->documents[i]);
    return NULL;
}

int main(int count, char **words)
{
    pthread_t threads[THREADS];
    uint64_t calls = 0, refused = 0, agreed = 0, counts[STATUSES] = {0};
    calls_each = (count > 1 ? strtoull(words[1], NULL, 10) : 100000) / THREADS;
    for (size_t i = 0; i < THREADS; i++) {
        fuzzers[i].seed = (count > 2 ? strtoull(words[2], NULL, 10) : 1) * THREADS + i;
        if (pthread_create(&threads[i], NULL, run, &fuzzers[i]) != 0)
            fail("pthread_create", "refused");
    }
    for (size_t i = 0; i < THREADS; i++) {
        pthread_join(threads[i], NULL);
        calls += fuzzers[i].calls;
        refused += fuzzers[i].refused;
        agreed += fuzzers[i].agreed;
        for (size_t s = 0; s < STATUSES; s++)
            counts[s] += fuzzers[i].counts[s];
    }
    printf("%llu calls, %llu refused; %llu times two documents agreed\n", (unsigned long long)calls, (unsigned long long)refused,
           (unsigned long long)agreed);
    for (size_t s = 0; s < STATUSES; s++)
        if (counts[s])
            printf("status %zu: %llu\n", s, (unsigned long long)counts[s]);
    return 0;
}
