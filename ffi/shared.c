/* Two shared editors on journals in files: each writes, one session makes them even, and both are opened again; then what was
 * there earlier, and a journal that is moved. Prints what is there. The folder of the files is the first argument. */
#include "textpeer.h"

#include <stdio.h>
#include <stdlib.h>
#include <string.h>

static const uint8_t TEXT[16] = {7};
static const uint8_t ANN[16] = {1}, BEN[16] = {2}, LATER[16] = {3};

static void must(uint32_t status, const char *call)
{
    if (status != 0) {
        fprintf(stderr, "%s was refused: %u\n", call, (unsigned)status);
        exit(1);
    }
}

static void *some(void *memory)
{
    if (memory == NULL)
        exit(1);
    return memory;
}

/* The editor's answer and a zero after it, which the caller frees. */
static uint8_t *answer(tp_shared *shared, size_t len)
{
    uint8_t *bytes = some(malloc(len + 1));
    bytes[tp_shared_answer(shared, bytes, len)] = 0;
    return bytes;
}

static char *path_of(const char *folder, const char *name)
{
    char *path = some(malloc(strlen(folder) + strlen(name) + 2));
    sprintf(path, "%s/%s", folder, name);
    return path;
}

static void edit(tp_shared *shared, size_t at, size_t del, const char *text)
{
    size_t len;
    must(tp_shared_edit(shared, at, del, text, strlen(text), 0, NULL, 0, &len), "edit");
}

static void print_text(tp_shared *shared)
{
    size_t len;
    must(tp_shared_text(shared, &len), "text");
    uint8_t *text = answer(shared, len);
    printf("%s\n", (char *)text);
    free(text);
}

/* One side of a session: what it has to send, and whether its session goes on. */
typedef struct side {
    tp_shared *shared;
    uint8_t *out;
    size_t out_len;
    uint32_t going;
    uint64_t entered;
} side;

static void begin(side *side, uint32_t role)
{
    must(tp_shared_begin(side->shared, role, &side->out_len), "begin");
    side->out = answer(side->shared, side->out_len);
    side->going = 1;
}

/* Gives the second side what the first has to send, three bytes at a time. */
static void carry(side *from, side *to)
{
    uint8_t *bytes = from->out;
    size_t left = from->out_len;
    from->out = some(malloc(1));
    from->out_len = 0;
    for (size_t at = 0; at < left; at += 3) {
        size_t len;
        must(tp_shared_feed(to->shared, bytes + at, left - at < 3 ? left - at : 3, &len, &to->going, &to->entered), "feed");
        to->out = some(realloc(to->out, to->out_len + len + 1));
        to->out_len += tp_shared_answer(to->shared, to->out + to->out_len, len);
    }
    free(bytes);
}

/* Holds a session, and prints how many changes entered on each side. */
static void meet(tp_shared *client, tp_shared *server)
{
    side ann = {.shared = client}, ben = {.shared = server};
    begin(&ann, 0);
    begin(&ben, 1);
    while (ann.out_len != 0 || ben.out_len != 0) {
        carry(&ann, &ben);
        carry(&ben, &ann);
    }
    printf("%u %u entered %u %u\n", (unsigned)ann.going, (unsigned)ben.going, (unsigned)ann.entered, (unsigned)ben.entered);
    free(ann.out);
    free(ben.out);
}

static void print_heads(tp_shared *ann, tp_shared *ben)
{
    size_t len, other;
    must(tp_shared_heads(ann, &len), "heads");
    must(tp_shared_heads(ben, &other), "heads");
    uint8_t *heads = answer(ann, len), *others = answer(ben, other);
    printf("%u heads, %s\n", (unsigned)(len / 32), len == other && memcmp(heads, others, len) == 0 ? "the same" : "others");
    free(heads);
    free(others);
}

/* A cursor stays with its character while the text changes before it. */
static void print_cursor(tp_shared *shared)
{
    uint64_t counter;
    uint8_t actor[16];
    size_t position;
    must(tp_shared_cursor(shared, 4, &counter, actor), "cursor");
    edit(shared, 0, 0, ">> ");
    must(tp_shared_cursor_position(shared, counter, actor, &position), "cursor_position");
    printf("cursor at %u of %u, then %u\n", (unsigned)position, (unsigned)tp_shared_length(shared),
           (unsigned)tp_shared_cursor(shared, 1000, &counter, actor));
}

/* Two splices as one change, the second on the text that the first leaves; and lengths that aren't those of the texts. */
static void edit_twice(tp_shared *shared)
{
    static const tp_splice SPLICES[] = {{0, 3, 2}, {1, 1, 0}};
    size_t len;
    must(tp_shared_edit_many(shared, SPLICES, 2, "<<", 2, 0, NULL, 0, &len), "edit_many");
    printf("hash of %u bytes, ", (unsigned)len);
    must(tp_shared_edit_many(shared, NULL, 0, NULL, 0, 0, NULL, 0, &len), "edit_many");
    printf("then of %u, ", (unsigned)len);
    printf("then %u\n", (unsigned)tp_shared_edit_many(shared, SPLICES, 2, "<", 1, 0, NULL, 0, &len));
}

/* What is refused, by its status. */
static void print_refusals(const char *path, const char *absent, tp_shared *shared)
{
    tp_shared other;
    size_t len;
    uint32_t going;
    uint64_t entered;
    printf("busy %u\n", (unsigned)tp_shared_open(path, strlen(path), LATER, &other.at));
    printf("absent %u\n", (unsigned)tp_shared_open(absent, strlen(absent), LATER, &other.at));
    printf("past the end %u\n", (unsigned)tp_shared_edit(shared, 999, 0, "x", 1, 0, NULL, 0, &len));
    printf("no session %u\n", (unsigned)tp_shared_feed(shared, NULL, 0, &len, &going, &entered));
    must(tp_shared_begin(shared, 1, &len), "begin");
    uint32_t status = tp_shared_feed(shared, (const uint8_t *)"\0\0\0\2\7\7", 6, &len, &going, &entered);
    printf("no frame %u, going %u, a refusal of %u bytes\n", (unsigned)status, (unsigned)going, (unsigned)len);
}

/* All bytes of a file; their number goes to *len. */
static uint8_t *bytes_of(const char *path, size_t *len)
{
    FILE *file = some(fopen(path, "rb"));
    uint8_t *bytes = some(malloc(1 << 20));
    *len = fread(bytes, 1, 1 << 20, file);
    fclose(file);
    return bytes;
}

/* A journal with another byte isn't opened, and stays as it is. */
static void print_damage(const char *path, const char *copy, size_t place)
{
    size_t len, then;
    uint8_t *bytes = bytes_of(path, &len), *after;
    tp_shared other;
    FILE *file = some(fopen(copy, "wb"));
    bytes[place] ^= 2;
    fwrite(bytes, 1, len, file);
    fclose(file);
    printf("damaged at %u: %u", (unsigned)place, (unsigned)tp_shared_open(copy, strlen(copy), LATER, &other.at));
    after = bytes_of(copy, &then);
    printf(", %s\n", then == len && memcmp(bytes, after, len) == 0 ? "the same" : "changed");
    free(bytes);
    free(after);
}

/* The calls of a handle in memory take one of a file, and a session goes between both. */
static void print_both(tp_shared *shared)
{
    static const uint8_t CHLOE[16] = {4};
    tp_handle memory;
    size_t len, link;
    must(tp_save(shared, &len), "save");
    uint8_t *saved = answer(shared, len);
    must(tp_open(&memory.at), "open in memory");
    must(tp_load(&memory, saved, len), "load");
    free(saved);
    must(tp_edit(&memory, CHLOE, tp_len(&memory), 0, "!", 1, 0, NULL, 0, NULL), "edit in memory");
    meet(&memory, shared);
    print_text(shared);
    edit(shared, 0, 1, "");
    must(tp_merge(&memory, shared), "merge");
    print_heads(&memory, shared);
    must(tp_link(shared, &link), "link");
    must(tp_generate(shared, link, &len), "generate");
    printf("link %u, a message is there: %u\n", (unsigned)link, len != 0);
    while (tp_link(&memory, &link) == 0)
        continue;
    printf("%u links\n", (unsigned)link + 1);
    tp_free(memory);
}

/* Prints what changed since the heads, first with room for one splice, and then all: each with its text. */
static void print_differences(tp_shared *shared, const uint8_t *heads, size_t heads_len)
{
    tp_splice splices[4];
    size_t count, len;
    must(tp_differences_since(shared, heads, heads_len, splices, 1, &count, &len), "differences_since");
    printf("%u differences, with %u bytes; the first is %u -%u\n", (unsigned)count, (unsigned)len, (unsigned)splices[0].at,
           (unsigned)splices[0].del);
    must(tp_differences_since(shared, heads, heads_len, splices, 4, &count, &len), "differences_since");
    uint8_t *texts = answer(shared, len);
    for (size_t i = 0, at = 0; i < count; at += splices[i++].len)
        printf("%u -%u +%.*s.\n", (unsigned)splices[i].at, (unsigned)splices[i].del, (int)splices[i].len, (char *)texts + at);
    free(texts);
}

/* The text at heads, and what became of it; heads that are none; and what the last change says. */
static void print_earlier(tp_shared *shared)
{
    size_t len, heads_len, count, last;
    tp_change change;
    must(tp_heads(shared, &heads_len), "heads");
    uint8_t *heads = answer(shared, heads_len);
    edit(shared, 0, 5, "Dear");
    must(tp_shared_edit(shared, 5, 0, "old ", 4, 7, "to Ben", 6, &len), "edit");
    print_differences(shared, heads, heads_len);
    must(tp_differences(shared, NULL, 0, heads, heads_len, NULL, 0, &count, &len), "differences");
    printf("from nothing %u, ", (unsigned)count);
    must(tp_len_at(shared, heads, heads_len, &count), "len_at");
    must(tp_text_at(shared, heads, heads_len, &len), "text_at");
    uint8_t *text = answer(shared, len);
    printf("%u characters: %s\n", (unsigned)count, (char *)text);
    free(text);
    last = tp_change_count(shared);
    printf("refused %u ", (unsigned)tp_text_at(shared, heads, heads_len - 1, &len));
    heads[0] ^= 1;
    printf("%u ", (unsigned)tp_len_at(shared, heads, heads_len, &count));
    printf("%u\n", (unsigned)tp_change_describe(shared, last, &change, &len));
    must(tp_change_describe(shared, last - 1, &change, &len), "change_describe");
    uint8_t *named = answer(shared, len);
    printf("change %u of %u, at %u: +%u -%u, %s\n", (unsigned)change.seq, change.actor[0], (unsigned)change.time,
           (unsigned)change.inserted, (unsigned)change.deleted, (char *)named + 32 * change.deps);
    free(named);
    free(heads);
}

/* A copy in memory is edited by itself, and merged. */
static void print_fork(tp_shared *shared)
{
    static const uint8_t DORA[16] = {5};
    tp_handle copy;
    must(tp_fork(shared, DORA, &copy.at), "fork");
    edit(&copy, 0, 0, "> ");
    print_text(&copy);
    print_text(shared);
    must(tp_merge(shared, &copy), "merge");
    print_text(shared);
    tp_free(copy);
}

static uint32_t edit_begin(tp_shared *shared, const char *text)
{
    size_t len;
    return tp_shared_edit(shared, 0, 0, text, strlen(text), 0, NULL, 0, &len);
}

/* A journal that is moved while it is open: edits are refused, and what there was is still read. Once it is back it is opened,
 * with all that was answered. */
static void print_moved(const char *path, const char *elsewhere)
{
    static const uint8_t EVE[16] = {6}, FAY[16] = {7};
    tp_shared shared;
    size_t len;
    must(tp_shared_open(path, strlen(path), EVE, &shared.at), "open");
    must(edit_begin(&shared, "Kept. "), "edit");
    must((uint32_t)rename(path, elsewhere), "rename");
    uint32_t first = edit_begin(&shared, "Lost? "), second = edit_begin(&shared, "Lost! ");
    printf("moved %u %s, %u %s\n", (unsigned)first, tp_status_name(first), (unsigned)second, tp_status_name(second));
    print_text(&shared);
    must(tp_shared_text(&shared, &len), "text");
    uint8_t *kept = answer(&shared, len);
    tp_shared_close(shared);
    must((uint32_t)rename(elsewhere, path), "rename");
    must(tp_shared_open(path, strlen(path), FAY, &shared.at), "open again");
    must(tp_shared_text(&shared, &len), "text");
    uint8_t *text = answer(&shared, len);
    printf("back, %s\n", strstr((char *)text, (char *)kept) != NULL ? "with all that was answered" : "without some");
    must(edit_begin(&shared, ""), "edit");
    free(kept);
    free(text);
    tp_shared_close(shared);
}

int main(int count, char **arguments)
{
    const char *folder = count > 1 ? arguments[1] : ".";
    char *first = path_of(folder, "ann.journal"), *second = path_of(folder, "ben.journal"), *absent = path_of(folder, "absent");
    tp_shared ann, ben;
    must(tp_shared_create(first, strlen(first), TEXT, ANN, &ann.at), "create");
    must(tp_shared_create(second, strlen(second), TEXT, BEN, &ben.at), "create");
    edit(&ann, 0, 0, "Hello world");
    edit(&ben, 0, 0, "Ben. ");
    meet(&ann, &ben);
    print_text(&ben);
    print_heads(&ann, &ben);
    edit(&ben, 0, 5, "");
    meet(&ann, &ben);
    print_cursor(&ann);
    edit_twice(&ann);
    print_refusals(first, absent, &ann);
    tp_shared_close(ben);
    tp_shared_close(ann);
    print_damage(first, absent, 60);
    print_damage(first, absent, 26);
    printf("in use %u, there %u\n", (unsigned)tp_shared_open(first, strlen(first), ANN, &ann.at),
           (unsigned)tp_shared_create(first, strlen(first), TEXT, LATER, &ann.at));
    must(tp_shared_open(first, strlen(first), LATER, &ann.at), "open");
    print_text(&ann);
    printf("%u changes\n", (unsigned)tp_shared_change_count(&ann));
    print_both(&ann);
    print_earlier(&ann);
    print_fork(&ann);
    tp_shared_close(ann);
    print_moved(first, absent);
    free(first);
    free(second);
    free(absent);
    return 0;
}
