/* The first session of README.md by the library: Ann and Ben each write alone, then each takes what the other has. */
#include "textpeer.h"

#include <stdio.h>
#include <stdlib.h>
#include <string.h>

/* The identifier and the actors that the keys of the session give. */
static const uint8_t TEXT[16] = {0xad, 0xe0, 0xb8, 0x76, 0x90, 0x3d, 0xf1, 0xa0, 0xe5, 0x6a, 0x5d, 0x40, 0x28, 0xbd, 0x86, 0x53};
static const uint8_t FIRST[16] = {0x5a, 0xf0, 0x40, 0x45, 0x96, 0xb2, 0x1f, 0x9f, 0x7b, 0x6e, 0x73, 0xd7, 0x96, 0x3c, 0x8e, 0x20};
static const uint8_t ANN[16] = {0x26, 0xc8, 0x1a, 0x25, 0x8d, 0xb3, 0x8a, 0x39, 0x39, 0x70, 0x06, 0x6c, 0x11, 0x81, 0xc7, 0x05};
static const uint8_t BEN[16] = {0x55, 0x92, 0x50, 0x1d, 0x3c, 0x91, 0x83, 0xdc, 0x6b, 0x6c, 0x06, 0x3c, 0x69, 0xf0, 0x5a, 0x97};

static void must(uint32_t status, const char *call)
{
    if (status != TP_DONE) {
        fprintf(stderr, "%s was refused: %u\n", call, (unsigned)status);
        exit(1);
    }
}

/* The handle's answer with a zero after it, which the caller frees. */
static uint8_t *answer(tp_handle *handle, size_t len)
{
    uint8_t *bytes = malloc(len + 1);
    if (bytes == NULL)
        exit(1);
    bytes[tp_answer(handle, bytes, len)] = 0;
    return bytes;
}

static void print_hex(const uint8_t *bytes, size_t len)
{
    for (size_t i = 0; i < len; i++)
        printf("%02x", bytes[i]);
    printf("\n");
}

/* Writes, and prints the hash of the change. */
static void edit(tp_handle *handle, const uint8_t *actor, size_t at, size_t del, const char *text, uint64_t time, const char *message)
{
    size_t len;
    must(tp_edit(handle, actor, at, del, text, strlen(text), time, message, message ? strlen(message) : 0, &len), "edit");
    uint8_t *hash = answer(handle, len);
    print_hex(hash, len);
    free(hash);
}

static void print_text(tp_handle *handle)
{
    size_t len;
    must(tp_text(handle, &len), "text");
    uint8_t *text = answer(handle, len);
    printf("%s\n", (char *)text);
    free(text);
}

/* A copy of a document, by its saved file. */
static tp_handle copy_of(tp_handle *handle)
{
    tp_handle copy;
    size_t len;
    must(tp_save(handle, &len), "save");
    uint8_t *saved = answer(handle, len);
    must(tp_open(&copy.at), "open");
    must(tp_load(&copy, saved, len), "load");
    free(saved);
    return copy;
}

/* Merges, and prints how many changes entered. */
static void merge(tp_handle *handle, tp_handle *other)
{
    size_t before = tp_change_count(handle);
    must(tp_merge(handle, other), "merge");
    printf("applied %zu\n", tp_change_count(handle) - before);
}

/* Prints the text as it was when just the first change was there. */
static void print_first_text(tp_handle *handle)
{
    tp_handle early;
    size_t len;
    must(tp_change_at(handle, 0, &len), "change");
    uint8_t *change = answer(handle, len);
    must(tp_open(&early.at), "open");
    tp_new(&early, TEXT);
    must(tp_apply(&early, change, len), "apply");
    print_text(&early);
    tp_free(early);
    free(change);
}

int main(void)
{
    tp_handle ann;
    uint8_t id[16];
    size_t len;
    must(tp_open(&ann.at), "open");
    tp_new(&ann, TEXT);
    tp_id(&ann, id);
    print_hex(id, sizeof id);
    edit(&ann, FIRST, 0, 0, "Hello world", 0, NULL);
    tp_handle ben = copy_of(&ann);
    edit(&ann, ANN, 5, 0, ",", 0, NULL);
    edit(&ben, BEN, 6, 5, "Ann!", 7, "to Ann");
    merge(&ann, &ben);
    merge(&ben, &ann);
    print_text(&ann);
    print_text(&ben);
    must(tp_heads(&ann, &len), "heads");
    printf("%zu\n", len / 32);
    print_first_text(&ann);
    if (tp_edit(&ann, ANN, 99, 0, "x", 1, 0, NULL, 0, &len) == TP_DOC_OUT_OF_RANGE)
        printf("textpeer: OutOfRange\n");
    tp_free(ben);
    tp_free(ann);
    return 0;
}
