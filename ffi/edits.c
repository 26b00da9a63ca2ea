/* How long 10,000 edits take, of a character each at the end of the text, and 10,000 splices in one edit, where each replaces a
 * character: `ffi/edits` builds and runs it. */
#include "textpeer.h"

#include <stdbool.h>
#include <stdio.h>
#include <string.h>
#include <time.h>

enum { EDITS = 10000, TIMES = 20 };

static double now(void)
{
    struct timespec t;
    clock_gettime(CLOCK_PROCESS_CPUTIME_ID, &t);
    return t.tv_sec * 1e3 + t.tv_nsec / 1e6;
}

/* Milliseconds of processor time for the edits of one text, or less than 0 where one was refused. */
static double type_text(void)
{
    static const uint8_t ID[16] = {1}, ACTOR[16] = {2};
    tp_handle handle;
    size_t len;
    if (tp_open(&handle.at) != TP_DONE)
        return -1;
    tp_new(&handle, ID);
    double start = now();
    for (size_t i = 0; i < EDITS; i++)
        if (tp_edit(&handle, ACTOR, i, 0, "x", 1, 0, NULL, 0, &len) != TP_DONE)
            return -1;
    double took = now() - start;
    tp_free(handle);
    return took;
}

/* Milliseconds of processor time for one edit that replaces each character of a text, or less than 0 where it was refused. */
static double replace_all(bool falls)
{
    static const uint8_t ID[16] = {1}, ACTOR[16] = {2};
    static tp_splice splices[EDITS];
    static char text[EDITS];
    tp_handle handle;
    size_t len;
    if (tp_open(&handle.at) != TP_DONE)
        return -1;
    tp_new(&handle, ID);
    memset(text, 'x', EDITS);
    for (size_t i = 0; i < EDITS; i++)
        splices[i] = (tp_splice){.at = falls ? EDITS - 1 - i : i, .del = 1, .len = 1};
    if (tp_edit(&handle, ACTOR, 0, 0, text, EDITS, 0, NULL, 0, &len) != TP_DONE)
        return -1;
    double start = now();
    if (tp_edit_many(&handle, ACTOR, splices, EDITS, text, EDITS, 0, NULL, 0, &len) != TP_DONE)
        return -1;
    double took = now() - start;
    tp_free(handle);
    return took;
}

static double replace_rising(void)
{
    return replace_all(false);
}

static double replace_falling(void)
{
    return replace_all(true);
}

/* Prints the least of some times; whether none was refused. */
static bool print_least(const char *what, double (*edit)(void))
{
    double least = 1e9;
    for (int i = 0; i < TIMES; i++) {
        double took = edit();
        if (took < 0)
            return false;
        if (took < least)
            least = took;
    }
    printf("C: %d %s: %.1f ms (least of %d)\n", EDITS, what, least, TIMES);
    return true;
}

int main(void)
{
    return !(print_least("edits", type_text) && print_least("splices that rise, in one edit", replace_rising)
             && print_least("splices that fall, in one edit", replace_falling));
}
