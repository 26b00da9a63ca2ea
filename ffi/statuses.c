/* The names and the words of some statuses, and of numbers that are none. Ends with 1 where one isn't as it has to be. */
#include "textpeer.h"

#include <string.h>

static int is(const char *text, const char *wanted)
{
    return text != NULL && strcmp(text, wanted) == 0;
}

static int has(uint32_t status, const char *name)
{
    return is(tp_status_name(status), name) && tp_status_words(status) != NULL;
}

int main(void)
{
    static const uint32_t NONE[] = {6, 99, 100, 114, 600, 601, 606, 609, 700, 706, 804, 955, 4294967295u};
    size_t i;
    int well = has(TP_DONE, "Done") && has(TP_BAD_TEXT, "BadText") && has(5, "BadLengths") && has(101, "OutOfRange") && has(304, "Damaged")
        && has(TP_CHANGE_ZERO_SEQ_OR_START, "ZeroSeqOrStart") && has(405, "BadUtf8") && has(501, "ActorInUse") && has(602, "Frame")
        && has(701, "OtherDocument") && has(TP_FILE_IO, "Io") && has(803, "OutOfMemory")
        && is(tp_status_words(801), "another editor or command has the file open") && is(tp_version(), TP_VERSION);
    for (i = 0; i < sizeof NONE / sizeof NONE[0]; i++)
        well = well && tp_status_name(NONE[i]) == NULL && tp_status_words(NONE[i]) == NULL;
    return well ? 0 : 1;
}
