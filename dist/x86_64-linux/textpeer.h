/* The engine of textpeer for C. docs/C.md says what a caller must keep to.
 *
 * A handle is an editor: a document, whose journal is in a file or which is in memory alone, what is known on its links to
 * others, one session at a time, and its last answer. Every function takes a handle of either kind. Each that returns a
 * uint32_t returns a status: 0 where it was done, else the number of its refusal, one of tp_status.
 *
 * A call whose result is bytes keeps them as the handle's answer and writes their number to *len; tp_answer copies them. They
 * stay until the next such call. A refused call leaves the answer, but an edit, and a session's begin and feed, which say what
 * it is then. Bytes are given by a pointer and a length: with the length 0 the pointer may be NULL. No other
 * pointer may be, but where it is said. Positions and lengths of texts count Unicode scalar values, lengths of buffers count bytes.
 */
#ifndef TEXTPEER_H
#define TEXTPEER_H

#include <stddef.h>
#include <stdint.h>

#ifdef __cplusplus
extern "C" {
#endif

typedef struct tp_handle {
    void *at; /* the engine's; neither read nor changed by the caller */
} tp_handle;

/* The version of this header, as in pkg-config's textpeer.pc. */
#define TP_VERSION "0.1.0"

/* The short hash of the commit that this is a release of; it is empty where it is none. */
#define TP_COMMIT "f858dc43"

static inline const char *tp_version(void)
{
    return TP_VERSION;
}

/* ---- statuses ----
 *
 * A hundred for each layer and the number of its refusal: up to 99 those of an editor, from 101 on of a document, 201
 * of a message, 301 of a saved file or a journal, 401 of the bytes of a change, 501 of a peer on its journal, 601 of
 * a session, 701 what the other side of a session refused, 801 why a file wasn't opened. The other side tells its
 * number in one byte: from one that keeps to no rule tp_shared_feed may answer up to 955, and whatever it answers
 * from 700 on is the other side's. */

/* statuses: made of ffi/statuses.txt by tools/statuses */
enum tp_status {
    /* of an editor */
    TP_DONE = 0, /* done */
    TP_OUT_OF_MEMORY = 1, /* memory was refused, before a layer below was asked */
    TP_NO_LINK = 2, /* there is no link with this number */
    TP_NO_CHANGE = 3, /* there is no applied change with this number */
    TP_BAD_TEXT = 4, /* what should be a text isn't UTF-8 */
    /* the lengths of splices don't add up to the bytes of their texts, or bytes end within a hash: */
    TP_BAD_LENGTHS = 5,

    /* of a document */
    TP_DOC_OUT_OF_RANGE = 101, /* the text ends before the position, or before the end of what is to be deleted */
    TP_DOC_COUNTER_LIMIT = 102, /* the last counter of the edit would be past 2^48 - 1 */
    TP_DOC_TOO_MANY_OPS = 103, /* the edit has more than 65,536 operations, one for each character that comes or goes */
    TP_DOC_TOO_MANY_HEADS = 104, /* the document has more than 65,535 heads */
    TP_DOC_UNKNOWN_HEAD = 105, /* a hash that was named as a head is of no applied change */
    TP_DOC_UNKNOWN_ELEMENT = 106, /* the document has no such element */
    TP_DOC_PENDING_FULL = 107, /* more than 1,024 changes would wait for others */
    TP_DOC_HASH_TAKEN = 108, /* another change has the hash of the new one */
    TP_DOC_OUT_OF_MEMORY = 109, /* memory was refused */
    TP_DOC_OTHER_DOCUMENT = 110, /* what came is of another document */
    TP_DOC_TOO_LONG = 111, /* the message has more than 65,535 bytes, or the change more than 4,194,304 */
    TP_DOC_FULL = 112, /* the document has 4,294,967,295 changes */
    TP_DOC_NOT_KEPT = 113, /* the change was not kept */

    /* of a message */
    TP_SYNC_BAD_MESSAGE = 201, /* the bytes are not laid out as a message */
    TP_SYNC_BAD_CHANGE = 202, /* the bytes of a change within the message are no change */
    TP_SYNC_TOO_MANY_HEADS = 203, /* the document has more than 65,535 heads, which no message can name */
    TP_SYNC_PENDING_FULL = 204, /* more than 1,024 changes would wait for others */
    TP_SYNC_OUT_OF_MEMORY = 205, /* memory was refused */
    TP_SYNC_OTHER_DOCUMENT = 206, /* the message is of another document */
    TP_SYNC_NOT_KEPT = 207, /* a change of the message was not kept */

    /* of a saved file or a journal */
    TP_STORE_BAD_MAGIC = 301, /* the bytes don't begin as those of such a file do */
    TP_STORE_TRUNCATED = 302, /* the saved file is not whole */
    TP_STORE_BAD_DIGEST = 303, /* the digest at the end of the saved file is not that of the bytes before it */
    TP_STORE_DAMAGED = 304, /* a change is damaged, or bytes come after the last one */
    TP_STORE_REFUSED = 305, /* a change doesn't fit the changes before it */
    TP_STORE_IO = 306, /* the file could not be read or written */
    TP_STORE_OUT_OF_MEMORY = 307, /* memory was refused */
    TP_STORE_NO_HEADER = 308, /* the journal has fewer bytes than its header */

    /* of the bytes of a change */
    TP_CHANGE_VERSION = 401, /* the version of the change is neither 1 nor 2 */
    TP_CHANGE_SHORT = 402, /* a field of the change is not whole */
    TP_CHANGE_TRAILING = 403, /* bytes come after the last record of the change */
    TP_CHANGE_ZERO_SEQ_OR_START = 404, /* the sequence number or the start counter of the change is 0 */
    TP_CHANGE_BAD_UTF8 = 405, /* the message or a text of the change isn't UTF-8 */
    TP_CHANGE_DEPS_ORDER = 406, /* the dependencies of the change don't rise strictly */
    TP_CHANGE_NO_RECORDS = 407, /* the change has no record */
    TP_CHANGE_BAD_TAG = 408, /* the version of the change has no such record or reference */
    TP_CHANGE_EMPTY_RUN = 409, /* an insert run of the change is empty, or a run of deletes has fewer than two */
    /* the change is past a limit of bytes, operations, counters, dependencies or message bytes: */
    TP_CHANGE_LIMIT = 410,
    TP_CHANGE_OUT_OF_MEMORY = 411, /* memory was refused */
    TP_CHANGE_NO_RUN = 412, /* the version of the change is 2, and it has no run of deletes */

    /* of a peer on its journal */
    TP_PEER_ACTOR_IN_USE = 501, /* the journal has a change of this actor: draw another one */
    /* the journal can't be written or was moved, replaced or cut: close it, put it back or make room, open it anew: */
    TP_PEER_JOURNAL_FAILED = 502,
    TP_PEER_STOPPED = 503, /* the editor has stopped since its journal failed: close it and open the file again */
    TP_PEER_TOO_MANY_LINKS = 504, /* there are as many links as there may be */
    TP_PEER_JOURNAL_NOT_EMPTY = 505, /* the file has a journal or other bytes already */
    TP_PEER_OUT_OF_MEMORY = 509, /* memory was refused */

    /* of a session */
    /* the other side sent bytes that are no frame, or a message of this side is too long for one: */
    TP_SESSION_FRAME = 602,
    TP_SESSION_OTHER_DOCUMENT = 603, /* the other side has another document */
    TP_SESSION_VERSION = 604, /* the other side speaks another version of the protocol */
    TP_SESSION_UNEXPECTED = 605, /* the other side sent a frame out of its turn, or no session is going on */
    TP_SESSION_OUT_OF_MEMORY = 608, /* memory was refused */

    /* of the other side of a session, which sent it */
    TP_REMOTE_OTHER_DOCUMENT = 701, /* the other side refused: it has another document */
    TP_REMOTE_VERSION = 702, /* the other side refused: it speaks another version of the protocol */
    TP_REMOTE_MALFORMED = 703, /* the other side refused: what it was sent is malformed, or out of its turn */
    /* the other side refused: more than 1,024 changes would wait there, or it has more than 65,535 heads: */
    TP_REMOTE_TOO_MANY = 704,
    TP_REMOTE_OTHER = 705, /* the other side refused, and said no more */

    /* of a file that is to be opened */
    TP_FILE_BUSY = 801, /* another editor or command has the file open */
    TP_FILE_IO = 802, /* the file is not there, or can't be opened, locked or read */
    TP_FILE_OUT_OF_MEMORY = 803 /* memory was refused */
};

/* The name of a status, as "OutOfRange"; NULL for another number. */
static inline const char *tp_status_name(uint32_t status)
{
    switch (status) {
    case TP_DONE: return "Done";
    case TP_OUT_OF_MEMORY: return "OutOfMemory";
    case TP_NO_LINK: return "NoLink";
    case TP_NO_CHANGE: return "NoChange";
    case TP_BAD_TEXT: return "BadText";
    case TP_BAD_LENGTHS: return "BadLengths";
    case TP_DOC_OUT_OF_RANGE: return "OutOfRange";
    case TP_DOC_COUNTER_LIMIT: return "CounterLimit";
    case TP_DOC_TOO_MANY_OPS: return "TooManyOps";
    case TP_DOC_TOO_MANY_HEADS: return "TooManyHeads";
    case TP_DOC_UNKNOWN_HEAD: return "UnknownHead";
    case TP_DOC_UNKNOWN_ELEMENT: return "UnknownElement";
    case TP_DOC_PENDING_FULL: return "PendingFull";
    case TP_DOC_HASH_TAKEN: return "HashTaken";
    case TP_DOC_OUT_OF_MEMORY: return "OutOfMemory";
    case TP_DOC_OTHER_DOCUMENT: return "OtherDocument";
    case TP_DOC_TOO_LONG: return "TooLong";
    case TP_DOC_FULL: return "Full";
    case TP_DOC_NOT_KEPT: return "NotKept";
    case TP_SYNC_BAD_MESSAGE: return "BadMessage";
    case TP_SYNC_BAD_CHANGE: return "BadChange";
    case TP_SYNC_TOO_MANY_HEADS: return "TooManyHeads";
    case TP_SYNC_PENDING_FULL: return "PendingFull";
    case TP_SYNC_OUT_OF_MEMORY: return "OutOfMemory";
    case TP_SYNC_OTHER_DOCUMENT: return "OtherDocument";
    case TP_SYNC_NOT_KEPT: return "NotKept";
    case TP_STORE_BAD_MAGIC: return "BadMagic";
    case TP_STORE_TRUNCATED: return "Truncated";
    case TP_STORE_BAD_DIGEST: return "BadDigest";
    case TP_STORE_DAMAGED: return "Damaged";
    case TP_STORE_REFUSED: return "Refused";
    case TP_STORE_IO: return "Io";
    case TP_STORE_OUT_OF_MEMORY: return "OutOfMemory";
    case TP_STORE_NO_HEADER: return "NoHeader";
    case TP_CHANGE_VERSION: return "Version";
    case TP_CHANGE_SHORT: return "Short";
    case TP_CHANGE_TRAILING: return "Trailing";
    case TP_CHANGE_ZERO_SEQ_OR_START: return "ZeroSeqOrStart";
    case TP_CHANGE_BAD_UTF8: return "BadUtf8";
    case TP_CHANGE_DEPS_ORDER: return "DepsOrder";
    case TP_CHANGE_NO_RECORDS: return "NoRecords";
    case TP_CHANGE_BAD_TAG: return "BadTag";
    case TP_CHANGE_EMPTY_RUN: return "EmptyRun";
    case TP_CHANGE_LIMIT: return "Limit";
    case TP_CHANGE_OUT_OF_MEMORY: return "OutOfMemory";
    case TP_CHANGE_NO_RUN: return "NoRun";
    case TP_PEER_ACTOR_IN_USE: return "ActorInUse";
    case TP_PEER_JOURNAL_FAILED: return "JournalFailed";
    case TP_PEER_STOPPED: return "Stopped";
    case TP_PEER_TOO_MANY_LINKS: return "TooManyLinks";
    case TP_PEER_JOURNAL_NOT_EMPTY: return "JournalNotEmpty";
    case TP_PEER_OUT_OF_MEMORY: return "OutOfMemory";
    case TP_SESSION_FRAME: return "Frame";
    case TP_SESSION_OTHER_DOCUMENT: return "OtherDocument";
    case TP_SESSION_VERSION: return "Version";
    case TP_SESSION_UNEXPECTED: return "Unexpected";
    case TP_SESSION_OUT_OF_MEMORY: return "OutOfMemory";
    case TP_REMOTE_OTHER_DOCUMENT: return "OtherDocument";
    case TP_REMOTE_VERSION: return "Version";
    case TP_REMOTE_MALFORMED: return "Malformed";
    case TP_REMOTE_TOO_MANY: return "TooMany";
    case TP_REMOTE_OTHER: return "Other";
    case TP_FILE_BUSY: return "Busy";
    case TP_FILE_IO: return "Io";
    case TP_FILE_OUT_OF_MEMORY: return "OutOfMemory";
    default: return NULL;
    }
}

/* What a status says, in a few words; NULL for another number. */
static inline const char *tp_status_words(uint32_t status)
{
    switch (status) {
    case TP_DONE: return "done";
    case TP_OUT_OF_MEMORY: return "memory was refused, before a layer below was asked";
    case TP_NO_LINK: return "there is no link with this number";
    case TP_NO_CHANGE: return "there is no applied change with this number";
    case TP_BAD_TEXT: return "what should be a text isn't UTF-8";
    case TP_BAD_LENGTHS: return "the lengths of splices don't add up to the bytes of their texts, or bytes end within a hash";
    case TP_DOC_OUT_OF_RANGE: return "the text ends before the position, or before the end of what is to be deleted";
    case TP_DOC_COUNTER_LIMIT: return "the last counter of the edit would be past 2^48 - 1";
    case TP_DOC_TOO_MANY_OPS: return "the edit has more than 65,536 operations, one for each character that comes or goes";
    case TP_DOC_TOO_MANY_HEADS: return "the document has more than 65,535 heads";
    case TP_DOC_UNKNOWN_HEAD: return "a hash that was named as a head is of no applied change";
    case TP_DOC_UNKNOWN_ELEMENT: return "the document has no such element";
    case TP_DOC_PENDING_FULL: return "more than 1,024 changes would wait for others";
    case TP_DOC_HASH_TAKEN: return "another change has the hash of the new one";
    case TP_DOC_OUT_OF_MEMORY: return "memory was refused";
    case TP_DOC_OTHER_DOCUMENT: return "what came is of another document";
    case TP_DOC_TOO_LONG: return "the message has more than 65,535 bytes, or the change more than 4,194,304";
    case TP_DOC_FULL: return "the document has 4,294,967,295 changes";
    case TP_DOC_NOT_KEPT: return "the change was not kept";
    case TP_SYNC_BAD_MESSAGE: return "the bytes are not laid out as a message";
    case TP_SYNC_BAD_CHANGE: return "the bytes of a change within the message are no change";
    case TP_SYNC_TOO_MANY_HEADS: return "the document has more than 65,535 heads, which no message can name";
    case TP_SYNC_PENDING_FULL: return "more than 1,024 changes would wait for others";
    case TP_SYNC_OUT_OF_MEMORY: return "memory was refused";
    case TP_SYNC_OTHER_DOCUMENT: return "the message is of another document";
    case TP_SYNC_NOT_KEPT: return "a change of the message was not kept";
    case TP_STORE_BAD_MAGIC: return "the bytes don't begin as those of such a file do";
    case TP_STORE_TRUNCATED: return "the saved file is not whole";
    case TP_STORE_BAD_DIGEST: return "the digest at the end of the saved file is not that of the bytes before it";
    case TP_STORE_DAMAGED: return "a change is damaged, or bytes come after the last one";
    case TP_STORE_REFUSED: return "a change doesn't fit the changes before it";
    case TP_STORE_IO: return "the file could not be read or written";
    case TP_STORE_OUT_OF_MEMORY: return "memory was refused";
    case TP_STORE_NO_HEADER: return "the journal has fewer bytes than its header";
    case TP_CHANGE_VERSION: return "the version of the change is neither 1 nor 2";
    case TP_CHANGE_SHORT: return "a field of the change is not whole";
    case TP_CHANGE_TRAILING: return "bytes come after the last record of the change";
    case TP_CHANGE_ZERO_SEQ_OR_START: return "the sequence number or the start counter of the change is 0";
    case TP_CHANGE_BAD_UTF8: return "the message or a text of the change isn't UTF-8";
    case TP_CHANGE_DEPS_ORDER: return "the dependencies of the change don't rise strictly";
    case TP_CHANGE_NO_RECORDS: return "the change has no record";
    case TP_CHANGE_BAD_TAG: return "the version of the change has no such record or reference";
    case TP_CHANGE_EMPTY_RUN: return "an insert run of the change is empty, or a run of deletes has fewer than two";
    case TP_CHANGE_LIMIT: return "the change is past a limit of bytes, operations, counters, dependencies or message bytes";
    case TP_CHANGE_OUT_OF_MEMORY: return "memory was refused";
    case TP_CHANGE_NO_RUN: return "the version of the change is 2, and it has no run of deletes";
    case TP_PEER_ACTOR_IN_USE: return "the journal has a change of this actor: draw another one";
    case TP_PEER_JOURNAL_FAILED: return "the journal can't be written or was moved, replaced or cut: close it, put it back or make room, open it anew";
    case TP_PEER_STOPPED: return "the editor has stopped since its journal failed: close it and open the file again";
    case TP_PEER_TOO_MANY_LINKS: return "there are as many links as there may be";
    case TP_PEER_JOURNAL_NOT_EMPTY: return "the file has a journal or other bytes already";
    case TP_PEER_OUT_OF_MEMORY: return "memory was refused";
    case TP_SESSION_FRAME: return "the other side sent bytes that are no frame, or a message of this side is too long for one";
    case TP_SESSION_OTHER_DOCUMENT: return "the other side has another document";
    case TP_SESSION_VERSION: return "the other side speaks another version of the protocol";
    case TP_SESSION_UNEXPECTED: return "the other side sent a frame out of its turn, or no session is going on";
    case TP_SESSION_OUT_OF_MEMORY: return "memory was refused";
    case TP_REMOTE_OTHER_DOCUMENT: return "the other side refused: it has another document";
    case TP_REMOTE_VERSION: return "the other side refused: it speaks another version of the protocol";
    case TP_REMOTE_MALFORMED: return "the other side refused: what it was sent is malformed, or out of its turn";
    case TP_REMOTE_TOO_MANY: return "the other side refused: more than 1,024 changes would wait there, or it has more than 65,535 heads";
    case TP_REMOTE_OTHER: return "the other side refused, and said no more";
    case TP_FILE_BUSY: return "another editor or command has the file open";
    case TP_FILE_IO: return "the file is not there, or can't be opened, locked or read";
    case TP_FILE_OUT_OF_MEMORY: return "memory was refused";
    default: return NULL;
    }
}
/* end of statuses */

/* ---- handles ---- */

/* Makes an editor: tp_open(&handle.at). Its document is empty and has an identifier of zeros; tp_new or tp_load puts another
 * one in its place. Refused as 1; nothing is written then. */
uint32_t tp_open(void **at);

/* Ends the editor and its session, frees its file's lock, and gives back all memory. The handle must not be used again. Does
 * nothing where its field is NULL. */
void tp_free(tp_handle handle);

/* Copies the answer to out, up to room bytes of it, and returns how many were copied. The answer stays. */
size_t tp_answer(tp_handle *handle, uint8_t *out, size_t room);

/* ---- a document ---- */

/* Puts an empty document with this identifier in the place of the handle's, in memory alone. Its links, its session and its
 * answer are gone then; a journal in a file is closed, and stays as it is. The editor's actor is one of zeros. */
void tp_new(tp_handle *handle, const uint8_t id[16]);

/* Puts the document whose saved file the bytes are in the place of the handle's, in memory alone. Its links and its session are
 * gone then, its answer stays; a journal in a file is closed, and stays as it is. A refusal leaves all as it was: past 300. */
uint32_t tp_load(tp_handle *handle, const uint8_t *bytes, size_t bytes_len);

/* The answer is the saved file of the document. Changes that wait aren't in it. Refused as 307. */
uint32_t tp_save(tp_handle *handle, size_t *len);

/* Writes the identifier of the document to id. */
void tp_id(tp_handle *handle, uint8_t id[16]);

/* How many characters the text has. */
size_t tp_len(tp_handle *handle);

/* The answer is the text, as UTF-8 without a zero at its end. Refused as 109. */
uint32_t tp_text(tp_handle *handle, size_t *len);

/* Deletes del characters from at on and inserts a text there, as one change by the actor, which is the editor's from then on. In
 * a file it is on the disk when it is done. The answer is the hash of the change, 32 bytes, or empty where nothing was asked;
 * len may be NULL. A refusal leaves the document as it was, and the answer empty: 4, past 100, 502 or 503. */
uint32_t tp_edit(tp_handle *handle, const uint8_t actor[16], size_t at, size_t del, const char *text, size_t text_len,
                 uint64_t time, const char *message, size_t message_len, size_t *len);

/* One splice of an edit: deletes del characters from at on, and inserts the next len bytes of the edit's texts there. */
typedef struct tp_splice {
    size_t at; /* on the text that the splices before it leave */
    size_t del;
    size_t len; /* counts bytes */
} tp_splice;

/* As tp_edit, but does each of the count splices in turn, all as one change. Their texts are the bytes of texts, one after
 * another. Refused as 4 where the message isn't UTF-8; else as 5 where the splices' len together aren't texts_len; else as 4
 * where one of the texts isn't UTF-8, and as tp_edit: as 103 where the splices delete and insert more than 65,536 characters
 * together. */
uint32_t tp_edit_many(tp_handle *handle, const uint8_t actor[16], const tp_splice *splices, size_t count, const char *texts,
                      size_t texts_len, uint64_t time, const char *message, size_t message_len, size_t *len);

/* The answer is the hashes of the heads, 32 bytes each, rising. Refused as 109. */
uint32_t tp_heads(tp_handle *handle, size_t *len);

/* How many changes are applied. */
size_t tp_change_count(tp_handle *handle);

/* The answer is the bytes of the applied change with this number, from 0 in the order in which they entered. Refused as 3
 * where there are fewer, and as 1. */
uint32_t tp_change_at(tp_handle *handle, size_t number, size_t *len);

/* What a change says. */
typedef struct tp_change {
    uint8_t hash[32];
    uint8_t actor[16];
    uint64_t seq;    /* its number among the actor's changes, from 1 */
    uint64_t time;   /* when it was made, as whoever made it counts time */
    size_t deps;     /* how many changes it depends on */
    size_t inserted; /* how many characters it inserts */
    size_t deleted;  /* how many it deletes, also those that another change deletes too */
} tp_change;

/* Writes what the applied change with this number says to change. The answer is the hashes of the changes that it depends on,
 * 32 bytes each, rising, and after them its message as UTF-8. Refused as tp_change_at; nothing is written to change
 * then. */
uint32_t tp_change_describe(tp_handle *handle, size_t number, tp_change *change, size_t *len);

/* An element of the text, which stays the same whatever is written before it. */
typedef struct tp_element {
    uint64_t counter; /* from 1 to 2^48 - 1 */
    uint8_t actor[16];
} tp_element;

/* Writes the element at a position of the text to element. Refused as 101 where the text ends before it; nothing is written
 * then. */
uint32_t tp_cursor(tp_handle *handle, size_t at, tp_element *element);

/* Writes how many characters are before the element to at; it may have been deleted since. Refused as 106 where the document
 * hasn't the element; nothing is written then. */
uint32_t tp_cursor_position(tp_handle *handle, const tp_element *element, size_t *at);

/* ---- earlier texts, and what changed ----
 *
 * Heads are given as tp_heads answers them: hashes of applied changes, 32 bytes each, in any order, repeats allowed. Their text
 * is that of these changes and of all that they depend on; no hash gives the empty text. Refused as 5 where a part of a hash is
 * left over, as 105 where one is of no applied change, as 109. */

/* The answer is the text at the heads, as UTF-8 without a zero at its end. */
uint32_t tp_text_at(tp_handle *handle, const uint8_t *heads, size_t heads_len, size_t *len);

/* Writes how many characters the text at the heads has to count; nothing where it is refused. */
uint32_t tp_len_at(tp_handle *handle, const uint8_t *heads, size_t heads_len, size_t *count);

/* What changed from the text at the heads to the text now: writes splices that lead from one to the other, rising, each on the
 * text that those before it leave, and how many they are to count. There is room for as many splices as room says;
 * where there are more, the first are written, and the same call with more room writes all. The answer is the texts of
 * all of them, one after another; each splice has the next len bytes. They are exact by elements: what both texts show
 * is left as it is, and no two could be one. What came since heads near the end is found without going over the whole
 * text. Nothing is written where it is refused. */
uint32_t tp_differences_since(tp_handle *handle, const uint8_t *heads, size_t heads_len, tp_splice *splices, size_t room,
                              size_t *count, size_t *len);

/* What changed from the text at some heads to that at others, as tp_differences_since writes it. */
uint32_t tp_differences(tp_handle *handle, const uint8_t *from, size_t from_len, const uint8_t *to, size_t to_len,
                        tp_splice *splices, size_t room, size_t *count, size_t *len);

/* Makes an editor of a copy of the document, with all changes that entered, in memory alone, without links and a session:
 * tp_fork(&handle, actor, &other.at). Its edits by the shared calls are the actor's; no two editors may edit under one actor at
 * a time. Refused as 109 or 1; nothing is written then. */
uint32_t tp_fork(tp_handle *handle, const uint8_t actor[16], void **at);

/* ---- what others have ---- */

/* Receives the change that the bytes are: it enters, waits for what it depends on, or is refused for good, as one that is there
 * already. Each of these is 0; tp_change_count tells how many entered. In a file it is on the disk with the next edit or message.
 * Refused past 400 where the bytes are no change, as 107 where more than 1,024 changes would wait, as 109, 502 or 503. */
uint32_t tp_apply(tp_handle *handle, const uint8_t *bytes, size_t bytes_len);

/* Receives the changes of the other handle's document that are absent here; the other one isn't changed, and is not this one.
 * In a file they are on the disk with the next edit or message. Refused as 110 where the documents have different identifiers,
 * as 109, 502, and 503 where either has stopped. */
uint32_t tp_merge(tp_handle *handle, tp_handle *other);

/* Opens a link to another peer, and writes its number to link: from 0 in the order in which they are opened. Refused as 504
 * where 1,022 are; nothing is written then. */
uint32_t tp_link(tp_handle *handle, size_t *link);

/* The answer is the next message to the other of the link. *len is 0 where nothing is to be said, and the answer stays then.
 * Messages may be lost, and come twice, late or in any order. In a file what it tells is on the disk first. Refused as 2 where
 * there is no such link, as 203, 1, 502 or 503; *len is 0 then. */
uint32_t tp_generate(tp_handle *handle, size_t link, size_t *len);

/* Receives the message that the bytes are from the other of the link. Refused as 2 where there is no such link, as 503 where the
 * editor has stopped, as 201 or 202 where they are no message, as 204 where more than 1,024 changes would wait, as 205 or 502. */
uint32_t tp_receive(tp_handle *handle, size_t link, const uint8_t *bytes, size_t bytes_len);

/* ---- A text that is shared: a journal in a file, and one session at a time by bytes ----
 *
 * A handle of a document whose journal is in a file, edited under one actor. It has the file's lock as long as it lives, as a
 * `textpeer` command has that may write the file; each change is on the disk before the call that made it is done, and before a
 * session answers for it. The calls above take it too, and those below take a handle in memory: some have two names.
 *
 * TP_PEER_JOURNAL_FAILED (502) says that the journal can't be written any more, or that its path doesn't lead to it any more,
 * since the file was moved, removed, replaced or cut. What the call was given isn't kept then for sure. From then on the editor
 * edits and exchanges no more: such calls are refused as 503. What it has is still read; close it, put the file back or make
 * room, and open it under another actor.
 */

typedef tp_handle tp_shared;

/* Opens the journal in the file at the path, to be edited under the actor: tp_shared_open(path, path_len, actor, &shared.at).
 * The actor is 16 bytes that were drawn anew: no change of the journal may be that actor's (501). What a crash left
 * after the last whole change is cut off. 801 where another has the file open, 802 where it isn't there or can't be
 * opened, locked or read; 301 and further where its bytes are no journal, 308 where it has no header yet; 304 also
 * where whole changes would be cut off, since the record before them is damaged: the program's `recover` has them.
 * Nothing is written to *at then. The path is UTF-8; it ends at path_len, and has no zero in it. */
uint32_t tp_shared_open(const char *path, size_t path_len, const uint8_t actor[16], void **at);

/* Does what tp_shared_open does, but begins the journal of a new document with this identifier, in a file that isn't there, is
 * empty, or has no whole header. Another one is refused as 505 and stays as it is. */
uint32_t tp_shared_create(const char *path, size_t path_len, const uint8_t id[16], const uint8_t actor[16], void **at);

/* tp_free, tp_answer, tp_id, tp_len, tp_change_count, tp_text and tp_heads by other names. */
void tp_shared_close(tp_shared shared);
size_t tp_shared_answer(tp_shared *shared, uint8_t *out, size_t room);
void tp_shared_id(tp_shared *shared, uint8_t id[16]);
size_t tp_shared_length(tp_shared *shared);
size_t tp_shared_change_count(tp_shared *shared);
uint32_t tp_shared_text(tp_shared *shared, size_t *len);
uint32_t tp_shared_heads(tp_shared *shared, size_t *len);

/* As tp_edit, under the editor's actor: that of its opening or of the last tp_edit, which must not be that of any other editor.
 * *len is the answer's length, also after a refusal, which makes it empty. Where memory was refused the status is 509. */
uint32_t tp_shared_edit(tp_shared *shared, size_t at, size_t del, const char *text, size_t text_len, uint64_t time,
                        const char *message, size_t message_len, size_t *len);

/* As tp_edit_many, under the editor's actor and with the length and the refusals of tp_shared_edit. */
uint32_t tp_shared_edit_many(tp_shared *shared, const tp_splice *splices, size_t count, const char *texts, size_t texts_len,
                             uint64_t time, const char *message, size_t message_len, size_t *len);

/* As tp_cursor, but writes the element in parts: a counter and an actor. */
uint32_t tp_shared_cursor(tp_shared *shared, size_t at, uint64_t *counter, uint8_t actor[16]);

/* As tp_cursor_position, of an element in parts. */
uint32_t tp_shared_cursor_position(tp_shared *shared, uint64_t counter, const uint8_t actor[16], size_t *position);

/* Begins a session, and ends one that was going on: nothing more of it is sent. role is 0 for the side that connected and
 * 1 for the side that was connected to. The answer is what is to be sent at once: the client's first frame; of a server
 * nothing. A session exchanges what both sides have by then, and what they make until each has said done: so a side that
 * wants what comes later begins another session, over a stream of its own. A refusal, 503 or 608, leaves the answer empty, and
 * no session going on. */
uint32_t tp_shared_begin(tp_shared *shared, uint32_t role, size_t *len);

/* Takes bytes of the other side, in whatever pieces they come. The answer is what is to be sent for them, which may be empty;
 * send it also where the status isn't 0: it ends with the refusal that the other side is due. *going is 1 while the session
 * goes on. It is 0 once it has ended: with status 0 both sides have said done, and bytes that came after are dropped; any
 * other status says why it broke off, and what it had received stays. Without a session it is refused as 605, and the answer is
 * empty. *entered is
 * how many changes entered in this session so far. */
uint32_t tp_shared_feed(tp_shared *shared, const uint8_t *bytes, size_t bytes_len, size_t *len, uint32_t *going,
                        uint64_t *entered);

/* Ends a session that is going on, as where its stream has ended. Nothing is sent; what it had received stays. */
void tp_shared_end(tp_shared *shared);

#ifdef __cplusplus
}
#endif

/* The engine itself wants an address also where there are no bytes, or where a length isn't wanted: these give it one in the
 * place of NULL. */
static inline const void *tp_some(const void *bytes)
{
    return bytes ? bytes : "";
}

static inline void tp_free_some(tp_handle handle)
{
    if (handle.at)
        tp_free(handle);
}

static inline size_t tp_answer_some(tp_handle *handle, uint8_t *out, size_t room)
{
    return tp_answer(handle, (uint8_t *)tp_some(out), room);
}

static inline uint32_t tp_load_some(tp_handle *handle, const uint8_t *bytes, size_t bytes_len)
{
    return tp_load(handle, (const uint8_t *)tp_some(bytes), bytes_len);
}

static inline uint32_t tp_edit_some(tp_handle *handle, const uint8_t actor[16], size_t at, size_t del, const char *text,
                                    size_t text_len, uint64_t time, const char *message, size_t message_len, size_t *len)
{
    size_t unused;
    return tp_edit(handle, actor, at, del, (const char *)tp_some(text), text_len, time, (const char *)tp_some(message),
                   message_len, len ? len : &unused);
}

static inline uint32_t tp_edit_many_some(tp_handle *handle, const uint8_t actor[16], const tp_splice *splices, size_t count,
                                         const char *texts, size_t texts_len, uint64_t time, const char *message,
                                         size_t message_len, size_t *len)
{
    tp_splice none;
    size_t unused;
    return tp_edit_many(handle, actor, splices ? splices : &none, count, (const char *)tp_some(texts), texts_len, time,
                        (const char *)tp_some(message), message_len, len ? len : &unused);
}

static inline uint32_t tp_shared_edit_many_some(tp_shared *shared, const tp_splice *splices, size_t count, const char *texts,
                                                size_t texts_len, uint64_t time, const char *message, size_t message_len,
                                                size_t *len)
{
    tp_splice none;
    return tp_shared_edit_many(shared, splices ? splices : &none, count, (const char *)tp_some(texts), texts_len, time,
                               (const char *)tp_some(message), message_len, len);
}

static inline uint32_t tp_apply_some(tp_handle *handle, const uint8_t *bytes, size_t bytes_len)
{
    return tp_apply(handle, (const uint8_t *)tp_some(bytes), bytes_len);
}

static inline uint32_t tp_receive_some(tp_handle *handle, size_t link, const uint8_t *bytes, size_t bytes_len)
{
    return tp_receive(handle, link, (const uint8_t *)tp_some(bytes), bytes_len);
}

static inline uint32_t tp_text_at_some(tp_handle *handle, const uint8_t *heads, size_t heads_len, size_t *len)
{
    return tp_text_at(handle, (const uint8_t *)tp_some(heads), heads_len, len);
}

static inline uint32_t tp_len_at_some(tp_handle *handle, const uint8_t *heads, size_t heads_len, size_t *count)
{
    return tp_len_at(handle, (const uint8_t *)tp_some(heads), heads_len, count);
}

static inline uint32_t tp_differences_since_some(tp_handle *handle, const uint8_t *heads, size_t heads_len, tp_splice *splices,
                                                 size_t room, size_t *count, size_t *len)
{
    tp_splice none;
    return tp_differences_since(handle, (const uint8_t *)tp_some(heads), heads_len, splices ? splices : &none, room, count, len);
}

static inline uint32_t tp_differences_some(tp_handle *handle, const uint8_t *from, size_t from_len, const uint8_t *to,
                                           size_t to_len, tp_splice *splices, size_t room, size_t *count, size_t *len)
{
    tp_splice none;
    return tp_differences(handle, (const uint8_t *)tp_some(from), from_len, (const uint8_t *)tp_some(to), to_len,
                          splices ? splices : &none, room, count, len);
}

#define tp_free tp_free_some
#define tp_answer tp_answer_some
#define tp_load tp_load_some
#define tp_edit tp_edit_some
#define tp_edit_many tp_edit_many_some
#define tp_shared_edit_many tp_shared_edit_many_some
#define tp_apply tp_apply_some
#define tp_receive tp_receive_some
#define tp_text_at tp_text_at_some
#define tp_len_at tp_len_at_some
#define tp_differences_since tp_differences_since_some
#define tp_differences tp_differences_some

#define tp_shared_edit(shared, at, del, text, text_len, time, message, message_len, len) \
    (tp_shared_edit)(shared, at, del, (const char *)tp_some(text), text_len, time, (const char *)tp_some(message), message_len, len)
#define tp_shared_feed(shared, bytes, bytes_len, len, going, entered) \
    (tp_shared_feed)(shared, (const uint8_t *)tp_some(bytes), bytes_len, len, going, entered)
#define tp_shared_answer(shared, out, room) (tp_shared_answer)(shared, (uint8_t *)tp_some(out), room)

#endif
