/* Adds a line to a text that is shared, exchanges changes with a server, and prints the text and how many changes entered:
 *
 *   example FILE LINE [PORT]     FILE is begun where it isn't there; PORT is that of `textpeer serve` on this machine
 */
#include <textpeer.h>

#include <arpa/inet.h>
#include <stdio.h>
#include <stdlib.h>
#include <string.h>
#include <sys/random.h>
#include <sys/socket.h>
#include <sys/time.h>
#include <unistd.h>

/* Ends the program where something failed. */
static void must(int is_done, const char *what)
{
    if (!is_done) {
        perror(what);
        exit(1);
    }
}

/* Ends the program where the engine refused a call, and says why. */
static void check(uint32_t status, const char *call)
{
    if (status == TP_DONE)
        return;
    const char *name = tp_status_name(status), *words = tp_status_words(status);
    fprintf(stderr, "%s: %s (%u): %s\n", call, name ? name : "refused", (unsigned)status, words ? words : "");
    exit(1);
}

static void draw(uint8_t bytes[16])
{
    must(getrandom(bytes, 16, 0) == 16, "getrandom");
}

/* Opens the journal in the file, or begins one, under an actor of its own. */
static tp_shared open_notes(const char *path)
{
    tp_shared notes;
    uint8_t id[16], actor[16];
    draw(actor);
    if (access(path, F_OK) == 0) {
        check(tp_shared_open(path, strlen(path), actor, &notes.at), "open");
    } else {
        draw(id);
        check(tp_shared_create(path, strlen(path), id, actor, &notes.at), "create");
    }
    return notes;
}

/* Adds a line at the end, as one change, which is on the disk then. */
static void add_line(tp_shared *notes, const char *line)
{
    size_t len = strlen(line), unused;
    char *text = malloc(len + 1);
    must(text != NULL, "malloc");
    memcpy(text, line, len);
    text[len] = '\n';
    check(tp_shared_edit(notes, tp_shared_length(notes), 0, text, len + 1, 0, NULL, 0, &unused), "edit");
    free(text);
}

/* The editor's answer, which has this length, with a zero after it; the caller frees it. */
static uint8_t *answer(tp_shared *notes, size_t len)
{
    uint8_t *bytes = malloc(len + 1);
    must(bytes != NULL, "malloc");
    bytes[tp_shared_answer(notes, bytes, len)] = 0;
    return bytes;
}

/* Sends the editor's answer, which has this length. */
static void send_answer(tp_shared *notes, int connection, size_t len)
{
    uint8_t *bytes = answer(notes, len);
    for (size_t at = 0; at < len;) {
        ssize_t sent = send(connection, bytes + at, len - at, MSG_NOSIGNAL);
        must(sent > 0, "send");
        at += (size_t)sent;
    }
    free(bytes);
}

/* Holds a session as the client. How many changes entered. */
static uint64_t exchange(tp_shared *notes, int connection)
{
    static uint8_t came[1 << 16];
    uint32_t going = 1;
    uint64_t entered = 0;
    size_t len;
    check(tp_shared_begin(notes, 0, &len), "begin");
    send_answer(notes, connection, len);
    while (going) {
        ssize_t count = recv(connection, came, sizeof came, 0);
        must(count >= 0, "recv");
        if (count == 0) {
            fprintf(stderr, "the server ended the connection\n");
            exit(1);
        }
        uint32_t status = tp_shared_feed(notes, came, (size_t)count, &len, &going, &entered);
        send_answer(notes, connection, len); /* also where it is refused, since the other side is due a word too */
        check(status, "feed");
    }
    return entered;
}

static int connection_to(const char *port)
{
    struct sockaddr_in place = {.sin_family = AF_INET, .sin_port = htons((uint16_t)atoi(port))};
    struct timeval patience = {.tv_sec = 10};
    int connection = socket(AF_INET, SOCK_STREAM, 0);
    place.sin_addr.s_addr = htonl(INADDR_LOOPBACK);
    must(connection >= 0, "socket");
    must(setsockopt(connection, SOL_SOCKET, SO_RCVTIMEO, &patience, sizeof patience) == 0, "setsockopt");
    must(connect(connection, (struct sockaddr *)&place, sizeof place) == 0, "connect");
    return connection;
}

int main(int count, char **words)
{
    if (count < 3) {
        fprintf(stderr, "example FILE LINE [PORT]\n");
        return 2;
    }
    tp_shared notes = open_notes(words[1]);
    size_t len;
    add_line(&notes, words[2]);
    uint64_t entered = 0;
    if (count > 3) {
        int connection = connection_to(words[3]);
        entered = exchange(&notes, connection);
        close(connection);
    }
    check(tp_shared_text(&notes, &len), "text");
    uint8_t *text = answer(&notes, len);
    fwrite(text, 1, len, stdout);
    printf("%u entered\n", (unsigned)entered);
    free(text);
    tp_shared_close(notes);
    return 0;
}
