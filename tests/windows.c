/* windows: holds the gateway's walk through its buffer to one call of the library over the whole
 * recording. Drawn recordings are read from a file, and from a socket that gives them in chunks, so
 * that messages, damaged ones and false beginnings stand across the ends of what is at hand. The
 * seed is fixed. The last line counts what passed and failed. */
#define _POSIX_C_SOURCE 200809L

#include <inttypes.h>
#include <stdio.h>
#include <stdlib.h>
#include <string.h>
#include <sys/socket.h>
#include <sys/wait.h>
#include <unistd.h>

#include "recording.h"
#include "selkavorn.h"

enum {
    LONGEST_DRAWN = 3 * RECORDING_BUFFER,
    ROOM = LONGEST_DRAWN + 8 * SELKAVORN_LONGEST_MESSAGE,
    FILES = 100,   /* recordings that are read from a file */
    SOCKETS = 150, /* and from a socket */
    PATIENCE_S = 20 /* for what is to be given at once */
};

static uint8_t drawn[ROOM];
static size_t drawn_n;
static uint64_t whole[SELKAVORN_SALVAGE_PIECES + ROOM];
static struct recording recording;
static unsigned passed, failed;
static uint64_t pieces, edges;

static void fail(const char *what)
{
    perror(what);
    exit(1);
}

static void check(bool good, const char *what, unsigned number)
{
    passed += good;
    failed += !good;
    if (!good)
        printf("FAILED: %s %u\n", what, number);
}

/* ---- drawing ---- */

static uint64_t state = UINT64_C(0x9E3779B97F4A7C15);

/* A number below n (xorshift64). */
static size_t below(size_t n)
{
    state ^= state << 13;
    state ^= state >> 7;
    state ^= state << 17;
    return (size_t)(state % n);
}

static void put(const void *bytes, size_t n)
{
    memcpy(drawn + drawn_n, bytes, n);
    drawn_n += n;
}

static void put_text(const char *text)
{
    put(text, strlen(text));
}

/* The tag 10 of a stretch that starts at `start`; `wrong` is added to its sum. */
static void put_trailer(size_t start, unsigned wrong)
{
    char trailer[16];
    unsigned sum = wrong;
    for (size_t i = start; i < drawn_n; i++)
        sum += drawn[i];
    snprintf(trailer, sizeof trailer, "10=%03u\001", sum % 256);
    put_text(trailer);
}

/* A heartbeat with a text of n bytes; `more` is added to its tag 9, `wrong` to its sum. */
static void put_message(size_t n, int more, unsigned wrong)
{
    char head[64];
    size_t start = drawn_n;
    snprintf(head, sizeof head, "8=FIX.4.4\0019=%zu\00135=0\00158=",
             (size_t)((int)n + (int)strlen("35=0|58=|") + more));
    put_text(head);
    memset(drawn + drawn_n, 'x', n);
    drawn_n += n;
    put_text("\001");
    put_trailer(start, wrong);
}

/* The bytes of the text in the longest message. */
static size_t longest_text(void)
{
    return SELKAVORN_LONGEST_MESSAGE - strlen("8=FIX.4.4|9=0000|35=0|58=|10=000|");
}

/* The length of a text: mostly short; sometimes of any length, sometimes such that the message is
 * about as long as the longest. */
static size_t draw_length(void)
{
    switch (below(12)) {
    case 0: return longest_text() - 1 + below(3);
    case 1: return 1 + below(longest_text());
    default: return 1 + below(200);
    }
}

static void put_noise(void)
{
    static const char letters[] = "8=FIX.4\0019=10";
    size_t n = 1 + below(below(8) == 0 ? 20000 : 30);
    for (; n > 0; n--)
        drawn[drawn_n++] = (uint8_t)letters[below(sizeof letters - 1)];
}

/* The first bytes of a message, that its tag 9 says is of any length. */
static void put_false_beginning(void)
{
    char head[64];
    int n = snprintf(head, sizeof head, "8=FIX.4.4\0019=%zu\00135=0\001", below(9000));
    put(head, 1 + below((size_t)n));
}

static void put_cut(void)
{
    size_t start = drawn_n;
    put_message(draw_length(), 0, 0);
    drawn_n = start + 1 + below(drawn_n - start);
}

static void put_flipped(void)
{
    size_t start = drawn_n;
    put_message(draw_length(), 0, 0);
    drawn[start + below(drawn_n - start)] ^= (uint8_t)(1 << below(8));
}

/* A tag 9 that runs over whole messages and ends at the last one's tag 10; where the sum is right
 * too, they stand within a whole message. */
static void put_outer(void)
{
    char head[64];
    size_t inner = 1 + below(3), start = drawn_n, room = strlen("8=FIX.4.4|9=000|35=0|");
    drawn_n += room;
    for (; inner > 0; inner--)
        put_message(100 + below(150), 0, 0); /* so that tag 9 has three digits */
    drawn_n -= strlen("10=000|");
    snprintf(head, sizeof head, "8=FIX.4.4\0019=%zu\00135=0\001",
             drawn_n - start - room + strlen("35=0|"));
    memcpy(drawn + start, head, room);
    put_trailer(start, (unsigned)below(2));
}

static void put_piece(void)
{
    switch (below(9)) {
    case 0: put_noise(); break;
    case 1: put_false_beginning(); break;
    case 2: put_cut(); break;
    case 3: put_flipped(); break;
    case 4: put_outer(); break;
    case 5: put_message(draw_length(), (int)below(60) - 30, 0); break;
    default: put_message(draw_length(), 0, 0); break;
    }
}

/* Draws a recording of at least `bytes` bytes. */
static void draw(size_t bytes)
{
    drawn_n = 0;
    while (drawn_n < bytes)
        put_piece();
}

/* ---- comparing ---- */

/* Walks the whole recording by one call of the library. */
static void walk_whole(void)
{
    if (selkavorn_salvage(drawn, drawn_n, 0, whole, sizeof whole / sizeof *whole) !=
            SELKAVORN_DONE ||
        whole[SELKAVORN_SALVAGE_NEXT] != drawn_n)
        fail("the walk of the whole");
    pieces += whole[SELKAVORN_SALVAGE_COUNT];
}

/* Says whether a piece is the one that the library found. */
static bool is_same(const struct piece *piece, const uint64_t *found)
{
    bool is_message = found[SELKAVORN_PIECE_KIND] == SELKAVORN_PIECE_MESSAGE;
    return piece->kind == (is_message ? PIECE_MESSAGE : PIECE_PASSED) &&
           piece->place == found[SELKAVORN_PIECE_START] &&
           piece->length == found[SELKAVORN_PIECE_LENGTH] &&
           (!is_message || memcmp(piece->bytes, drawn + piece->place, piece->length) == 0);
}

/* Says whether the walk through the buffer gives the pieces of the whole, and then the end. */
static bool walks_alike(int file)
{
    struct piece piece;
    recording_begin(&recording, file, NULL);
    for (uint64_t i = 0; i < whole[SELKAVORN_SALVAGE_COUNT]; i++) {
        recording_next(&recording, &piece);
        if (!is_same(&piece, whole + SELKAVORN_SALVAGE_PIECES + SELKAVORN_PIECE_NUMBERS * i))
            return false;
    }
    recording_next(&recording, &piece);
    return piece.kind == PIECE_END && piece.place == drawn_n && recording.failure == 0;
}

/* ---- where it is read from ---- */

static void try_file(unsigned number)
{
    FILE *file = tmpfile();
    if (file == NULL || fwrite(drawn, 1, drawn_n, file) != drawn_n || fflush(file) != 0 ||
        lseek(fileno(file), 0, SEEK_SET) != 0)
        fail("a file");
    edges += drawn_n / RECORDING_BUFFER;
    check(walks_alike(fileno(file)), "from a file, recording", number);
    fclose(file);
}

/* Lets the longest message stand across the end of what is first at hand, which has `within` of its
 * bytes. */
static void try_edge(size_t within)
{
    drawn_n = RECORDING_BUFFER - within;
    memset(drawn, 'x', drawn_n);
    put_message(longest_text(), 0, 0);
    put_message(10, 0, 0);
    walk_whole();
    try_file((unsigned)within);
}

static void try_edges(void)
{
    enum { NEAR = 30 };
    for (size_t i = 0; i < NEAR; i++) {
        try_edge(i);
        try_edge(SELKAVORN_LONGEST_MESSAGE - i);
    }
}

/* Writes the recording in chunks of 1 to `most` bytes. A socket of this kind gives each as it was
 * written, so that what is at hand does not hang on time. */
static void send_chunks(int socket, size_t most)
{
    for (size_t at = 0; at < drawn_n;) {
        size_t n = 1 + below(most);
        n = n < drawn_n - at ? n : drawn_n - at;
        if (write(socket, drawn + at, n) != (ssize_t)n)
            return; /* the walk was found wrong, and the reader is gone */
        at += n;
    }
}

static void try_socket(unsigned number, size_t most)
{
    int ends[2], status;
    if (socketpair(AF_UNIX, SOCK_SEQPACKET, 0, ends) != 0)
        fail("a socket");
    fflush(stdout);
    pid_t writer = fork();
    if (writer == 0) {
        close(ends[0]);
        send_chunks(ends[1], most);
        _exit(0);
    }
    close(ends[1]);
    edges += drawn_n / ((1 + most) / 2);
    check(walks_alike(ends[0]), "from a socket, recording", number);
    close(ends[0]);
    if (writer < 0 || waitpid(writer, &status, 0) != writer)
        fail("the writer");
}

/* Says whether a recording that goes on gives its pieces, up to `n` of them, before more comes. */
static void try_at_once(const char *what, size_t n)
{
    int ends[2];
    struct piece piece;
    walk_whole();
    if (pipe(ends) != 0 || write(ends[1], drawn, drawn_n) != (ssize_t)drawn_n)
        fail("a pipe");
    alarm(PATIENCE_S);
    recording_begin(&recording, ends[0], NULL);
    bool good = n <= whole[SELKAVORN_SALVAGE_COUNT];
    for (size_t i = 0; good && i < n; i++) {
        recording_next(&recording, &piece);
        good = is_same(&piece, whole + SELKAVORN_SALVAGE_PIECES + SELKAVORN_PIECE_NUMBERS * i);
    }
    alarm(0);
    check(good, what, 0);
    close(ends[0]);
    close(ends[1]);
}

static void try_pipes(void)
{
    drawn_n = 0;
    put_message(10, 0, 0);
    put_message(20, 0, 0);
    try_at_once("messages at once", 2);
    drawn_n = 0;
    put_text("8=FIX.4.4\0018=FIX.4.4\0019:");
    put_message(10, 0, 0);
    try_at_once("a message behind a run at once", 2);
    put_text("8=FIX.4.4\0019=");
    try_at_once("a message before a beginning at once", 2);
}

int main(void)
{
    /* Small chunks are for small recordings: the last 8,191 bytes are walked anew with each. */
    static const size_t most[] = {1, 7, 100, 1500, SELKAVORN_LONGEST_MESSAGE};
    enum { SIZES = sizeof most / sizeof *most };
    for (unsigned i = 0; i < FILES; i++) {
        draw(below(LONGEST_DRAWN));
        walk_whole();
        try_file(i);
    }
    for (unsigned i = 0; i < SOCKETS; i++) {
        draw(below(most[i % SIZES] < 1000 ? 12000 : 200000));
        walk_whole();
        try_socket(i, most[i % SIZES]);
    }
    try_edges();
    try_pipes();
    printf("pieces: %" PRIu64 ", ends of what is at hand: about %" PRIu64 "\n", pieces, edges);
    printf("windows: %u passed, %u failed\n", passed, failed);
    return failed > 0;
}
