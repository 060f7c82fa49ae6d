/* Walks a recording through a buffer of fixed size. The library says where messages stand among the
 * bytes at hand. What it finds there is a message of the whole recording too. A byte that it passes
 * over is decided if as many bytes are at hand from it on as the longest message has, if those at
 * hand differ from the beginning of every message, or if the recording ends with them. From the
 * first byte that is not decided the library is asked anew, with more behind it. */
#define _POSIX_C_SOURCE 200809L

#include "recording.h"

#include <errno.h>
#include <stdio.h>
#include <string.h>
#include <unistd.h>

static const char BEGIN[] = "8=FIX.4.4\0019=";
enum { BEGIN_BYTES = sizeof BEGIN - 1 };

void recording_begin(struct recording *recording, int file, struct progress *progress)
{
    memset(recording, 0, sizeof *recording);
    recording->file = file;
    recording->progress = progress;
    recording->run.kind = PIECE_PASSED;
}

/* ---- the bytes at hand ---- */

/* Makes room behind the bytes at hand for those of a message. More are read only while fewer are
 * undecided than the longest message has. */
static void make_room(struct recording *recording)
{
    if (RECORDING_BUFFER - recording->end >= SELKAVORN_LONGEST_MESSAGE)
        return;
    recording->before += recording->start;
    recording->end -= recording->start;
    memmove(recording->bytes, recording->bytes + recording->start, recording->end);
    recording->start = 0;
}

/* Reads more bytes behind those at hand; false where there are none. */
static bool read_more(struct recording *recording)
{
    if (recording->ended)
        return false;
    make_room(recording);
    fflush(stdout); /* what was said is seen before this waits for more */
    ssize_t got;
    do
        got = read(recording->file, recording->bytes + recording->end,
                   RECORDING_BUFFER - recording->end);
    while (got < 0 && errno == EINTR);
    recording->failure = got < 0 ? errno : 0;
    recording->ended = got <= 0;
    recording->end += got > 0 ? (size_t)got : 0;
    if (recording->progress != NULL)
        progress_at(recording->progress, recording->before + recording->end);
    return got > 0;
}

/* ---- the walk ---- */

/* Says whether the bytes at hand agree with the beginning of a message. */
static bool may_begin(const uint8_t *bytes, size_t n)
{
    return memcmp(bytes, BEGIN, n < BEGIN_BYTES ? n : BEGIN_BYTES) == 0;
}

/* Of bytes that the library passed over, up to `to`, gives the first from bytes[start] on that is
 * not decided, or `to`. */
static size_t decided_to(const struct recording *recording, size_t to)
{
    size_t at = recording->start, end = recording->end;
    if (recording->ended)
        return to;
    if (end - at >= SELKAVORN_LONGEST_MESSAGE)
        at = end - SELKAVORN_LONGEST_MESSAGE + 1;
    while (at < to && !may_begin(recording->bytes + at, end - at))
        at++;
    return at < to ? at : to;
}

/* Adds what is decided of a run that the library passed over to the run that is not yet given.
 * Where a byte of it is not decided, nothing of the walk behind that byte is. */
static void pass_over(struct recording *recording, const uint64_t *found)
{
    size_t end = (size_t)(found[SELKAVORN_PIECE_START] + found[SELKAVORN_PIECE_LENGTH]);
    size_t to = decided_to(recording, end);
    if (recording->run.length == 0)
        recording->run.place = recording->before + recording->start;
    recording->run.length += to - recording->start;
    recording->start = to;
    recording->used++;
    if (to == end)
        return;
    recording->used = recording->walk[SELKAVORN_SALVAGE_COUNT];
    read_more(recording);
}

/* Gives what the library finds next in the bytes at hand; NULL at the recording's end. */
static const uint64_t *find_next(struct recording *recording)
{
    uint64_t *walk = recording->walk;
    if (recording->used == walk[SELKAVORN_SALVAGE_COUNT]) {
        if (recording->start == recording->end && !read_more(recording))
            return NULL;
        selkavorn_salvage(recording->bytes, recording->end, recording->start, walk, WALK_NUMBERS);
        recording->used = 0;
    }
    return walk + SELKAVORN_SALVAGE_PIECES + SELKAVORN_PIECE_NUMBERS * recording->used;
}

static void give_message(struct recording *recording, const uint64_t *found, struct piece *piece)
{
    *piece = (struct piece){.kind = PIECE_MESSAGE,
                            .place = recording->before + recording->start,
                            .length = found[SELKAVORN_PIECE_LENGTH],
                            .bytes = recording->bytes + recording->start};
    recording->start += (size_t)piece->length;
    recording->used++;
}

void recording_next(struct recording *recording, struct piece *piece)
{
    const uint64_t *found = find_next(recording);
    while (found != NULL && found[SELKAVORN_PIECE_KIND] == SELKAVORN_PIECE_PASSED) {
        pass_over(recording, found);
        found = find_next(recording);
    }
    if (recording->run.length > 0) {
        *piece = recording->run;
        recording->run.length = 0;
    } else if (found != NULL) {
        give_message(recording, found, piece);
    } else {
        *piece = (struct piece){.kind = PIECE_END, .place = recording->before + recording->end};
    }
}
