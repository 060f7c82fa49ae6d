/* The instruments that a recording names, for a command line that names none. */
#include <inttypes.h>
#include <stdio.h>
#include <stdlib.h>
#include <string.h>

#include "message.h"
#include "names.h"
#include "progress.h"
#include "replay.h"

/* An instrument that was named. */
struct named {
    uint64_t id;
    uint64_t messages; /* X and W messages that name it; 0 where only a SecurityList does */
    uint64_t last;     /* the last of them, counted from 1 */
    char name[NAME_TEXT];
};

/* All of them, in the order of their SecurityIDs. */
struct census {
    struct named *of;
    size_t n, room;
    uint64_t messages; /* looked at so far */
};

static void make_room(struct census *census)
{
    if (census->n < census->room)
        return;
    census->room = census->room * 2 + SELKAVORN_MOST_INSTRUMENTS;
    census->of = realloc(census->of, census->room * sizeof *census->of);
    if (census->of != NULL)
        return;
    fprintf(stderr, "selkavorn: there is no memory for so many instruments\n");
    exit(STATUS_FILE);
}

/* Gives an instrument's place, which is made where it has none. */
static struct named *find_named(struct census *census, uint64_t id)
{
    size_t low = 0, high = census->n;
    while (low < high) {
        size_t middle = low + (high - low) / 2;
        if (census->of[middle].id < id)
            low = middle + 1;
        else
            high = middle;
    }
    if (low < census->n && census->of[low].id == id)
        return &census->of[low];
    make_room(census);
    memmove(census->of + low + 1, census->of + low, (census->n - low) * sizeof *census->of);
    census->of[low] = (struct named){.id = id};
    census->n++;
    return &census->of[low];
}

/* Counts the instruments that an X or a W names, each once. */
static void count_named(struct census *census, const struct piece *message)
{
    size_t from = 0;
    for (struct value id = message_value(message, "48", &from); id.bytes != NULL;
         id = message_value(message, "48", &from)) {
        if (value_number(id) == 0)
            continue;
        struct named *named = find_named(census, value_number(id));
        named->messages += named->last != census->messages;
        named->last = census->messages;
    }
}

/* Takes the names that a SecurityList gives. */
static void take_listed(struct census *census, const struct piece *message)
{
    size_t from = 0;
    for (struct listed entry = next_listed(message, &from); entry.symbol.bytes != NULL;
         entry = next_listed(message, &from))
        if (entry.id > 0)
            symbol_name(entry.symbol, find_named(census, entry.id)->name);
}

static void take_piece(struct census *census, const struct request *request,
                       const struct piece *piece)
{
    if (piece->kind == PIECE_PASSED)
        return;
    uint64_t answer = judge(request, piece);
    census->messages++;
    if (is_well_formed(answer) && message_names_instruments(piece))
        count_named(census, piece);
    if (is_well_formed(answer) && message_has_type(piece, 'y'))
        take_listed(census, piece);
}

static enum status take_census(struct census *census, const struct request *request,
                               struct files files)
{
    static struct streams streams;
    struct progress progress;
    struct piece piece;
    progress_begin(&progress, files.recording, false);
    streams_begin(&streams, request, files, &progress);
    for (streams_next(&streams, &piece); piece.kind != PIECE_END; streams_next(&streams, &piece))
        take_piece(census, request, &piece);
    progress_end(&progress);
    return streams_status(&streams);
}

/* More messages first; of as many, the lower SecurityID. */
static int by_messages(const void *left, const void *right)
{
    const struct named *a = left, *b = right;
    if (a->messages != b->messages)
        return a->messages < b->messages ? 1 : -1;
    return a->id < b->id ? -1 : a->id > b->id;
}

static void print_census(struct census *census, const char *path, size_t followable)
{
    fprintf(stderr,
            "selkavorn: %s names %zu instruments, and at most %d can be followed.\n"
            "Choose with --instruments ID[,ID..]. The messages that name each:\n"
            "%10s  %-18s  %s\n",
            path, followable, SELKAVORN_MOST_INSTRUMENTS, "messages", "instrument", "name");
    qsort(census->of, census->n, sizeof *census->of, by_messages);
    for (size_t i = 0; i < followable; i++) {
        const struct named *named = &census->of[i];
        int width = named->name[0] == '\0' ? 0 : 18;
        fprintf(stderr, "%10" PRIu64 "  %-*" PRIu64 "%s%s\n", named->messages, width, named->id,
                width == 0 ? "" : "  ", named->name);
    }
}

/* Takes the instruments that stand in an X or a W into the request. */
static enum status choose_all(struct request *request, struct census *census)
{
    size_t followable = 0;
    for (size_t i = 0; i < census->n; i++)
        followable += census->of[i].messages > 0;
    if (followable > SELKAVORN_MOST_INSTRUMENTS) {
        print_census(census, request->path, followable);
        return STATUS_USE;
    }
    if (followable == 0) {
        fprintf(stderr,
                "selkavorn: %s names no instrument in a well-formed message. Is --depth right?\n"
                "With --instruments it is replayed all the same.\n",
                request->path);
        return STATUS_FILE;
    }
    for (size_t i = 0; i < census->n; i++)
        if (census->of[i].messages > 0)
            request->ids[request->ids_n++] = census->of[i].id;
    return STATUS_GOOD;
}

enum status find_instruments(struct request *request, struct files files)
{
    struct census census = {0};
    enum status status = take_census(&census, request, files);
    if (status == STATUS_GOOD)
        status = choose_all(request, &census);
    free(census.of);
    return status;
}
