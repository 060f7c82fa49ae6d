/* Tells the pieces of a recording: its whole messages, and the runs of bytes passed over. */
#include "salvage.h"

#include <inttypes.h>
#include <stdio.h>

#include "csv.h"
#include "files.h"
#include "keeping.h"
#include "message.h"
#include "progress.h"
#include "recording.h"

struct totals {
    uint64_t messages, kept; /* whole messages, and their bytes */
    uint64_t runs, passed;   /* runs of passed bytes, and their bytes */
    struct piece longest;    /* of the runs, the first of that length */
};

/* ---- one piece ---- */

static void print_line(const struct piece *piece)
{
    struct label label;
    printf("%10" PRIu64 "  %10" PRIu64 "  ", piece->place, piece->length);
    if (piece->kind == PIECE_PASSED) {
        puts("passed over");
        return;
    }
    message_label(piece, &label);
    printf("%-4s  %s\n", label.type, label.number);
}

/* Prints the value of a message's first field with this tag; nothing where it is missing. */
static void print_column(const struct piece *message, const char *tag)
{
    char text[SELKAVORN_LONGEST_MESSAGE];
    struct value value = message_first(message, tag);
    putchar(',');
    if (value.bytes != NULL)
        print_csv_text(value_text(value, text, sizeof text));
}

static void print_row(const struct piece *piece)
{
    bool is_message = piece->kind == PIECE_MESSAGE;
    printf("%s,%" PRIu64 ",%" PRIu64, is_message ? "message" : "passed", piece->place,
           piece->length);
    if (is_message) {
        print_column(piece, "35");
        print_column(piece, "34");
        putchar('\n');
    } else {
        puts(",,");
    }
}

static void count(struct totals *totals, const struct piece *piece)
{
    if (piece->kind == PIECE_MESSAGE) {
        totals->messages++;
        totals->kept += piece->length;
        return;
    }
    totals->runs++;
    totals->passed += piece->length;
    if (piece->length > totals->longest.length)
        totals->longest = *piece;
}

/* ---- the whole recording ---- */

static void print_heading(const struct request *request)
{
    if (request->form == FORM_CSV)
        puts("kind,byte,length,type,number");
    else if (!request->totals_only)
        printf("%10s  %10s  %-4s  %s\n", "byte", "length", "type", "number");
}

static void print_piece(const struct request *request, const struct piece *piece)
{
    if (request->form == FORM_CSV)
        print_row(piece);
    else if (!request->totals_only)
        print_line(piece);
}

static void print_totals(const struct request *request, const struct totals *totals)
{
    if (request->form == FORM_CSV)
        return;
    printf("Messages: %" PRIu64 ", with %" PRIu64 " bytes. Bytes passed over: %" PRIu64
           ", in runs: %" PRIu64 ".\n",
           totals->messages, totals->kept, totals->passed, totals->runs);
    if (totals->runs > 0)
        printf("Longest run passed over: %" PRIu64 " bytes, from byte %" PRIu64 " on.\n",
               totals->longest.length, totals->longest.place);
}

/* Tells and keeps every piece; ends early where one could not be kept. */
static enum status take_pieces(const struct request *request, struct recording *recording,
                               struct keeping *keeping, struct totals *totals)
{
    enum status status = STATUS_GOOD;
    struct piece piece;
    for (recording_next(recording, &piece); piece.kind != PIECE_END && status == STATUS_GOOD;
         recording_next(recording, &piece)) {
        print_piece(request, &piece);
        count(totals, &piece);
        if (piece.kind == PIECE_MESSAGE)
            status = keeping_add(keeping, &piece);
    }
    return status;
}

/* Says what came of a recording that was walked to its end. */
static enum status judge_whole(const struct request *request, const struct recording *recording,
                               const struct totals *totals)
{
    enum status status = reading_status(request->path, recording->failure);
    if (status == STATUS_GOOD && totals->messages == 0)
        status = no_message(request->path);
    if (status == STATUS_GOOD && totals->passed > 0)
        status = STATUS_DAMAGED;
    return status;
}

/* Gives the kept file its name, unless the recording or what was printed failed. */
static enum status end_keeping(struct keeping *keeping, enum status status)
{
    bool salvaged = status == STATUS_GOOD || status == STATUS_DAMAGED;
    if (!salvaged || fflush(stdout) != 0 || ferror(stdout)) {
        keeping_drop(keeping);
        return status;
    }
    enum status kept = keeping_end(keeping);
    return kept == STATUS_GOOD ? status : kept;
}

enum status salvage(const struct request *request, int file)
{
    static struct recording recording;
    struct totals totals = {0};
    struct keeping keeping;
    struct progress progress;
    enum status status = keeping_begin(&keeping, request, file);
    if (status != STATUS_GOOD)
        return status;
    progress_begin(&progress, file, !request->totals_only);
    print_heading(request);
    recording_begin(&recording, file, &progress);
    status = take_pieces(request, &recording, &keeping, &totals);
    progress_end(&progress);
    if (status == STATUS_GOOD) {
        print_totals(request, &totals);
        status = judge_whole(request, &recording, &totals);
    }
    return end_keeping(&keeping, status);
}
