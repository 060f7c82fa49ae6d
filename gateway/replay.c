/* Feeds a recording to a board, message by message, and says what came of each. */
#include "replay.h"

#include <inttypes.h>
#include <stdio.h>
#include <string.h>

#include "loops.h"
#include "message.h"
#include "names.h"
#include "progress.h"
#include "recording.h"
#include "resets.h"

/* What was read, for the lines at the end. */
struct totals {
    uint64_t messages;
    uint64_t runs, passed;   /* runs of passed bytes, and their bytes */
    uint64_t fields_refused; /* messages answered SELKAVORN_FIELDS */
    uint64_t well_formed;    /* X and W messages answered 0 to 10 */
    uint64_t empties;        /* counted messages that emptied the books of the whole channel */
    uint64_t resets_passed;  /* sequence resets that were passed over */
    uint64_t resets_lost;    /* openings because a sequence reset was lost */
    uint64_t of_before;      /* messages that were sent before a reset, and not fed */
};

struct replay {
    struct board *board;
    const struct request *request;
    struct streams *streams;
    struct loops loops;
    struct totals totals;
};

/* ---- one message ---- */

static void print_missed(uint64_t first, uint64_t last)
{
    printf(": %" PRIu64, first);
    if (last > first)
        printf(" to %" PRIu64, last);
    printf(" missed");
}

/* Prints the place of a piece, behind an S where it is in the recording of the snapshot stream. */
static void print_place(const struct piece *piece)
{
    char place[NUMBER_TEXT];
    snprintf(place, sizeof place, "%s%" PRIu64, piece->of_snapshots ? "S" : "", piece->place);
    printf("%10s", place);
}

/* Prints a message's place, type and number. */
static void print_label(const struct piece *message)
{
    struct label label;
    message_label(message, &label);
    print_place(message);
    printf("  %-4s  %-24s  ", label.type, label.number);
}

/* Prints the line of a message. `before` is what the board had counted before it. */
static void print_message(const struct replay *replay, const struct piece *message,
                          uint64_t answered, const struct heading *before)
{
    uint64_t answer = SELKAVORN_ANSWER(answered);
    print_label(message);
    printf("%7" PRIu64 "  %2" PRIu64 " %s", SELKAVORN_WAITING_COUNT(answered), answer,
           selkavorn_answer_text(answer));
    if (answer == SELKAVORN_GAP)
        print_missed(before->number + 1, value_number(message_first(message, "34")) - 1);
    if (is_reset(message, answer))
        fputs(is_repeated_reset(replay->board, message) ? ", a sequence reset that was seen"
                                                : ", a sequence reset",
              stdout);
    if (shows_lost_reset(replay->request, before, message, answer))
        printf(answer == SELKAVORN_OLD ? ", but sent after number %" PRIu64 ": a reset was lost"
                                       : ", but long after number %" PRIu64 ": a reset was lost",
               before->number);
    putchar('\n');
}

/* Remembers the latest time and the names of the messages that were well-formed. */
static void remember(struct replay *replay, const struct piece *message, uint64_t answer)
{
    char time[MOMENT_TEXT] = "";
    struct board *board = replay->board;
    struct value sent = message_first(message, "52");
    if (!is_well_formed(answer) || !value_is_moment(sent))
        return;
    take_names(board, replay->request, message);
    memcpy(time, sent.bytes, sent.length);
    if (board->latest[0] == '\0' || text_ms(time) > text_ms(board->latest))
        strcpy(board->latest, time);
}

static void open_afresh(struct replay *replay, const struct piece *message)
{
    open_at_reset(replay->board, replay->request, message);
    if (!replay->request->quote_only)
        printf("%10s  the board is opened afresh, and all are Waiting\n", "");
}

/* Does what a reset asks for, one that is seen. */
static void take_reset(struct replay *replay, const struct piece *reset)
{
    if (replay->request->pass_resets)
        replay->totals.resets_passed++;
    else if (!is_repeated_reset(replay->board, reset))
        open_afresh(replay, reset);
}

static bool is_counted(uint64_t answer)
{
    return answer == SELKAVORN_DONE || answer == SELKAVORN_GAP || answer == SELKAVORN_LET_GO;
}

/* Tells of a counted message that emptied the books of the whole channel. Each that is Live after
 * it was Live at that point of it too, since a counted message makes none Live. */
static void tell_emptied(struct replay *replay, const struct piece *message, uint64_t answered)
{
    uint64_t live = replay->request->ids_n - SELKAVORN_WAITING_COUNT(answered);
    if (!is_counted(SELKAVORN_ANSWER(answered)) || !message_empties_all(message))
        return;
    replay->totals.empties++;
    if (replay->request->quote_only)
        return;
    printf("%10s  empty book for the whole channel", "");
    if (live == 0)
        puts(", and all are Waiting");
    else
        printf(": %" PRIu64 " Live %s emptied\n", live, live == 1 ? "book" : "books");
}

/* Feeds one message and gives the answer. */
static uint64_t feed(struct replay *replay, const struct piece *message)
{
    struct board *board = replay->board;
    struct heading before = board_heading(board);
    loops_before(&replay->loops, board, replay->request, message, &before);
    uint64_t answered = selkavorn_feed(board->store, SELKAVORN_STORE_NUMBERS, message->bytes,
                                       (size_t)message->length);
    uint64_t answer = SELKAVORN_ANSWER(answered);
    remember(replay, message, answer);
    if (!replay->request->quote_only)
        print_message(replay, message, answered, &before);
    loops_after(&replay->loops, board, replay->request, message, answer);
    if (is_reset(message, answer))
        take_reset(replay, message);
    bool lost = shows_lost_reset(replay->request, &before, message, answer);
    if (lost && !replay->request->pass_resets) {
        replay->totals.resets_lost++;
        open_afresh(replay, message);
        return feed(replay, message); /* a fresh board finds nothing old */
    }
    board->lost_reset = board->lost_reset || lost;
    tell_emptied(replay, message, answered);
    return answer;
}

/* A well-formed message of before the reset is not fed: its number would be taken for a new one. */
static bool leave_out(struct replay *replay, const struct piece *message)
{
    if (!is_of_before(replay->board, message) || !is_well_formed(judge(replay->request, message)))
        return false;
    replay->totals.of_before++;
    if (!replay->request->quote_only) {
        print_label(message);
        printf("%7s  %2s not fed: sent before the sequence reset\n", "-", "-");
    }
    return true;
}

/* ---- the whole recording ---- */

static void print_passed(const struct piece *run)
{
    print_place(run);
    printf("  %" PRIu64 " bytes passed over\n", run->length);
}

/* Says what was read. Where standard output is for a machine, only what a person must know is said,
 * on standard error. */
static void print_totals(const struct replay *replay)
{
    const struct totals *totals = &replay->totals;
    bool is_table = replay->request->command != COMMAND_SNAPSHOT &&
                    replay->request->form == FORM_TABLE;
    FILE *to = is_table ? stdout : stderr;
    if (is_table)
        printf("Messages: %" PRIu64 ". Bytes passed over: %" PRIu64 ", in runs: %" PRIu64 ".\n",
               totals->messages, totals->passed, totals->runs);
    if (is_table && replay->request->snapshots != NULL)
        printf("Messages of the snapshot stream that are no snapshots, left out: %" PRIu64 ".\n",
               replay->streams->left_out);
    if (is_table && replay->loops.taken > 0)
        printf("Empty books taken at the end of whole loops of snapshots: %" PRIu64 ".\n",
               replay->loops.taken);
    if (is_table && totals->empties > 0)
        printf("Messages that emptied the books of the whole channel: %" PRIu64 ".\n",
               totals->empties);
    if (totals->resets_passed > 0)
        fprintf(to,
                "Sequence resets passed over: %" PRIu64 ". If one was of the incremental stream, "
                "the quotes are\nwrong.\n",
                totals->resets_passed);
    if (totals->resets_lost > 0)
        fprintf(to,
                "Sequence resets lost: %" PRIu64 ". The board was opened afresh where that "
                "showed.\n",
                totals->resets_lost);
    if (totals->of_before > 0)
        fprintf(to, "Messages sent before a sequence reset, not fed: %" PRIu64 ".\n",
                totals->of_before);
    fflush(stdout);
    if (totals->fields_refused > totals->well_formed)
        fprintf(stderr,
                "selkavorn: %" PRIu64 " messages were refused for their fields, more than were "
                "read: is --depth right?\n",
                totals->fields_refused);
}

/* Feeds one piece of the recording to the board. */
static void take_piece(struct replay *replay, const struct piece *piece)
{
    struct totals *totals = &replay->totals;
    if (piece->kind == PIECE_PASSED) {
        totals->runs++;
        totals->passed += piece->length;
        if (!replay->request->quote_only)
            print_passed(piece);
        return;
    }
    totals->messages++;
    if (leave_out(replay, piece))
        return;
    uint64_t answer = feed(replay, piece);
    totals->fields_refused += answer == SELKAVORN_FIELDS;
    totals->well_formed += is_well_formed(answer) && message_names_instruments(piece);
}

enum status replay(struct board *board, const struct request *request, struct files files)
{
    static struct streams streams;
    struct replay replay = {.board = board, .request = request, .streams = &streams};
    struct progress progress;
    struct piece piece;
    progress_begin(&progress, files.recording, !request->quote_only);
    if (!request->quote_only)
        printf("%10s  %-4s  %-24s  %7s  %s\n", "byte", "type", "number", "Waiting", "answer");
    streams_begin(&streams, request, files, &progress);
    for (streams_next(&streams, &piece); piece.kind != PIECE_END; streams_next(&streams, &piece))
        take_piece(&replay, &piece);
    progress_end(&progress);
    print_totals(&replay);
    enum status status = streams_status(&streams);
    if (status == STATUS_GOOD && replay.totals.messages == 0)
        status = no_message(request->path);
    return status;
}
