/* Writes a book of the board as a snapshot message (W). */
#include <stdio.h>
#include <string.h>

#include "replay.h"

uint64_t write_book(const struct board *board, uint64_t id, const struct writing *writing,
                    uint8_t *out, size_t out_n)
{
    return selkavorn_write(board->store, SELKAVORN_STORE_NUMBERS, id,
                           (const uint8_t *)writing->sender, strlen(writing->sender),
                           (const uint8_t *)writing->target, strlen(writing->target),
                           writing->number, writing->of, (const uint8_t *)writing->time,
                           strlen(writing->time), out, out_n);
}

/* Asks a fresh board, which has no book to write: whatever else is good is not refused by 18. */
static void check_words(const struct request *request, const struct writing *writing,
                        const char *what, const char *word)
{
    static struct board board;
    board_open(&board, request);
    if (write_book(&board, request->ids[0], writing, NULL, 0) == SELKAVORN_ARGUMENT)
        bad_use(what, word);
}

void check_writing(const struct request *request)
{
    static const char bytes[] = "not 1 to 16 bytes from ! to ~";
    const struct writing *asked = &request->writing;
    struct writing good = {.sender = "A", .target = "A", .time = "20250103-13:00:00",
                           .number = 1, .of = 1};
    struct writing sender = good, target = good, time = good;
    sender.sender = asked->sender;
    target.target = asked->target;
    check_words(request, &sender, bytes, asked->sender);
    check_words(request, &target, bytes, asked->target);
    if (asked->time == NULL)
        return;
    time.time = asked->time;
    check_words(request, &time, "not a moment as 20250103-13:00:00 or 20250103-13:00:00.000",
                asked->time);
}

enum status write_snapshot(const struct board *board, const struct request *request)
{
    uint8_t message[SELKAVORN_LONGEST_WRITING];
    char heard[MOMENT_TEXT];
    struct writing writing = request->writing;
    struct heading heading = board_heading(board);
    if (board->lost_reset) {
        fprintf(stderr, "selkavorn: no snapshot is written: a sequence reset was lost\n");
        return STATUS_LOST_RESET;
    }
    moment_words(heading.date, heading.time, heard);
    if (writing.time == NULL && heading.number == 0) {
        fprintf(stderr, "selkavorn: no snapshot is written: nothing was heard; say --time\n");
        return STATUS_NO_QUOTE;
    }
    if (writing.time == NULL)
        writing.time = heard;
    uint64_t answered = write_book(board, request->ids[0], &writing, message, sizeof message);
    if (SELKAVORN_ANSWER(answered) != SELKAVORN_DONE) {
        fprintf(stderr, "selkavorn: no snapshot is written: %s\n",
                selkavorn_answer_text(SELKAVORN_ANSWER(answered)));
        return STATUS_NO_QUOTE;
    }
    fwrite(message, 1, (size_t)SELKAVORN_LENGTH(answered), stdout);
    return STATUS_GOOD;
}
