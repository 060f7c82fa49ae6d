/* The program: selkavorn replay, sell, buy, snapshot or salvage, with options and a recording. */
#define _POSIX_C_SOURCE 200809L

#include <errno.h>
#include <stdio.h>
#include <string.h>
#include <unistd.h>

#include "help.h"
#include "replay.h"
#include "salvage.h"

/* Lets the library judge the moment of --now, on a board that is opened for this alone. */
static void check_moment(struct board *board, const struct request *request)
{
    struct request any = {.depth = request->depth, .ids = {1}, .ids_n = 1};
    uint64_t quote[SELKAVORN_QUOTE_NUMBERS];
    board_open(board, &any);
    uint64_t answer = selkavorn_quote(board->store, SELKAVORN_STORE_NUMBERS, any.ids[0],
                                      (const uint8_t *)request->now, strlen(request->now),
                                      request->limit_s, quote, SELKAVORN_QUOTE_NUMBERS);
    if (answer == SELKAVORN_ARGUMENT)
        bad_use("not a moment as 20250103-13:00:00 or 20250103-13:00:00.000", request->now);
}

/* The place at which an open file is to be read again. */
static off_t start_of(int file, const char *path)
{
    off_t start = lseek(file, 0, SEEK_CUR);
    if (start < 0)
        bad_use("it can be read only once: say --instruments", path);
    return start;
}

static enum status go_back(int file, off_t start, const char *path)
{
    if (lseek(file, start, SEEK_SET) == start)
        return STATUS_GOOD;
    fprintf(stderr, "selkavorn: %s cannot be read again: %s\n", path, strerror(errno));
    return STATUS_FILE;
}

/* Finds the instruments that the recordings name, and goes back to their starts. */
static enum status name_instruments(struct request *request, struct files files)
{
    off_t start = start_of(files.recording, request->path);
    off_t second = files.snapshots < 0 ? 0 : start_of(files.snapshots, request->snapshots);
    enum status status = find_instruments(request, files);
    if (status == STATUS_GOOD)
        status = go_back(files.recording, start, request->path);
    if (status == STATUS_GOOD && files.snapshots >= 0)
        status = go_back(files.snapshots, second, request->snapshots);
    return status;
}

/* Does what the command asks for with open files. */
static enum status work(struct board *board, struct request *request, struct files files)
{
    enum status status =
        request->ids_n == 0 ? name_instruments(request, files) : STATUS_GOOD;
    if (status != STATUS_GOOD)
        return status;
    if (board_open(board, request) != SELKAVORN_DONE)
        bad_use("two of them are the same", "--instruments");
    status = replay(board, request, files);
    if (status != STATUS_GOOD)
        return status;
    switch (request->command) {
    case COMMAND_REPLAY: return print_quotes(board, request);
    case COMMAND_SNAPSHOT: return write_snapshot(board, request);
    default: return print_lot(board, request);
    }
}

/* The status of what was printed, unless it could not be written. */
static enum status printed(enum status status)
{
    if (fflush(stdout) == 0 && !ferror(stdout))
        return status;
    fprintf(stderr, "selkavorn: the output could not be written\n");
    return STATUS_OUTPUT;
}

int main(int argc, char **argv)
{
    static struct board board;
    static struct request request;
    for (int i = 1; i < argc && strcmp(argv[i], "--") != 0; i++) {
        if (strcmp(argv[i], "-h") == 0 || strcmp(argv[i], "--help") == 0) {
            print_help();
            return printed(STATUS_GOOD);
        }
        if (strcmp(argv[i], "--version") == 0) {
            puts("selkavorn " SELKAVORN_VERSION);
            return printed(STATUS_GOOD);
        }
    }
    read_command(&request, argc, argv);
    if (request.now != NULL)
        check_moment(&board, &request);
    if (request.command == COMMAND_SNAPSHOT)
        check_writing(&request);
    struct files files = {.recording = open_file(request.path), .snapshots = -1};
    if (files.recording < 0)
        return STATUS_FILE;
    if (request.command == COMMAND_SALVAGE)
        return printed(salvage(&request, files.recording));
    if (request.snapshots != NULL && (files.snapshots = open_file(request.snapshots)) < 0)
        return STATUS_FILE;
    return printed(work(&board, &request, files));
}
