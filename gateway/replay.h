/* The replay of recordings on a fresh board, and what is asked for at its end. */
#ifndef REPLAY_H
#define REPLAY_H

#include "board.h"
#include "request.h"
#include "streams.h"

/* Takes the instruments that the well-formed X and W messages of the recordings name, for a command
 * line that names none. */
enum status find_instruments(struct request *request, struct files files);

/* Feeds the recordings to the board, and says what came of each message if that is asked for. */
enum status replay(struct board *board, const struct request *request, struct files files);

/* Prints the quotes of all instruments, each with its date. */
enum status print_quotes(const struct board *board, const struct request *request);

/* Prints the lot of the request, with its date. */
enum status print_lot(const struct board *board, const struct request *request);

/* Lets the library judge what the command line says of the snapshot to write; ends where it is
 * bad. */
void check_writing(const struct request *request);

/* Writes the book of an instrument as a snapshot message; gives what the library answers. */
uint64_t write_book(const struct board *board, uint64_t id, const struct writing *writing,
                    uint8_t *out, size_t out_n);

/* Writes the snapshot that the request asks for to standard output. */
enum status write_snapshot(const struct board *board, const struct request *request);

#endif
