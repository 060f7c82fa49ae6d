/* The files that are read, and what is said where one cannot be. */
#ifndef FILES_H
#define FILES_H

#include "request.h"

/* The open files. */
struct files {
    int recording;
    int snapshots; /* or -1 */
};

/* Opens a file for reading, - being standard input; -1 where that fails, which is then said. */
int open_file(const char *path);

/* The status of a reading by its errno, or 0; where it failed, that is said. */
enum status reading_status(const char *path, int failure);

/* The status of a recording in which there is no message, which is said. */
enum status no_message(const char *path);

#endif
