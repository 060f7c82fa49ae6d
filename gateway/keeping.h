/* The whole messages of a recording, kept end to end in a file. It is written under another name
 * beside its own and has its own name only once it is whole, so that nothing else is ever seen
 * under that name, and no file is replaced unless that is asked for. Where keeping fails, nothing
 * is left of it. */
#ifndef KEEPING_H
#define KEEPING_H

#include <stdio.h>

#include "recording.h"
#include "request.h"

struct keeping {
    const char *path; /* NULL where nothing is to be kept: then all of these do nothing */
    bool overwrite;
    int reading;     /* the open file that is read, which is never replaced */
    char *temporary; /* the name under which it is written */
    FILE *file;
};

/* Starts the file that the request names; says why where that fails. Ends the program where it is
 * the file that is read. */
enum status keeping_begin(struct keeping *keeping, const struct request *request, int reading);

/* Adds a message; says why where that fails. */
enum status keeping_add(struct keeping *keeping, const struct piece *message);

/* Gives the file its name; says why where that fails. */
enum status keeping_end(struct keeping *keeping);

/* Removes what was written. */
void keeping_drop(struct keeping *keeping);

#endif
