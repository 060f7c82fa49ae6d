/* The files that are read, and what is said where one cannot be. */
#define _POSIX_C_SOURCE 200809L

#include "files.h"

#include <errno.h>
#include <fcntl.h>
#include <stdio.h>
#include <string.h>
#include <unistd.h>

int open_file(const char *path)
{
    int file = strcmp(path, "-") == 0 ? STDIN_FILENO : open(path, O_RDONLY);
    if (file < 0)
        reading_status(path, errno);
    return file;
}

enum status reading_status(const char *path, int failure)
{
    if (failure == 0)
        return STATUS_GOOD;
    fflush(stdout);
    fprintf(stderr, "selkavorn: %s cannot be read: %s\n", path, strerror(failure));
    return STATUS_FILE;
}

enum status no_message(const char *path)
{
    fflush(stdout);
    fprintf(stderr, "selkavorn: %s holds no message\n", path);
    return STATUS_FILE;
}
