/* The line on a terminal that says how far the reading of a long recording is. */
#define _POSIX_C_SOURCE 200809L

#include "progress.h"

#include <inttypes.h>
#include <stdio.h>
#include <sys/stat.h>
#include <unistd.h>

enum { MIB = 1 << 20 };

void progress_begin(struct progress *progress, int file, bool busy)
{
    struct stat about;
    bool regular = fstat(file, &about) == 0 && S_ISREG(about.st_mode);
    progress->wanted = isatty(STDERR_FILENO) && !(busy && isatty(STDOUT_FILENO));
    progress->said_mib = 0;
    progress->size_mib = regular ? (uint64_t)about.st_size / MIB : 0;
}

void progress_at(struct progress *progress, uint64_t place)
{
    if (!progress->wanted || place / MIB <= progress->said_mib)
        return;
    progress->said_mib = place / MIB;
    fprintf(stderr, "\rread %" PRIu64 " MiB", progress->said_mib);
    if (progress->size_mib > 0)
        fprintf(stderr, " of %" PRIu64, progress->size_mib);
}

void progress_end(const struct progress *progress)
{
    if (progress->said_mib > 0)
        fprintf(stderr, "\r%40s\r", "");
}
