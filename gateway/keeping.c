/* The whole messages of a recording, kept end to end in a file. */
#define _POSIX_C_SOURCE 200809L

#include "keeping.h"

#include <errno.h>
#include <fcntl.h>
#include <signal.h>
#include <stdlib.h>
#include <string.h>
#include <sys/stat.h>
#include <unistd.h>

/* What a signal that ends the program has to remove; NULL where there is nothing. */
static const char *volatile unfinished;

static enum status say(const struct keeping *keeping, const char *why)
{
    fflush(stdout);
    fprintf(stderr, "selkavorn: %s could not be written: %s\n", keeping->path, why);
    return STATUS_OUTPUT;
}

/* ---- signals ---- */

static void remove_unfinished(int number)
{
    if (unfinished != NULL)
        unlink(unfinished);
    raise(number); /* which now does what it does without this */
}

/* A signal that is ignored, as by nohup, stays so. A file that grows above what is allowed is to
 * fail as any writing does. */
static void watch_signals(void)
{
    static const int ending[] = {SIGHUP, SIGINT, SIGPIPE, SIGQUIT, SIGTERM, SIGXCPU};
    struct sigaction removal = {.sa_handler = remove_unfinished, .sa_flags = SA_RESETHAND}, now;
    signal(SIGXFSZ, SIG_IGN);
    for (size_t i = 0; i < sizeof ending / sizeof *ending; i++)
        if (sigaction(ending[i], NULL, &now) == 0 && now.sa_handler != SIG_IGN)
            sigaction(ending[i], &removal, NULL);
}

/* Makes a new file of the name that ends with XXXXXX, which are replaced. No signal comes between
 * that and the time from which it would be removed. */
static int make_unfinished(char *name)
{
    sigset_t all, before;
    sigfillset(&all);
    sigprocmask(SIG_BLOCK, &all, &before);
    int file = mkstemp(name);
    int failure = errno;
    unfinished = file < 0 ? NULL : name;
    sigprocmask(SIG_SETMASK, &before, NULL);
    errno = failure;
    return file;
}

/* ---- the start ---- */

static bool is_read(const struct keeping *keeping)
{
    struct stat named, read;
    return stat(keeping->path, &named) == 0 && fstat(keeping->reading, &read) == 0 &&
           named.st_dev == read.st_dev && named.st_ino == read.st_ino;
}

/* Says why the name must not be used; NULL where it may be. */
static const char *refusal(const struct keeping *keeping)
{
    struct stat about;
    if (is_read(keeping))
        return "it is the file that is read";
    if (lstat(keeping->path, &about) != 0)
        return NULL;
    if (!S_ISREG(about.st_mode))
        return "it is there, and no regular file";
    return keeping->overwrite ? NULL : "it is there; --overwrite replaces it";
}

/* A file for its owner alone gets the mode of any new file. */
static void widen_mode(int file)
{
    mode_t mask = umask(0);
    umask(mask);
    fchmod(file, 0666 & ~mask);
}

/* Moves an open file above the standard ones: where standard output is closed, what is printed must
 * not come into it. */
static int lift(int file)
{
    if (file > STDERR_FILENO)
        return file;
    int lifted = fcntl(file, F_DUPFD, STDERR_FILENO + 1);
    close(file);
    return lifted;
}

/* Opens a new file beside the one that is to be. */
static bool open_temporary(struct keeping *keeping)
{
    static const char ending[] = ".XXXXXX";
    size_t bytes = strlen(keeping->path) + sizeof ending;
    keeping->temporary = malloc(bytes);
    if (keeping->temporary == NULL)
        return false;
    snprintf(keeping->temporary, bytes, "%s%s", keeping->path, ending);
    watch_signals();
    int file = make_unfinished(keeping->temporary);
    if (file < 0)
        return false;
    widen_mode(file);
    file = lift(file);
    keeping->file = file < 0 ? NULL : fdopen(file, "wb");
    return keeping->file != NULL;
}

enum status keeping_begin(struct keeping *keeping, const struct request *request, int reading)
{
    *keeping = (struct keeping){
        .path = request->keep, .overwrite = request->overwrite, .reading = reading};
    if (keeping->path == NULL)
        return STATUS_GOOD;
    if (is_read(keeping))
        bad_use("it is the file that is read", keeping->path);
    const char *why = refusal(keeping);
    if (why != NULL)
        return say(keeping, why);
    if (open_temporary(keeping))
        return STATUS_GOOD;
    say(keeping, strerror(errno));
    keeping_drop(keeping);
    return STATUS_OUTPUT;
}

/* ---- the messages ---- */

enum status keeping_add(struct keeping *keeping, const struct piece *message)
{
    size_t bytes = (size_t)message->length;
    if (keeping->file == NULL || fwrite(message->bytes, 1, bytes, keeping->file) == bytes)
        return STATUS_GOOD;
    return say(keeping, strerror(errno));
}

/* ---- the end ---- */

/* Sees that all bytes are on the disk. */
static bool close_whole(struct keeping *keeping)
{
    FILE *file = keeping->file;
    bool whole = fflush(file) == 0 && fsync(fileno(file)) == 0;
    int failure = errno;
    keeping->file = NULL;
    if (fclose(file) == 0 && whole)
        return true;
    errno = whole ? errno : failure;
    return false;
}

/* Takes the name with an empty file, where no file has it, and replaces that. */
static bool take_name(const struct keeping *keeping)
{
    int taken = open(keeping->path, O_WRONLY | O_CREAT | O_EXCL, 0666);
    if (taken < 0)
        return false;
    close(taken);
    if (rename(keeping->temporary, keeping->path) == 0)
        return true;
    int failure = errno;
    unlink(keeping->path);
    errno = failure;
    return false;
}

/* Gives the file its name where no file has it. A second name never replaces a file; some file
 * systems have none. */
static bool name_new(const struct keeping *keeping)
{
    if (link(keeping->temporary, keeping->path) == 0) {
        unlink(keeping->temporary);
        return true;
    }
    bool no_links = errno == EPERM || errno == ENOSYS || errno == EOPNOTSUPP || errno == EMLINK;
    return no_links && take_name(keeping);
}

static enum status put_in_place(const struct keeping *keeping)
{
    const char *why = keeping->overwrite ? refusal(keeping) : NULL;
    if (why != NULL)
        return say(keeping, why);
    bool named = keeping->overwrite ? rename(keeping->temporary, keeping->path) == 0
                                    : name_new(keeping);
    return named ? STATUS_GOOD : say(keeping, strerror(errno));
}

enum status keeping_end(struct keeping *keeping)
{
    if (keeping->path == NULL)
        return STATUS_GOOD;
    enum status status =
        close_whole(keeping) ? put_in_place(keeping) : say(keeping, strerror(errno));
    if (status == STATUS_GOOD)
        unfinished = NULL;
    keeping_drop(keeping);
    return status;
}

void keeping_drop(struct keeping *keeping)
{
    if (keeping->file != NULL)
        fclose(keeping->file);
    if (unfinished != NULL)
        unlink(unfinished);
    unfinished = NULL;
    free(keeping->temporary);
    keeping->file = NULL;
    keeping->temporary = NULL;
}
