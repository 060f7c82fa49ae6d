/* Reads the command line. Ranges of moments, senders and targets are the library's to judge. */
#include "request.h"

#include <stdio.h>
#include <stdlib.h>
#include <string.h>

#include "selkavorn_lots.h"

/* The exchange sends a heartbeat after 10 silent seconds and calls a stream of 30 silent seconds
 * not functional (its specification, 5.1.1), so an older quote is not given unless asked for. */
enum { USUAL_LIMIT_S = 30, LONGEST_SILENCE_S = 86400 };

/* The last of the longest loop that can be written: what is written is then no whole loop by
 * itself, begins none, and ends only one of as many. A board that is fed a whole loop takes all
 * else that waits for empty. */
enum { USUAL_OF = 16 };

_Noreturn void bad_use(const char *what, const char *word)
{
    fprintf(stderr, "selkavorn: %s: %s\nTry: selkavorn --help\n", word, what);
    exit(STATUS_USE);
}

/* ---- values ---- */

/* Reads a whole number of 1 to `width` digits; false where the text is none. */
static bool read_number(const char *text, size_t n, size_t width, uint64_t *number)
{
    *number = 0;
    if (n < 1 || n > width || (n > 1 && text[0] == '0'))
        return false;
    for (size_t i = 0; i < n; i++) {
        if (text[i] < '0' || text[i] > '9')
            return false;
        *number = *number * 10 + (uint64_t)(text[i] - '0');
    }
    return true;
}

/* Whether the text is the second of two words; it is one of them. */
static bool read_choice(const char *text, const char *first, const char *second, const char *what)
{
    if (strcmp(text, first) != 0 && strcmp(text, second) != 0)
        bad_use(what, text);
    return strcmp(text, second) == 0;
}

/* Reads a name into its place. What CSV and JSON would have to escape is not allowed. */
static bool read_name(const char *text, size_t n, char name[NAME_TEXT])
{
    if (n < 1 || n >= NAME_TEXT)
        return false;
    for (size_t i = 0; i < n; i++)
        if ((unsigned char)text[i] < ' ' || text[i] == 127 || text[i] == '"' || text[i] == '\\')
            return false;
    memcpy(name, text, n);
    name[n] = '\0';
    return true;
}

/* Reads ID or ID=NAME, of n bytes. */
static void read_instrument(struct request *request, const char *text, size_t n)
{
    size_t i = request->ids_n++, digits = strcspn(text, ",=");
    if (i == SELKAVORN_MOST_INSTRUMENTS || !read_number(text, digits, 18, &request->ids[i]) ||
        request->ids[i] == 0)
        bad_use("not a list of 1 to 16 SecurityIDs, each of 1 to 18 digits", text);
    if (digits < n && !read_name(text + digits + 1, n - digits - 1, request->names[i]))
        bad_use("not a name of 1 to 32 bytes without , \" and \\", text);
}

/* ---- options ---- */

static void take_depth(struct request *request, const char *value)
{
    request->depth = read_choice(value, "order", "price", "a depth is order or price")
                         ? SELKAVORN_PRICE_DEPTH
                         : SELKAVORN_ORDER_DEPTH;
}

static void take_instruments(struct request *request, const char *value)
{
    request->ids_n = 0;
    memset(request->names, 0, sizeof request->names);
    for (const char *at = value;; at++) {
        size_t n = strcspn(at, ",");
        read_instrument(request, at, n);
        at += n;
        if (*at == '\0')
            return;
    }
}

static void take_instrument(struct request *request, const char *value)
{
    request->ids_n = 1;
    if (!read_number(value, strlen(value), 18, &request->ids[0]) || request->ids[0] == 0)
        bad_use("not a SecurityID of 1 to 18 digits", value);
}

static void take_quantity(struct request *request, const char *value)
{
    if (!read_number(value, strlen(value), 9, &request->quantity) || request->quantity < 1 ||
        request->quantity > SELKAVORN_LARGEST_LOT)
        bad_use("not a quantity of 1 to 999999999", value);
}

static void take_limit(struct request *request, const char *value)
{
    if (!read_number(value, strlen(value), 5, &request->limit_s) ||
        request->limit_s > SELKAVORN_LONGEST_LIMIT_S)
        bad_use("not a limit of 0 to 86400 seconds", value);
}

static void take_silence(struct request *request, const char *value)
{
    if (!read_number(value, strlen(value), 5, &request->silence_s) || request->silence_s < 1 ||
        request->silence_s > LONGEST_SILENCE_S)
        bad_use("not a silence of 1 to 86400 seconds", value);
}

static void take_resets(struct request *request, const char *value)
{
    request->pass_resets = read_choice(value, "open", "pass", "resets are open or pass");
}

static uint64_t read_count(const char *value)
{
    uint64_t count;
    if (!read_number(value, strlen(value), 2, &count) || count < 1 ||
        count > SELKAVORN_MOST_INSTRUMENTS)
        bad_use("not a number of 1 to 16", value);
    return count;
}

static void take_number(struct request *request, const char *value)
{
    request->writing.number = read_count(value);
}

static void take_of(struct request *request, const char *value)
{
    request->writing.of = read_count(value);
}

static void take_snapshots(struct request *request, const char *value)
{
    request->snapshots = value;
}

static void take_now(struct request *request, const char *value)
{
    request->now = value;
}

static void take_sender(struct request *request, const char *value)
{
    request->writing.sender = value;
}

static void take_target(struct request *request, const char *value)
{
    request->writing.target = value;
}

static void take_time(struct request *request, const char *value)
{
    request->writing.time = value;
}

static void take_quote(struct request *request, const char *value)
{
    (void)value;
    request->quote_only = true;
}

static void take_csv(struct request *request, const char *value)
{
    take_quote(request, value);
    request->form = FORM_CSV;
}

static void take_json(struct request *request, const char *value)
{
    take_quote(request, value);
    request->form = FORM_JSON;
}

static void take_totals(struct request *request, const char *value)
{
    (void)value;
    request->totals_only = true;
}

static void take_keep(struct request *request, const char *value)
{
    if (strcmp(value, "") == 0 || strcmp(value, "-") == 0)
        bad_use("it needs the name of a file", "--keep");
    request->keep = value;
}

static void take_overwrite(struct request *request, const char *value)
{
    (void)value;
    request->overwrite = true;
}

enum {
    LOTS = COMMAND_SELL | COMMAND_BUY,
    QUOTING = COMMAND_REPLAY | LOTS,
    FEEDING = QUOTING | COMMAND_SNAPSHOT
};
static const struct option {
    const char *name;
    int commands; /* of enum command, that have it */
    bool has_value;
    void (*take)(struct request *request, const char *value);
} OPTIONS[] = {
    {"--depth", FEEDING, true, take_depth},
    {"--resets", FEEDING, true, take_resets},
    {"--silence", FEEDING, true, take_silence},
    {"--snapshots", FEEDING, true, take_snapshots},
    {"--instruments", COMMAND_REPLAY, true, take_instruments},
    {"--now", QUOTING, true, take_now},
    {"--limit", QUOTING, true, take_limit},
    {"--quote", COMMAND_REPLAY, false, take_quote},
    {"--csv", QUOTING | COMMAND_SALVAGE, false, take_csv},
    {"--json", QUOTING, false, take_json},
    {"--quantity", LOTS, true, take_quantity},
    {"--instrument", LOTS | COMMAND_SNAPSHOT, true, take_instrument},
    {"--sender", COMMAND_SNAPSHOT, true, take_sender},
    {"--target", COMMAND_SNAPSHOT, true, take_target},
    {"--number", COMMAND_SNAPSHOT, true, take_number},
    {"--of", COMMAND_SNAPSHOT, true, take_of},
    {"--time", COMMAND_SNAPSHOT, true, take_time},
    {"--keep", COMMAND_SALVAGE, true, take_keep},
    {"--overwrite", COMMAND_SALVAGE, false, take_overwrite},
    {"--totals", COMMAND_SALVAGE, false, take_totals},
};

/* Gives the option that a word names, up to its = if it has one. */
static const struct option *find_option(const struct request *request, const char *word)
{
    size_t n = strcspn(word, "=");
    for (size_t i = 0; i < sizeof OPTIONS / sizeof OPTIONS[0]; i++)
        if (strlen(OPTIONS[i].name) == n && memcmp(OPTIONS[i].name, word, n) == 0 &&
            (OPTIONS[i].commands & (int)request->command) != 0)
            return &OPTIONS[i];
    bad_use("no such option", word);
}

/* Takes the option at argv[i] and its value; gives the place of the last word taken. */
static int take_option(struct request *request, int argc, char **argv, int i)
{
    const struct option *option = find_option(request, argv[i]);
    const char *equals = strchr(argv[i], '=');
    if (!option->has_value && equals != NULL)
        bad_use("it takes no value", argv[i]);
    if (!option->has_value || equals != NULL) {
        option->take(request, equals == NULL ? NULL : equals + 1);
        return i;
    }
    if (i + 1 == argc)
        bad_use("its value is missing", argv[i]);
    option->take(request, argv[i + 1]);
    return i + 1;
}

/* ---- the whole ---- */

static void take_file(struct request *request, const char *path)
{
    if (request->path != NULL)
        bad_use("a second file", path);
    request->path = path;
}

static void check_replay(const struct request *request)
{
    if (request->snapshots != NULL && strcmp(request->path, "-") == 0 &&
        strcmp(request->snapshots, "-") == 0)
        bad_use("both recordings cannot be standard input", "--snapshots");
}

static void check_lot(const struct request *request)
{
    check_replay(request);
    if (request->quantity == 0 || request->ids_n == 0)
        bad_use("it needs --quantity and --instrument",
                request->command == COMMAND_SELL ? "sell" : "buy");
}

static void check_snapshot(const struct request *request)
{
    const struct writing *writing = &request->writing;
    check_replay(request);
    if (request->ids_n == 0 || writing->sender == NULL || writing->target == NULL)
        bad_use("it needs --instrument, --sender and --target", "snapshot");
    if (writing->number > writing->of)
        bad_use("it must not be above --of", "--number");
}

static void check_salvage(const struct request *request)
{
    if (request->overwrite && request->keep == NULL)
        bad_use("it needs --keep", "--overwrite");
    if (request->totals_only && request->form == FORM_CSV)
        bad_use("it prints no totals", "--csv");
}

static const struct {
    const char *name;
    enum command command;
    void (*check)(const struct request *request); /* what it still lacks */
} COMMANDS[] = {
    {"replay", COMMAND_REPLAY, check_replay},
    {"sell", COMMAND_SELL, check_lot},
    {"buy", COMMAND_BUY, check_lot},
    {"snapshot", COMMAND_SNAPSHOT, check_snapshot},
    {"salvage", COMMAND_SALVAGE, check_salvage},
};

/* Gives the place of a command among them. */
static size_t find_command(const char *word)
{
    for (size_t i = 0; i < sizeof COMMANDS / sizeof COMMANDS[0]; i++)
        if (strcmp(COMMANDS[i].name, word) == 0)
            return i;
    bad_use("the command is replay, sell, buy, snapshot or salvage", word);
}

static void take_words(struct request *request, int argc, char **argv)
{
    bool named_files_follow = false;
    for (int i = 2; i < argc; i++) {
        if (named_files_follow || argv[i][0] != '-' || argv[i][1] == '\0')
            take_file(request, argv[i]);
        else if (strcmp(argv[i], "--") == 0)
            named_files_follow = true;
        else
            i = take_option(request, argc, argv, i);
    }
}

void read_command(struct request *request, int argc, char **argv)
{
    size_t command = find_command(argc < 2 ? "selkavorn" : argv[1]);
    *request = (struct request){.command = COMMANDS[command].command,
                                .depth = SELKAVORN_ORDER_DEPTH,
                                .limit_s = USUAL_LIMIT_S,
                                .quote_only = COMMANDS[command].command != COMMAND_REPLAY,
                                .writing = {.of = USUAL_OF}};
    take_words(request, argc, argv);
    if (request->writing.number == 0)
        request->writing.number = request->writing.of;
    if (request->path == NULL)
        bad_use("no file is named", COMMANDS[command].name);
    COMMANDS[command].check(request);
}
