#include "log.h"

#include <inttypes.h>
#include <stdarg.h>
#include <stdio.h>
#include <stdlib.h>
#include <string.h>
#include <sys/stat.h>
#include <time.h>
#include <unistd.h>

enum { TEXT = 1536, LINE = 4096, MOST = 64, MINUTE = 60000 };

typedef struct kind {
    const char *name;
    log_event begin; // of what it is the end; or the event itself
} kind;

static const kind KINDS[LOG_EVENTS] = {
    [EVENT_STARTED] = {"started", EVENT_STARTED},
    [EVENT_ENDED] = {"ended", EVENT_ENDED},
    [EVENT_FAILED] = {"failed", EVENT_FAILED},
    [EVENT_DISCONNECTED] = {"disconnected", EVENT_DISCONNECTED},
    [EVENT_CONNECTED] = {"connected", EVENT_DISCONNECTED},
    [EVENT_NO_SERVER] = {"no_server", EVENT_NO_SERVER},
    [EVENT_SHORT_PAYLOAD] = {"short_payload", EVENT_SHORT_PAYLOAD},
    [EVENT_STRANGERS] = {"strangers", EVENT_STRANGERS},
    [EVENT_SAVES_FAIL] = {"saves_fail", EVENT_SAVES_FAIL},
    [EVENT_SAVES_AGAIN] = {"saves_again", EVENT_SAVES_FAIL},
    [EVENT_NO_REWRITE] = {"no_rewrite", EVENT_NO_REWRITE},
    [EVENT_SAVE_SLOW] = {"save_slow", EVENT_SAVE_SLOW},
    [EVENT_SAVES_QUICK] = {"saves_quick", EVENT_SAVE_SLOW},
    [EVENT_DATABASE_LOST] = {"database_lost", EVENT_DATABASE_LOST},
    [EVENT_DATABASE_FOUND] = {"database_found", EVENT_DATABASE_LOST},
    [EVENT_DATABASE_WARNS] = {"database_warns", EVENT_DATABASE_WARNS},
    [EVENT_STANDBY] = {"standby", EVENT_STANDBY},
    [EVENT_PEER_LOST] = {"peer_lost", EVENT_PEER_LOST},
    [EVENT_PEER_SEEN] = {"peer_seen", EVENT_PEER_LOST},
    [EVENT_CYCLE_BEGUN] = {"cycle_begun", EVENT_CYCLE_BEGUN},
    [EVENT_CYCLE_ENDED] = {"cycle_ended", EVENT_CYCLE_ENDED},
    [EVENT_CYCLE_SWEPT] = {"cycle_swept", EVENT_CYCLE_BEGUN},
    [EVENT_CYCLE_WAITS] = {"cycle_waits", EVENT_CYCLE_WAITS},
    [EVENT_LIMIT_REACHED] = {"limit_reached", EVENT_LIMIT_REACHED},
    [EVENT_LIMIT_LEFT] = {"limit_left", EVENT_LIMIT_REACHED},
};

// How many begins may be logged now, how many ends are still to be logged, and when a begin was
// allowed last; and how many lines were left out since the last one.
typedef struct budget {
    uint64_t begins, ends, at, left_out;
} budget;

static struct {
    log_form form;
    const char *folder;
    const char *space;
    int node;
    budget budgets[LOG_EVENTS];
} it = {.folder = "-"};

// ## What may be logged

void log_begin(log_form form, const char *folder)
{
    memset(&it, 0, sizeof it);
    it.form = form;
    it.folder = folder;
    for (int i = 0; i < LOG_EVENTS; i++) {
        // An end may be of something that began before this process.
        it.budgets[i] = (budget){MOST, MOST, 0, 0};
    }
}

void log_name(const char *space, int node)
{
    it.space = space;
    it.node = node;
}

static void refill(budget *of, uint64_t now)
{
    uint64_t minutes = now > of->at ? (now - of->at) / MINUTE : 0;
    if (minutes > 0) {
        of->begins = minutes < MOST - of->begins ? of->begins + minutes : MOST;
        of->at = now;
    }
}

// Whether this line is logged. It is noted either way.
static bool may_say(log_event event, uint64_t now)
{
    budget *of = &it.budgets[KINDS[event].begin];
    bool is_begin = KINDS[event].begin == event;
    refill(of, now);
    uint64_t *left = is_begin ? &of->begins : &of->ends;
    if (*left == 0) {
        of->left_out++;
        return false;
    }
    --*left;
    of->ends += is_begin;
    return true;
}

// ## Text

// The length of the character in UTF-8 that begins here; 0 if it isn't one.
static size_t character(const char *text)
{
    static const uint32_t LEAST[] = {0, 0, 0x80, 0x800, 0x10000};
    const unsigned char *at = (const unsigned char *)text;
    size_t length = at[0] < 0x80 ? 1
        : (at[0] & 0xe0) == 0xc0 ? 2
        : (at[0] & 0xf0) == 0xe0 ? 3
        : (at[0] & 0xf8) == 0xf0 ? 4
                                 : 0;
    uint32_t code = length > 1 ? at[0] & (0x7fu >> length) : at[0];
    for (size_t i = 1; i < length; i++) {
        if ((at[i] & 0xc0) != 0x80) {
            return 0;
        }
        code = code << 6 | (at[i] & 0x3fu);
    }
    bool is_one = length > 0 && code >= LEAST[length] && code <= 0x10ffff
        && (code < 0xd800 || code > 0xdfff);
    return is_one ? length : 0;
}

// Copies what may be part of a line: other bytes become '?', so a text from elsewhere can't begin a
// line. `escape` goes before quotes and backslashes, unless it is 0.
static void copy_text(char *to, size_t room, const char *from, char escape)
{
    while (*from != 0 && room > 5) {
        size_t length = character(from);
        bool is_odd = length == 0 || (unsigned char)*from < ' ' || *from == 127;
        if (escape != 0 && (*from == '"' || *from == '\\')) {
            *to++ = escape;
            room--;
        }
        length = is_odd ? 1 : length;
        memcpy(to, is_odd ? "?" : from, length);
        to += length;
        room -= length;
        from += length;
    }
    *to = 0;
}

static void write_time(char *to, size_t room)
{
    struct timespec now;
    struct tm parts;
    clock_gettime(CLOCK_REALTIME, &now);
    (void)gmtime_r(&now.tv_sec, &parts);
    size_t length = strftime(to, room, "%Y-%m-%dT%H:%M:%S", &parts);
    snprintf(to + length, room - length, ".%03ldZ", now.tv_nsec / 1000000);
}

static const char *level_name(log_level level)
{
    return level == LEVEL_ERROR ? "error" : level == LEVEL_WARNING ? "warning" : "info";
}

static int write_fields(char *to, size_t room, const log_line *line)
{
    int length = 0;
    to[0] = 0;
    for (int i = 0; i < LOG_FIELDS && line->fields[i].name != NULL; i++) {
        const log_field *field = &line->fields[i];
        length += snprintf(to + length, room - (size_t)length, ", \"%s\": %.15g", field->name,
            field->value);
    }
    return length;
}

static int write_json(char *to, const char *time, const log_line *line, const char *text)
{
    char folder[TEXT], clean[TEXT], fields[256], node[64] = "";
    copy_text(folder, sizeof folder, it.folder, '\\');
    copy_text(clean, sizeof clean, text, '\\');
    (void)write_fields(fields, sizeof fields, line);
    if (it.space != NULL) {
        snprintf(node, sizeof node, ", \"space\": \"%s\", \"node\": %d", it.space, it.node);
    }
    return snprintf(to, LINE,
        "{\"time\": \"%s\", \"level\": \"%s\", \"event\": \"%s\", \"folder\": \"%s\"%s%s, "
        "\"text\": \"%s\"}\n",
        time, level_name(line->level), KINDS[line->event].name, folder, node, fields, clean);
}

static int write_plain(char *to, const char *time, const log_line *line, const char *text)
{
    char folder[TEXT], clean[TEXT];
    copy_text(folder, sizeof folder, it.folder, 0);
    copy_text(clean, sizeof clean, text, 0);
    if (it.form == LOG_JOURNAL) {
        return snprintf(to, LINE, "<%d>%s: %s\n", (int)line->level, folder, clean);
    }
    if (it.form == LOG_TIMED) {
        return snprintf(to, LINE, "%s %s markring-node: %s: %s\n", time, level_name(line->level),
            folder, clean);
    }
    return snprintf(to, LINE, "markring-node: %s: %s\n", folder, clean);
}

static void say_all(const char *bytes, size_t length)
{
    size_t done = 0;
    while (done < length) {
        ssize_t count = write(STDERR_FILENO, bytes + done, length - done);
        if (count <= 0) {
            return;
        }
        done += (size_t)count;
    }
}

void log_say(uint64_t now, log_line line, const char *format, ...)
{
    char text[TEXT], time[40], all[LINE];
    budget *of = &it.budgets[KINDS[line.event].begin];
    va_list words;
    if (it.form != LOG_BARE && !may_say(line.event, now)) {
        return;
    }
    va_start(words, format);
    (void)vsnprintf(text, sizeof text, format, words);
    va_end(words);
    if (of->left_out > 0) {
        size_t length = strlen(text);
        snprintf(text + length, sizeof text - length, " (%" PRIu64 " lines like it were left out)",
            of->left_out);
        of->left_out = 0;
    }
    write_time(time, sizeof time);
    int length = it.form == LOG_JSON ? write_json(all, time, &line, text)
                                     : write_plain(all, time, &line, text);
    say_all(all, length < LINE ? (size_t)length : LINE - 1);
}

// ## Forms

// systemd names the device and the inode of the journal's stream.
static bool is_journal(void)
{
    struct stat found;
    char name[64];
    const char *stream = getenv("JOURNAL_STREAM");
    if (stream == NULL || fstat(STDERR_FILENO, &found) != 0) {
        return false;
    }
    snprintf(name, sizeof name, "%ju:%ju", (uintmax_t)found.st_dev, (uintmax_t)found.st_ino);
    return strcmp(name, stream) == 0;
}

bool log_form_of(const char *word, log_form *form)
{
    bool is_text = strcmp(word, "text") == 0;
    *form = !is_text ? LOG_JSON : is_journal() ? LOG_JOURNAL : LOG_TIMED;
    return is_text || strcmp(word, "json") == 0;
}
