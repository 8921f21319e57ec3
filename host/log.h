// Lines for an operator, on stderr: with the time, or with systemd's priorities if stderr is the
// journal, or as JSON. One thread at a time logs.
#ifndef HOST_LOG_H
#define HOST_LOG_H

#include <stdbool.h>
#include <stdint.h>

typedef enum log_form {
    LOG_BARE, // for commands that end at once
    LOG_TIMED,
    LOG_JOURNAL,
    LOG_JSON
} log_form;

// As in syslog.
typedef enum log_level { LEVEL_ERROR = 3, LEVEL_WARNING = 4, LEVEL_INFO = 6 } log_level;

// What a line is about. Some are the end of another one: a failing save, for example.
typedef enum log_event {
    EVENT_STARTED,
    EVENT_ENDED,
    EVENT_FAILED, // the process ends, or the command
    EVENT_DISCONNECTED,
    EVENT_CONNECTED, // ends EVENT_DISCONNECTED
    EVENT_NO_SERVER,
    EVENT_SHORT_PAYLOAD,
    EVENT_STRANGERS,
    EVENT_SAVES_FAIL,
    EVENT_SAVES_AGAIN, // ends EVENT_SAVES_FAIL
    EVENT_NO_REWRITE,
    EVENT_SAVE_SLOW,
    EVENT_SAVES_QUICK, // ends EVENT_SAVE_SLOW
    EVENT_DATABASE_LOST,
    EVENT_DATABASE_FOUND, // ends EVENT_DATABASE_LOST
    EVENT_DATABASE_WARNS,
    EVENT_STANDBY,
    EVENT_PEER_LOST,
    EVENT_PEER_SEEN, // ends EVENT_PEER_LOST
    EVENT_CYCLE_BEGUN,
    EVENT_CYCLE_ENDED, // that is, its marking
    EVENT_CYCLE_SWEPT, // ends EVENT_CYCLE_BEGUN
    EVENT_CYCLE_WAITS,
    EVENT_LIMIT_REACHED,
    EVENT_LIMIT_LEFT, // ends EVENT_LIMIT_REACHED
    LOG_EVENTS
} log_event;

// A number that JSON has as a field of its own.
typedef struct log_field {
    const char *name;
    double value;
} log_field;

enum { LOG_FIELDS = 3 };

typedef struct log_line {
    log_level level;
    log_event event;
    log_field fields[LOG_FIELDS]; // those with a name
} log_line;

// The form that `word` names, `text` or `json`; for `text` it is LOG_JOURNAL if stderr is the
// journal. Returns whether there is such a form.
bool log_form_of(const char *word, log_form *form);

// From now on, lines have this form and are of this folder. Nothing counts as logged before.
void log_begin(log_form form, const char *folder);

// Lines of JSON name the node from now on.
void log_name(const char *space, int node);

// Logs a line, unless too many of its event were logged lately: 64 at once, and then one a minute.
// Those left out are counted in the next line of the event. The end of something is logged if its
// begin was. `now` is in milliseconds.
void log_say(uint64_t now, log_line line, const char *format, ...)
    __attribute__((format(printf, 3, 4)));

#endif
