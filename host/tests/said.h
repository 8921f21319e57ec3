// A folder for a test, and what is said on stderr.
#ifndef SAID_H
#define SAID_H

#include "check.h"

#include <fcntl.h>
#include <stdlib.h>
#include <string.h>
#include <unistd.h>

enum { PATH = 64 };

static char place[PATH] = "/tmp/markring-XXXXXX";
static char said[1 << 20];
static int stderr_before = -1;

static inline void remove_place(void)
{
    char command[PATH + 8];
    snprintf(command, sizeof command, "rm -r %s", place);
    HOLDS(system(command) == 0);
}

static inline void begin_hearing(void)
{
    char path[PATH + 8];
    fflush(stdout);
    snprintf(path, sizeof path, "%s/said", place);
    stderr_before = dup(2);
    int file = open(path, O_RDWR | O_CREAT | O_TRUNC, 0600);
    HOLDS(file >= 0 && dup2(file, 2) == 2);
    close(file);
}

// How often this was said since. All that was is in `said`.
static inline int end_hearing(const char *text)
{
    int count = 0;
    fflush(stderr);
    ssize_t length = pread(2, said, sizeof said - 1, 0);
    said[length > 0 ? length : 0] = 0;
    dup2(stderr_before, 2);
    close(stderr_before);
    for (const char *it = strstr(said, text); it != NULL; it = strstr(it + 1, text)) {
        count++;
    }
    return count;
}

#endif
