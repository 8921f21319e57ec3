// What a host notes, as lines of the log.
#ifndef HOST_REPORTS_H
#define HOST_REPORTS_H

#include "showing.h"

void report(uint64_t now, const host_note *what);

#endif
