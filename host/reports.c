#include "reports.h"

#include "log.h"

#include <inttypes.h>

static double seconds(const host_note *what)
{
    return (double)what->time / 1000;
}

static log_line line_of_cycle(log_level level, log_event event, const host_note *what)
{
    return (log_line){
        level, event, {{"cycle", (double)what->cycle}, {"seconds", seconds(what)}}};
}

static void report_swept(uint64_t now, const host_note *what)
{
    log_line line = line_of_cycle(LEVEL_INFO, EVENT_CYCLE_SWEPT, what);
    line.fields[2] = (log_field){"freed", (double)what->count};
    log_say(now, line,
        "cycle %" PRIu64 " is swept after %.3f s: %" PRIu64 " objects are freed", what->cycle,
        seconds(what), what->count);
}

static void report_waiting(uint64_t now, const host_note *what)
{
    log_line line = line_of_cycle(LEVEL_WARNING, EVENT_CYCLE_WAITS, what);
    if (what->kind == NOTE_CYCLE_STUCK) {
        log_say(now, line,
            "cycle %" PRIu64 " has been under way for %.0f s: it waits for another node "
            "(markring-space says which)",
            what->cycle, seconds(what));
        return;
    }
    line.fields[2] = (log_field){"peer", what->node};
    log_say(now, line,
        "cycle %" PRIu64 " has been under way for %.0f s: it waits for node %d, which acknowledges "
        "nothing",
        what->cycle, seconds(what), what->node);
}

static void report_limit(uint64_t now, const host_note *what)
{
    bool is_reached = what->kind == NOTE_LIMIT_REACHED;
    log_line line = {is_reached ? LEVEL_WARNING : LEVEL_INFO,
        is_reached ? EVENT_LIMIT_REACHED : EVENT_LIMIT_LEFT, {{"limit", what->limit}}};
    if (what->limit == LIMIT_MESSAGES) {
        line.fields[1] = (log_field){"peer", what->node};
        log_say(now, line,
            is_reached ? "too many messages to node %d are unacknowledged: programs can send it "
                         "nothing (Congested)"
                       : "programs can send messages to node %d again",
            what->node);
    } else if (what->limit == LIMIT_LETTERS) {
        log_say(now, line,
            is_reached ? "too many letters wait for programs: the node takes no messages"
                       : "the node takes messages again");
    } else {
        log_say(now, line,
            is_reached ? "the node's image is too large: programs can't let it grow (ImageTooLarge)"
                       : "programs can let the node's image grow again");
    }
}

void report(uint64_t now, const host_note *what)
{
    switch (what->kind) {
    case NOTE_PEER_SEEN:
        log_say(now, (log_line){LEVEL_INFO, EVENT_PEER_SEEN, {{"peer", what->node}}},
            "node %d is there", what->node);
        break;
    case NOTE_PEER_LOST:
        log_say(now,
            (log_line){LEVEL_WARNING, EVENT_PEER_LOST,
                {{"peer", what->node}, {"seconds", seconds(what)}}},
            "node %d is lost: it hasn't answered for %.0f s", what->node, seconds(what));
        break;
    case NOTE_CYCLE_BEGUN:
        log_say(now, (log_line){LEVEL_INFO, EVENT_CYCLE_BEGUN, {{"cycle", (double)what->cycle}}},
            "cycle %" PRIu64 " has begun", what->cycle);
        break;
    case NOTE_CYCLE_ENDED:
        log_say(now, line_of_cycle(LEVEL_INFO, EVENT_CYCLE_ENDED, what),
            "marking of cycle %" PRIu64 " has ended after %.3f s", what->cycle, seconds(what));
        break;
    case NOTE_CYCLE_SWEPT: report_swept(now, what); break;
    case NOTE_CYCLE_WAITS:
    case NOTE_CYCLE_STUCK: report_waiting(now, what); break;
    case NOTE_SAVE_SLOW:
        log_say(now,
            (log_line){LEVEL_WARNING, EVENT_SAVE_SLOW, {{"seconds", seconds(what)}}},
            "saves are slow: one has taken %.1f s so far", seconds(what));
        break;
    case NOTE_SAVES_QUICK:
        log_say(now,
            (log_line){LEVEL_INFO, EVENT_SAVES_QUICK,
                {{"saves", (double)what->count}, {"seconds", seconds(what)}}},
            "no save was slow for a minute; %" PRIu64 " were, the longest took %.1f s", what->count,
            seconds(what));
        break;
    default: report_limit(now, what);
    }
}
