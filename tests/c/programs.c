// The calls of markring_programs.h, on all small numbers and the greatest ones, against what
// docs/FORMATS.md ("Packets") says of requests, in numbers that don't overflow.
#include "check.h"

#include "markring_programs.h"

#include <stdbool.h>

static const uint64_t NUMBERS[] = {
    0, 1, 2, 3, 4, UINT64_MAX - 3, UINT64_MAX - 2, UINT64_MAX - 1, UINT64_MAX};
enum { COUNT = sizeof NUMBERS / sizeof *NUMBERS };

// Whether `b` is one more than `a`.
static bool is_next(uint64_t a, uint64_t b)
{
    return a < b && b - a == 1;
}

static bool is_session(uint64_t session)
{
    return session != 0 && session != MARKRING_PROGRAM_FORGOTTEN;
}

static int opening_of(const markring_program *it, uint64_t session, uint64_t number)
{
    if (!is_session(session)) {
        return MARKRING_PROGRAM_MALFORMED;
    }
    return session == it->session         ? MARKRING_PROGRAM_REPEATED
        : is_next(it->round, number) ? MARKRING_PROGRAM_NEXT
                                     : MARKRING_PROGRAM_STALE;
}

static int request_of(const markring_program *it, uint64_t session, uint64_t number)
{
    if (!is_session(session) || session != it->session) {
        return MARKRING_PROGRAM_SUPERSEDED;
    }
    return number == 0                ? MARKRING_PROGRAM_MALFORMED
        : number < it->number         ? MARKRING_PROGRAM_STALE
        : number == it->number        ? MARKRING_PROGRAM_REPEATED
        : is_next(it->number, number) ? MARKRING_PROGRAM_NEXT
                                      : MARKRING_PROGRAM_AHEAD;
}

static bool is_same(const markring_program *a, const markring_program *b)
{
    return a->session == b->session && a->round == b->round && a->number == b->number;
}

static void one(markring_program it, uint64_t session, uint64_t number)
{
    markring_program now = it, after = it;
    int opening = opening_of(&it, session, number), request = request_of(&it, session, number);
    EQUAL(opening, markring_program_judge_opening(&now, session, number));
    EQUAL(request, markring_program_judge_request(&now, session, number));
    EQUAL(is_session(session) && session == it.session, markring_program_speaks_for(&now, session));
    HOLDS(is_same(&now, &it));
    EQUAL(opening, markring_program_open(&now, session, number));
    if (opening == MARKRING_PROGRAM_NEXT) {
        after = (markring_program){session, number, it.number};
    }
    HOLDS(is_same(&now, &after));
    now = after = it;
    EQUAL(request, markring_program_perform(&now, session, number));
    if (request == MARKRING_PROGRAM_NEXT) {
        after = (markring_program){it.session, it.round, number};
    }
    HOLDS(is_same(&now, &after));
    now = it;
    markring_program_forget(&now);
    HOLDS(is_same(&now, &(markring_program){MARKRING_PROGRAM_FORGOTTEN, it.round, it.number}));
    EQUAL(0, markring_program_speaks_for(&now, session));
}

static void all(void)
{
    for (int a = 0; a < COUNT; a++) {
        for (int b = 0; b < COUNT; b++) {
            for (int c = 0; c < COUNT; c++) {
                for (int d = 0; d < COUNT; d++) {
                    // (openings look at the round alone, requests at the number)
                    one((markring_program){NUMBERS[a], NUMBERS[c], NUMBERS[COUNT - 1 - c]},
                        NUMBERS[b], NUMBERS[d]);
                    one((markring_program){NUMBERS[a], NUMBERS[COUNT - 1 - c], NUMBERS[c]},
                        NUMBERS[b], NUMBERS[d]);
                }
            }
        }
    }
}

static bool are_same(const markring_images *a, const markring_images *b)
{
    return a->taken == b->taken && a->kept == b->kept && a->changed == b->changed
        && a->saving == b->saving;
}

// The greatest number is that of no image, so an answer that is due then never leaves.
static void one_process(markring_images it)
{
    markring_images now = it;
    bool may = it.changed != 0 && it.saving == 0 && it.taken < UINT64_MAX - 1;
    EQUAL(may, markring_images_may_begin(&now));
    EQUAL(it.changed != 0 && it.taken < UINT64_MAX ? it.taken + 1 : it.taken,
        markring_images_due(&now));
    for (int i = 0; i < COUNT; i++) {
        bool is_stored = NUMBERS[i] <= it.kept && NUMBERS[i] != UINT64_MAX;
        EQUAL(is_stored, markring_images_may_leave(&now, NUMBERS[i]));
    }
    HOLDS(are_same(&now, &it));
    markring_images_change(&now);
    HOLDS(are_same(&now, &(markring_images){it.taken, it.kept, 1, it.saving}));
    now = it;
    EQUAL(may, markring_images_begin(&now));
    HOLDS(are_same(&now, may ? &(markring_images){it.taken + 1, it.kept, 0, 1} : &it));
    now = it;
    markring_images_stored(&now);
    HOLDS(are_same(
        &now, it.saving != 0 ? &(markring_images){it.taken, it.taken, it.changed, 0} : &it));
    now = it;
    markring_images_failed(&now);
    HOLDS(are_same(&now, it.saving != 0 ? &(markring_images){it.taken, it.kept, 1, 0} : &it));
}

static void images(void)
{
    static const uint8_t flags[] = {0, 1, 255};
    for (int a = 0; a < COUNT; a++) {
        for (int b = 0; b < COUNT; b++) {
            for (int i = 0; i < 9; i++) {
                one_process((markring_images){NUMBERS[a], NUMBERS[b], flags[i / 3], flags[i % 3]});
            }
        }
    }
}

int main(void)
{
    all();
    images();
    return report();
}
