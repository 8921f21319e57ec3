// The calls of markring_lineage.h, over random histories: processes of a node begin, save, forget
// those before them and are told of; any saved state is put back and goes on. Each word is judged
// in each state, and the verdict compared with the whole history, which is kept here.
#include "check.h"

#include "markring_lineage.h"

#include <stdbool.h>

enum { STATES = 160, DEPTH = 48, WORDS = 200, LONGEST = 64, ROUNDS = 60 };

// A saved state, with all processes that led to it, its line, and from which save on the line should
// tell who made it.
typedef struct state {
    markring_ancestor chain[DEPTH];
    size_t depth;
    uint64_t saves;
    markring_ancestor line[LONGEST];
    size_t count;
    uint64_t known_from;
    bool was_full; // since then
} state;

typedef struct word {
    uint64_t known, save;
} word;

static state states[STATES];
static word words[WORDS];
static size_t state_count, word_count;
static uint64_t next_nonce, drawn = 1;

static const markring_ancestor *last_of(const state *it)
{
    return &it->chain[it->depth - 1];
}

// The process that made this save, by the whole history; 0 if it was made before the first one.
static uint64_t maker_of(const state *it, uint64_t save)
{
    uint64_t maker = 0;
    for (size_t i = 0; i < it->depth && it->chain[i].run <= save; i++) {
        maker = it->chain[i].nonce;
    }
    return maker;
}

static void begin(const state *from, size_t room)
{
    state *it = &states[state_count++];
    *it = *from;
    const markring_ancestor process = {next_nonce++, ++it->saves};
    it->chain[it->depth++] = process;
    it->was_full = it->was_full || it->count == room;
    it->count = markring_lineage_begin(it->line, room, it->count, &process);
    HOLDS(it->count <= room);
    EQUAL(process.nonce, it->line[it->count - 1].nonce);
}

static void change(size_t room)
{
    const state *from = &states[below(&drawn, (uint32_t)state_count)];
    uint64_t what = below(&drawn, 10);
    if (from->depth == 0 || (what < 4 && from->depth < DEPTH)) {
        begin(from, room);
    } else if (what < 6) {
        states[state_count] = *from;
        states[state_count++].saves += 1 + below(&drawn, 3);
    } else if (what < 9 && word_count < WORDS) {
        words[word_count++] = (word){last_of(from)->nonce, from->saves};
    } else {
        state *it = &states[state_count++];
        *it = *from;
        it->count = markring_lineage_forget(it->line, room, last_of(it));
        EQUAL(2, it->count);
        it->known_from = last_of(it)->run;
        it->was_full = false;
    }
}

static void judge(const state *it, const word *said)
{
    uint64_t own = last_of(it)->nonce;
    bool is_true = maker_of(it, said->save) == said->known && said->save <= it->saves;
    bool remembers = !it->was_full && said->save >= it->known_from;
    int verdict = markring_lineage_judge(
        it->line, it->count, own, it->saves, said->known, said->save);
    if (is_true) {
        EQUAL(said->known == own ? MARKRING_LINEAGE_KNOWN : MARKRING_LINEAGE_FITS, verdict);
    } else if (remembers) {
        EQUAL(MARKRING_LINEAGE_OLDER, verdict);
    }
}

static void one_history(size_t room)
{
    state_count = 1;
    word_count = 0;
    next_nonce = 1000;
    states[0] = (state){.line = {{0, 0}}, .count = 1};
    while (state_count < STATES) {
        change(room);
    }
    for (size_t i = 1; i < state_count; i++) {
        for (size_t j = 0; j < word_count; j++) {
            judge(&states[i], &words[j]);
        }
        // (A node that knows of no process.)
        judge(&states[i], &(word){0, 0});
    }
}

// A line with no room remembers nothing, and nothing behind it is written.
static void no_room(void)
{
    const markring_ancestor process = {7, 5};
    for (size_t room = 0; room < 3; room++) {
        markring_ancestor line[4] = {{1, 1}, {2, 2}, {3, 3}, {4, 4}};
        EQUAL(0, markring_lineage_begin(line, room, room, &process));
        EQUAL(0, markring_lineage_begin(line, room, SIZE_MAX, &process));
        EQUAL(room < 2 ? 0 : 2, markring_lineage_forget(line, room, &process));
        EQUAL(3, line[2].nonce);
        EQUAL(4, line[3].nonce);
    }
    EQUAL(MARKRING_LINEAGE_FITS, markring_lineage_judge(&process, 0, 7, 5, 9, UINT64_MAX));
}

// What docs/FORMATS.md ("Packets") says of packets of a process that isn't the one that is known.
static void senders(void)
{
    static const uint64_t NUMBERS[] = {0, 1, 2, 5, 6, 9, UINT64_MAX};
    enum { COUNT = sizeof NUMBERS / sizeof *NUMBERS };
    for (int i = 0; i < COUNT * COUNT * COUNT * COUNT; i++) {
        const markring_process was = {NUMBERS[i % COUNT], 1, NUMBERS[i / COUNT % COUNT]};
        const markring_process sender = {5, NUMBERS[i / COUNT / COUNT % COUNT], 9};
        uint64_t known_word = was.nonce ^ was.saves;
        uint64_t heards[] = {0, known_word, known_word ^ 1, NUMBERS[i / COUNT / COUNT / COUNT]};
        EQUAL(known_word, markring_lineage_word(&was));
        for (int j = 0; j < 4; j++) {
            markring_process known = was;
            int status = markring_lineage_meet(&known, &sender, heards[j]);
            bool is_known = was.nonce == 5;
            bool fits = was.nonce == 0 || heards[j] == 0 || heards[j] == known_word;
            bool is_later = !is_known && fits && sender.run > was.saves;
            EQUAL(is_known      ? was.saves > 9 ? MARKRING_LINEAGE_BEHIND : MARKRING_LINEAGE_LATEST
                    : is_later ? MARKRING_LINEAGE_LATER
                               : MARKRING_LINEAGE_OUTDATED,
                status);
            EQUAL(is_later ? 5 : was.nonce, known.nonce);
            EQUAL(is_later ? sender.run : was.run, known.run);
            EQUAL(is_later || (is_known && was.saves < 9) ? 9 : was.saves, known.saves);
        }
    }
}

int main(void)
{
    for (int i = 0; i < ROUNDS; i++) {
        one_history(3 + (size_t)i % (LONGEST - 3));
    }
    no_room();
    senders();
    return report();
}
