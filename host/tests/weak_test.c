// Resolve, walks over the objects, and what was freed: with the stations of station.h, whose
// packets, saves and time are the test's.
//
//     weak_test
#include "station.h"

enum { SHARER = 4, READER = 5, APART = 3, MANY_SLOTS = 2 * OBJECTS_IN_ANSWER + 100 };

// ## A node, and what its programs ask

static station one;

// A node of a wide space, in which programs SHARER and READER are open. It reclaims when it is told.
static void make_one(bool has_entries)
{
    next = (host_shape){.registers = 16, .slots = 1u << 20, .places = 4, .bytes = 100};
    make(&one, has_entries);
    for (uint8_t number = SHARER; number <= READER; number++) {
        answer_head head;
        HOLDS(ask(&one, (request_head){REQUEST_OPEN, number, 100u + number, 1, 0}, -1, &head) == 1);
    }
}

static void drop_one(void)
{
    end(&one);
}

// Its process ends, and another one begins.
static void restart(void)
{
    drop(&one);
    one.nonce++;
    one.job = NULL;
    open_host(&one);
    settle(&one, STORE_OK);
}

static uint64_t session_of(uint8_t number)
{
    return one.host->programs[number].now.session;
}

static int act(uint8_t number, markring_event event)
{
    return perform_one(&one, number, session_of(number), event);
}

// A new object with this word, in a register. Returns its reference.
static markring_ref make_object(uint16_t reg, uint64_t word, uint8_t places)
{
    markring_ref made = {0};
    HOLDS(act(SHARER, (markring_event){.kind = MARKRING_EVENT_ALLOC, .reg = reg, .place = places})
        == MARKRING_OK);
    HOLDS(act(SHARER,
              (markring_event){.kind = MARKRING_EVENT_SET_WORD, .object = reg, .word = word})
        == MARKRING_OK);
    HOLDS(markring_node_register(host_node(one.host), reg, &made) == MARKRING_OK);
    return made;
}

static void drop_object(uint16_t reg)
{
    HOLDS(act(SHARER, (markring_event){.kind = MARKRING_EVENT_DROP, .reg = reg}) == MARKRING_OK);
}

// Frees private garbage, as the host does when it is due. Nothing is saved yet.
static void reclaim_now(void)
{
    markring_answer answer;
    HOLDS(markring_node_reclaim(host_node(one.host), &answer) == MARKRING_OK);
    one.host->counts.reclaimed += answer.count;
    host_changed(one.host);
}

// Makes this many objects, with words from this one on, and frees them. It isn't saved.
static void free_some(uint64_t first, uint32_t count)
{
    markring_answer answer;
    for (uint32_t i = 0; i < count; i++) {
        HOLDS(markring_node_alloc(host_node(one.host), 1, 0, &answer) == MARKRING_OK);
        HOLDS(markring_node_set_word(host_node(one.host), 1, first + i, &answer) == MARKRING_OK);
    }
    HOLDS(markring_node_drop(host_node(one.host), 1, &answer) == MARKRING_OK);
    reclaim_now();
}

static uint8_t question[REQUEST_BYTES];

// The head of a question about objects, and numbers behind it.
static writer write_question(uint8_t kind, uint8_t number, uint64_t session, const uint64_t *numbers,
    const size_t *lengths, size_t count)
{
    writer to = writer_of(question, sizeof question);
    write_request_head(&to, &(request_head){kind, number, session, 9, 1});
    for (size_t i = 0; i < count; i++) {
        write_number(&to, numbers[i], lengths[i]);
    }
    return to;
}

// Its result; `*behind` is at what follows.
static int answer_of(const writer *asked, markring_result *found, reader *behind)
{
    answer_head head = {0};
    memset(found, 0, sizeof *found);
    HOLDS(say(&one, asked, &head) && head.number == 9);
    *behind = reader_of(one.text + ANSWER_HEAD, one.told - ANSWER_HEAD);
    HOLDS(head.count == (head.verdict == VERDICT_DONE) && head.kind == question[4]);
    HOLDS(head.verdict == VERDICT_DONE || behind->left == 0);
    if (head.verdict == VERDICT_DONE) {
        read_result(behind, found);
    }
    return head.verdict;
}

static int track(uint8_t number, markring_remote_since *since, bool *is_new)
{
    markring_result found;
    reader behind;
    writer asked = write_question(REQUEST_TRACK_FREED, number, session_of(number), NULL, NULL, 0);
    int said = answer_of(&asked, &found, &behind);
    HOLDS(behind.left == 0);
    *since = (markring_remote_since){(uint64_t)found.answer.sum, found.answer.number};
    *is_new = found.answer.done != 0;
    return said;
}

// What was freed behind a place, for a program.
typedef struct heard {
    markring_freed entries[FREED_IN_ANSWER];
    uint32_t count;
    markring_remote_since next;
} heard;

static writer ask_freed(uint8_t number, uint64_t session, markring_remote_since since, uint32_t most)
{
    uint64_t numbers[] = {since.list, since.number, most};
    return write_question(REQUEST_FREED, number, session, numbers, (size_t[]){8, 8, 4}, 3);
}

static int hear(uint8_t number, markring_remote_since since, uint32_t most, heard *to)
{
    markring_result found;
    reader behind;
    writer asked = ask_freed(number, session_of(number), since, most);
    int said = answer_of(&asked, &found, &behind);
    HOLDS(behind.left == found.answer.count * (size_t)FREED_RECORD);
    to->count = found.answer.count;
    to->next = (markring_remote_since){(uint64_t)found.answer.sum, found.answer.number};
    for (uint32_t i = 0; i < found.answer.count && i < FREED_IN_ANSWER; i++) {
        read_freed_record(&behind, &to->entries[i]);
    }
    HOLDS(said != VERDICT_DONE
        || (to->next.list == since.list && to->next.number == since.number + to->count));
    return said;
}

static heard it;

// Whether just these words come, from this one on, each once. (What one reclaim has freed comes in
// the order of the slots.)
static bool hears(uint8_t number, markring_remote_since since, uint32_t most, uint64_t first,
    uint32_t count)
{
    static bool came[FREED_IN_ANSWER];
    bool all = hear(number, since, most, &it) == VERDICT_DONE && it.count == count;
    memset(came, 0, sizeof came);
    for (uint32_t i = 0; all && i < count; i++) {
        uint64_t word = it.entries[i].word - first;
        all = word < count && !came[word] && it.entries[i].reference.node == 0
            && it.entries[i].reference.generation > 0;
        came[word < count ? word : 0] = true;
    }
    return all;
}

static bool is_same(markring_ref a, markring_ref b)
{
    return a.node == b.node && a.slot == b.slot && a.generation == b.generation;
}

static markring_remote_since after(markring_remote_since since, uint64_t count)
{
    return (markring_remote_since){since.list, since.number + count};
}

// Whether the library lists what is freed.
static bool is_listing(void)
{
    markring_freed entry;
    size_t count = 0;
    free_some(7, 1);
    settle(&one, STORE_OK);
    HOLDS(markring_node_freed(host_node(one.host), &entry, 1, &count) == MARKRING_OK);
    return count > 0;
}

// ## What was freed

// Nothing is listed before a program asks for it; entries come once what freed them is saved, again
// and again until the program has them, and then no more.
static void test_entries(bool has_entries)
{
    markring_remote_since since;
    bool is_new = false;
    make_one(has_entries);
    HOLDS(!is_listing());
    HOLDS(track(SHARER, &since, &is_new) == VERDICT_DONE && is_new && since.list != 0);
    HOLDS(hears(SHARER, since, 10, 0, 0));
    markring_ref first = make_object(1, 100, 0), second = make_object(2, 101, 2);
    drop_object(1);
    drop_object(2);
    reclaim_now();
    // A save is under way, without what is freed next. It fails, and nothing is final.
    host_turn(one.host, one.now += 10);
    HOLDS(one.job != NULL);
    writer asked = ask_freed(SHARER, session_of(SHARER), since, 10);
    one.answers = 0;
    host_request(one.host, one.now, asked.start, asked.length, "r");
    host_turn(one.host, one.now += 10);
    HOLDS(one.answers == 1 && one.told == ANSWER_HEAD + RESULT_BYTES);
    finish_save(&one, STORE_FAILED);
    host_request(one.host, one.now, asked.start, asked.length, "r");
    host_turn(one.host, one.now += 10);
    HOLDS(one.answers == 2 && one.told == ANSWER_HEAD + RESULT_BYTES);
    settle(&one, STORE_OK);
    for (int i = 0; i < 3; i++) {
        HOLDS(hear(SHARER, since, 10, &it) == VERDICT_DONE && it.count == 2);
        HOLDS(is_same(it.entries[0].reference, first) && it.entries[0].word == 100);
        HOLDS(is_same(it.entries[1].reference, second) && it.entries[1].word == 101);
    }
    // One after another; and none before is there any more.
    HOLDS(hears(SHARER, since, 1, 100, 1) && hears(SHARER, since, 0, 0, 0));
    HOLDS(hears(SHARER, after(since, 1), 10, 101, 1));
    HOLDS(hear(SHARER, since, 10, &it) == VERDICT_LOST);
    HOLDS(hears(SHARER, after(since, 1), 10, 101, 1) && hears(SHARER, after(since, 2), 10, 0, 0));
    HOLDS(hear(SHARER, after(since, 3), 10, &it) == VERDICT_LOST);
    since.list++;
    HOLDS(hear(SHARER, after(since, 2), 10, &it) == VERDICT_LOST);
    since.list -= 2;
    HOLDS(hear(SHARER, after(since, 2), 10, &it) == VERDICT_LOST);
    HOLDS(one.host->freed.room == 0);
    drop_one();
}

// To track again changes nothing. What is new is so until the program has asked for entries.
TEST(test_tracking)
{
    markring_remote_since since, again, other;
    bool is_new = false;
    make_one(true);
    HOLDS(hear(SHARER, (markring_remote_since){0, 0}, 1, &it) == VERDICT_LOST);
    HOLDS(track(SHARER, &since, &is_new) == VERDICT_DONE && is_new);
    free_some(10, 3);
    settle(&one, STORE_OK);
    HOLDS(track(SHARER, &again, &is_new) == VERDICT_DONE && is_new);
    HOLDS(again.list == since.list && again.number == since.number);
    HOLDS(hear(READER, since, 1, &it) == VERDICT_LOST);
    HOLDS(hears(SHARER, since, 2, 10, 2));
    HOLDS(track(SHARER, &again, &is_new) == VERDICT_DONE && !is_new);
    HOLDS(again.list == since.list && again.number == since.number);
    HOLDS(hears(SHARER, after(since, 2), 2, 12, 1));
    HOLDS(track(SHARER, &again, &is_new) == VERDICT_DONE && !is_new);
    HOLDS(again.number == since.number + 2);
    // Another program has a list of its own, from then on, and each gets every entry.
    HOLDS(track(READER, &other, &is_new) == VERDICT_DONE && is_new && other.list != since.list);
    free_some(20, 4);
    settle(&one, STORE_OK);
    HOLDS(hears(READER, other, 64, 20, 4));
    HOLDS(hears(SHARER, again, 1, 12, 1) && hears(SHARER, after(again, 1), 64, 20, 4));
    HOLDS(hears(SHARER, after(again, 5), 64, 0, 0) && hears(READER, other, 64, 20, 4));
    HOLDS(hears(READER, after(other, 4), 64, 0, 0) && one.host->freed.room == 0);
    HOLDS(hear(READER, (markring_remote_since){since.list, other.number + 4}, 1, &it)
        == VERDICT_LOST);
    drop_one();
}

// The next process of the node lists nothing, and says so; also if its list is as long.
TEST(test_lives)
{
    markring_remote_since since, again;
    bool is_new = false;
    make_one(true);
    for (int life = 0; life < 3; life++) {
        HOLDS(track(SHARER, &since, &is_new) == VERDICT_DONE && is_new);
        free_some(30, 2);
        settle(&one, STORE_OK);
        HOLDS(hears(SHARER, since, 64, 30, 2));
        restart();
        HOLDS(!is_listing());
        HOLDS(hear(SHARER, since, 64, &it) == VERDICT_LOST);
        HOLDS(hear(SHARER, after(since, 2), 64, &it) == VERDICT_LOST);
        HOLDS(track(READER, &again, &is_new) == VERDICT_DONE && is_new);
        free_some(30, 2);
        settle(&one, STORE_OK);
        HOLDS(hear(SHARER, since, 64, &it) == VERDICT_LOST);
        HOLDS(hear(SHARER, again, 64, &it) == VERDICT_LOST);
        restart();
        // Its first list isn't that of the process before.
        HOLDS(track(READER, &since, &is_new) == VERDICT_DONE && since.list != again.list);
        again.number = since.number;
        HOLDS(hear(READER, again, 64, &it) == VERDICT_LOST);
        restart();
    }
    drop_one();
}

// The next process of a program goes on with its list; the one before can't forget what that needs.
TEST(test_next_process)
{
    markring_remote_since since, again;
    bool is_new = false;
    answer_head head;
    markring_result found;
    reader behind;
    make_one(true);
    HOLDS(track(SHARER, &since, &is_new) == VERDICT_DONE);
    free_some(40, 4);
    settle(&one, STORE_OK);
    HOLDS(hear(SHARER, since, 2, &it) == VERDICT_DONE && it.count == 2);
    uint64_t before = session_of(SHARER);
    HOLDS(ask(&one, (request_head){REQUEST_OPEN, SHARER, 999, 2, 0}, -1, &head) == 1);
    writer asked = ask_freed(SHARER, before, after(since, 4), 64);
    HOLDS(answer_of(&asked, &found, &behind) == VERDICT_SUPERSEDED);
    asked = write_question(REQUEST_TRACK_FREED, SHARER, before, NULL, NULL, 0);
    HOLDS(answer_of(&asked, &found, &behind) == VERDICT_SUPERSEDED);
    asked = write_question(REQUEST_TRACK_FREED, 9, 0, NULL, NULL, 0);
    HOLDS(answer_of(&asked, &found, &behind) == VERDICT_SUPERSEDED);
    HOLDS(track(SHARER, &again, &is_new) == VERDICT_DONE && !is_new);
    HOLDS(again.list == since.list && again.number == since.number);
    HOLDS(hears(SHARER, again, 64, 40, 4));
    drop_one();
}

// A program that leaves too much to be asked for loses its list, and the other one doesn't. If
// nobody has a list, nothing is listed. A later list isn't taken for an earlier one.
static void test_full_list(bool is_saved)
{
    enum { LISTED = 10 };
    markring_remote_since slow, quick, again;
    bool is_new = false;
    make_one(true);
    one.host->freed.most = LISTED;
    HOLDS(track(SHARER, &slow, &is_new) == VERDICT_DONE);
    HOLDS(track(READER, &quick, &is_new) == VERDICT_DONE);
    for (uint32_t i = 0; i < LISTED; i++) {
        free_some(50 + i, 1);
        settle(&one, STORE_OK);
        HOLDS(hears(READER, quick, 64, 50 + i, 1));
        quick.number++;
    }
    HOLDS(hears(READER, quick, 64, 0, 0));
    HOLDS(hear(SHARER, slow, 0, &it) == VERDICT_DONE);
    free_some(60, 1);
    settle(&one, STORE_OK);
    HOLDS(hear(SHARER, slow, 64, &it) == VERDICT_LOST);
    HOLDS(hears(READER, quick, 64, 60, 1) && one.host->freed.before == quick.number);
    // As many as there may be; and one more, whether or not it is saved.
    quick.number++;
    HOLDS(hears(READER, quick, 64, 0, 0));
    free_some(70, LISTED);
    settle(&one, STORE_OK);
    HOLDS(hears(READER, quick, 64, 70, LISTED));
    free_some(80, 1);
    if (is_saved) {
        settle(&one, STORE_OK);
    } else {
        host_turn(one.host, one.now += 10);
        finish_save(&one, STORE_FAILED);
    }
    HOLDS(hear(READER, quick, 64, &it) == VERDICT_LOST && one.host->freed.room == 0);
    HOLDS(!is_listing());
    HOLDS(track(READER, &again, &is_new) == VERDICT_DONE && is_new && again.list != quick.list);
    HOLDS(hear(READER, quick, 64, &it) == VERDICT_LOST);
    HOLDS(hear(READER, (markring_remote_since){quick.list, again.number}, 64, &it) == VERDICT_LOST);
    free_some(90, 3);
    settle(&one, STORE_OK);
    HOLDS(hears(READER, again, 64, 90, 3));
    drop_one();
}

// More than one answer has; each answer that is lost is asked for again, or isn't.
TEST(test_long_list)
{
    enum { COUNT = FREED_IN_ANSWER + 2000 };
    markring_remote_since since;
    bool is_new = false;
    make_one(true);
    HOLDS(track(SHARER, &since, &is_new) == VERDICT_DONE);
    free_some(1000, COUNT);
    settle(&one, STORE_OK);
    HOLDS(hears(SHARER, since, UINT32_MAX, 1000, FREED_IN_ANSWER));
    HOLDS(one.told <= LONGEST_ANSWER);
    since.number += FREED_IN_ANSWER;
    HOLDS(hears(SHARER, since, UINT32_MAX, 1000 + FREED_IN_ANSWER, 2000));
    uint64_t next = 1000 + FREED_IN_ANSWER;
    for (int i = 0; next < 1000 + COUNT && i < COUNT && failed == 0; i++) {
        uint32_t most = 1 + (uint32_t)i % 50;
        HOLDS(hear(SHARER, since, most, &it) == VERDICT_DONE && it.entries[0].word == next);
        HOLDS(it.count == most || next + it.count == 1000 + COUNT);
        if (i % 3 != 0) {
            next += it.count;
            since = it.next;
        }
    }
    HOLDS(next == 1000 + COUNT && hears(SHARER, since, 64, 0, 0));
    drop_one();
}

// ## Programs with registers for themselves

static int resolve(uint8_t number, uint16_t reg, markring_ref of)
{
    return act(number, (markring_event){.kind = MARKRING_EVENT_RESOLVE,
                           .reg = reg,
                           .node = of.node,
                           .count = of.slot,
                           .word = of.generation});
}

static writer ask_objects(uint32_t slot, uint32_t most)
{
    return write_question(REQUEST_OBJECTS, SHARER, session_of(SHARER), (uint64_t[]){slot, most},
        (size_t[]){4, 4}, 2);
}

static writer ask_places(markring_ref of)
{
    return write_question(REQUEST_PLACES, SHARER, session_of(SHARER),
        (uint64_t[]){of.node, of.slot, of.generation}, (size_t[]){1, 4, 8}, 3);
}

// Whether all of it is refused to everyone, or to no one.
static void expect_all(bool may, markring_ref there)
{
    markring_remote_since since;
    markring_result found;
    reader behind;
    bool is_new;
    int said = may ? VERDICT_DONE : VERDICT_APART;
    HOLDS(resolve(SHARER, 1, there) == (may ? MARKRING_OK : MARKRING_APART));
    HOLDS(track(SHARER, &since, &is_new) == said);
    writer asked = ask_freed(SHARER, session_of(SHARER), since, 64);
    HOLDS(answer_of(&asked, &found, &behind) == said);
    asked = ask_objects(0, 64);
    HOLDS(answer_of(&asked, &found, &behind) == said);
    asked = ask_places(there);
    HOLDS(answer_of(&asked, &found, &behind) == said);
}

static void test_beside_apart(bool has_entries)
{
    markring_remote_since since;
    bool is_new;
    answer_head head;
    make_one(has_entries);
    markring_ref there = make_object(2, 100, 1);
    expect_all(true, there);
    HOLDS(track(READER, &since, &is_new) == VERDICT_DONE);
    free_some(1, 2);
    settle(&one, STORE_OK);
    HOLDS(open_apart(&one, APART, 103, 2, 2) == VERDICT_DONE);
    HOLDS(!is_listing() && one.host->freed.room == 0);
    expect_all(false, there);
    // Nor has the program itself a way, nor after restarts, or for its next processes.
    HOLDS(resolve(APART, 3, there) == MARKRING_APART);
    HOLDS(track(APART, &since, &is_new) == VERDICT_APART);
    restart();
    expect_all(false, there);
    HOLDS(ask(&one, (request_head){REQUEST_OPEN, APART, 203, 2, 0}, -1, &head) == 1);
    expect_all(false, there);
    host_control(one.host, one.now, "forget 3", 8, "r");
    settle(&one, STORE_OK);
    // (its object is there until it is freed; its registers stay its own)
    expect_all(true, there);
    HOLDS(resolve(SHARER, 2, there) == MARKRING_NO_REGISTER);
    HOLDS(hear(READER, since, 64, &it) == VERDICT_LOST);
    // Nobody speaks for it until it is opened again.
    const uint64_t forgotten = MARKRING_PROGRAM_FORGOTTEN;
    HOLDS(perform_one(&one, APART, forgotten, (markring_event){.kind = MARKRING_EVENT_ALLOC,
                                                  .reg = 2}) == -1 - VERDICT_SUPERSEDED);
    HOLDS(ask(&one, (request_head){REQUEST_OPEN, APART, forgotten, 3, 0}, -1, &head) == 1);
    HOLDS(head.verdict == VERDICT_MALFORMED);
    restart();
    expect_all(true, there);
    HOLDS(track(READER, &since, &is_new) == VERDICT_DONE && is_new);
    HOLDS(ask(&one, (request_head){REQUEST_OPEN, APART, 303, 3, 0}, -1, &head) == 1);
    expect_all(false, there);
    drop_one();
}

// ## Resolve

// Asks for one event with this number, as a request with a Resolve.
static markring_result resolve_numbered(uint64_t number, uint16_t reg, markring_ref of)
{
    answer_head head = {0};
    markring_result found;
    writer to = writer_of(question, sizeof question);
    write_request_head(&to,
        &(request_head){REQUEST_PERFORM_RESOLVING, SHARER, session_of(SHARER), number, 1});
    write_event(&to, &(markring_event){.kind = MARKRING_EVENT_RESOLVE,
                         .reg = reg,
                         .node = of.node,
                         .count = of.slot,
                         .word = of.generation});
    HOLDS(say(&one, &to, &head) && head.verdict == VERDICT_DONE && head.count == 1);
    HOLDS(head.kind == REQUEST_PERFORM_RESOLVING);
    reader from = reader_of(one.text + ANSWER_HEAD, RESULT_BYTES);
    read_result(&from, &found);
    return found;
}

static void test_resolve(bool has_entries)
{
    markring_ref held = {0}, far = {1, 0, 1};
    make_one(has_entries);
    markring_ref made = make_object(1, 5, 1), other = make_object(2, 6, 1);
    HOLDS(resolve(SHARER, 3, made) == MARKRING_OK);
    HOLDS(markring_node_register(host_node(one.host), 3, &held) == MARKRING_OK);
    HOLDS(is_same(held, made));
    HOLDS(resolve(SHARER, 16, made) == MARKRING_NO_REGISTER);
    HOLDS(resolve(SHARER, 3, far) == MARKRING_REMOTE);
    far = (markring_ref){0, made.slot, made.generation + 1};
    HOLDS(resolve(SHARER, 3, far) == MARKRING_NO_FIELD);
    HOLDS(resolve(SHARER, 3, (markring_ref){0, UINT32_MAX, 1}) == MARKRING_NO_FIELD);
    HOLDS(resolve(SHARER, 3, (markring_ref){255, 0, 1}) == MARKRING_REMOTE);
    // Nothing names it, but it isn't freed yet. Once it is, it is gone.
    drop_object(1);
    drop_object(3);
    HOLDS(resolve(READER, 3, made) == MARKRING_OK);
    drop_object(3);
    reclaim_now();
    HOLDS(resolve(READER, 3, made) == MARKRING_NO_FIELD);
    HOLDS(resolve(READER, 3, other) == MARKRING_OK);
    drop_object(3);
    // It is done once: asked again after the register is emptied, it says the same, also by the
    // next process of the node.
    uint64_t next = one.host->programs[SHARER].now.number + 1;
    HOLDS(resolve_numbered(next, 4, other).status == MARKRING_OK);
    markring_answer answer;
    HOLDS(markring_node_drop(host_node(one.host), 4, &answer) == MARKRING_OK);
    host_changed(one.host);
    for (int i = 0; i < 2; i++) {
        HOLDS(resolve_numbered(next, 4, other).status == MARKRING_OK);
        HOLDS(markring_node_register(host_node(one.host), 4, &held) == MARKRING_NOTHING);
        restart();
    }
    // It is in what is saved.
    HOLDS(resolve_numbered(next + 1, 4, other).status == MARKRING_OK);
    restart();
    HOLDS(markring_node_register(host_node(one.host), 4, &held) == MARKRING_OK);
    HOLDS(is_same(held, other));
    drop_one();
}

// While the node marks, an object that it hasn't reached can't be told from garbage.
TEST(test_resolve_while_marking)
{
    markring_answer answer;
    make_one(true);
    // (`held` leads to `inner`, which nothing else names)
    (void)make_object(1, 5, 1);
    markring_ref inner = make_object(2, 6, 1);
    HOLDS(act(SHARER,
              (markring_event){.kind = MARKRING_EVENT_STORE, .object = 1, .place = 0, .reg = 2})
        == MARKRING_OK);
    drop_object(2);
    HOLDS(markring_node_begin(host_node(one.host), &answer) == MARKRING_OK);
    host_changed(one.host);
    uint8_t bytes[REQUEST_HEAD + EVENT_BYTES];
    for (int i = 0; i < 2; i++) {
        writer to = writer_of(bytes, sizeof bytes);
        uint64_t next = one.host->programs[SHARER].now.number + 1;
        write_request_head(
            &to, &(request_head){REQUEST_PERFORM, SHARER, session_of(SHARER), next, 1});
        write_event(&to, &(markring_event){.kind = MARKRING_EVENT_RESOLVE,
                             .reg = 3,
                             .count = inner.slot,
                             .word = inner.generation});
        // (at once, before the next turn scans; and then behind it)
        host_request(one.host, one.now, bytes, to.length, "r");
        one.answers = 0;
        settle(&one, STORE_OK);
        HOLDS(one.answers == 1 && one.told == ANSWER_HEAD + RESULT_BYTES);
        reader from = reader_of(one.text + ANSWER_HEAD, RESULT_BYTES);
        markring_result found;
        read_result(&from, &found);
        HOLDS(found.status == (i == 0 ? MARKRING_NOT_NOW : MARKRING_OK));
    }
    drop_one();
}

// ## Walks

// Reads all, with answers of at most this many objects. Counts them; `*of` is the one that is looked for.
static uint32_t walk(uint32_t most, markring_ref wanted, markring_object *of, uint32_t *answers)
{
    uint32_t slot = 0, count = 0;
    bool is_over = false;
    for (*answers = 0; !is_over && *answers < 1000; ++*answers) {
        markring_result found;
        reader behind;
        writer asked = ask_objects(slot, most);
        HOLDS(answer_of(&asked, &found, &behind) == VERDICT_DONE);
        HOLDS(found.status == MARKRING_OK && found.answer.count <= most);
        HOLDS(behind.left == found.answer.count * (size_t)OBJECT_RECORD);
        uint32_t least = slot;
        slot = found.answer.label;
        is_over = found.answer.done != 0;
        for (uint32_t i = 0; i < found.answer.count; i++) {
            markring_object object;
            read_object_record(&behind, &object);
            HOLDS(object.reference.slot >= least && object.reference.slot < slot);
            least = object.reference.slot + 1;
            *of = is_same(object.reference, wanted) ? object : *of;
            count++;
        }
    }
    HOLDS(is_over);
    return count;
}

TEST(test_walk)
{
    markring_object of = {.word = 1};
    uint32_t answers = 0;
    make_one(true);
    HOLDS(walk(64, (markring_ref){0}, &of, &answers) == 0 && answers == 1);
    markring_ref made = make_object(2, 77, 3);
    HOLDS(perform_bytes(&one, SHARER, session_of(SHARER),
              &(markring_remote_event){{.kind = MARKRING_REMOTE_SET_BYTES, .object = 2},
                  (const uint8_t *)"abcde", 5})
        == MARKRING_OK);
    HOLDS(walk(64, made, &of, &answers) == 1 && answers == 1);
    HOLDS(of.word == 77 && of.places == 3 && of.bytes == 5 && of.marked == 1 && of.shared == 0);
    HOLDS(of.age == MARKRING_YOUNG);
    HOLDS(act(SHARER, (markring_event){.kind = MARKRING_EVENT_GIVE, .node = 1, .reg = 2})
        == MARKRING_OK);
    HOLDS(walk(64, made, &of, &answers) == 1 && of.shared == 1);
    // A new cycle's mark is another one, until it is marked.
    markring_answer answer;
    HOLDS(markring_node_drop(host_node(one.host), 2, &answer) == MARKRING_OK);
    HOLDS(markring_node_alloc(host_node(one.host), 2, 1, &answer) == MARKRING_OK);
    markring_ref kept = answer.reference;
    for (int i = 0; i < 9; i++) {
        HOLDS(markring_node_alloc(host_node(one.host), 3, 0, &answer) == MARKRING_OK);
    }
    host_changed(one.host);
    for (uint32_t most = 1; most < 13; most++) {
        HOLDS(walk(most, kept, &of, &answers) == 11 && answers == (11 + most - 1) / most);
        HOLDS(is_same(of.reference, kept) && of.places == 1 && of.word == 0);
    }
    drop_one();
}

// More slots than one answer looks at, most of them empty.
TEST(test_long_walk)
{
    markring_object of = {.word = 1};
    markring_answer answer;
    uint32_t answers = 0;
    make_one(true);
    for (int i = 0; i < MANY_SLOTS; i++) {
        HOLDS(markring_node_alloc(host_node(one.host), i == 10 ? 4 : i + 1 == MANY_SLOTS ? 5 : 3, 0,
                  &answer)
            == MARKRING_OK);
    }
    markring_ref last = answer.reference;
    HOLDS(last.slot == MANY_SLOTS - 1);
    host_changed(one.host);
    HOLDS(walk(UINT32_MAX, last, &of, &answers) == MANY_SLOTS && answers == 3 && of.word == 0);
    reclaim_now();
    HOLDS(walk(UINT32_MAX, last, &of, &answers) == 3 && answers == 3);
    HOLDS(walk(1, last, &of, &answers) == 3);
    writer asked = ask_objects(UINT32_MAX, 5);
    markring_result found;
    reader behind;
    HOLDS(answer_of(&asked, &found, &behind) == VERDICT_DONE && found.answer.done == 1);
    HOLDS(found.answer.count == 0 && found.answer.label == MANY_SLOTS);
    asked = ask_objects(3, 0);
    HOLDS(answer_of(&asked, &found, &behind) == VERDICT_DONE && found.answer.done == 0);
    HOLDS(found.answer.count == 0 && found.answer.label == 3);
    drop_one();
}

TEST(test_places)
{
    markring_result found;
    reader behind;
    make_one(true);
    markring_ref outer = make_object(1, 1, 3), inner = make_object(2, 2, 0), read = {0};
    HOLDS(act(SHARER,
              (markring_event){.kind = MARKRING_EVENT_STORE, .object = 1, .place = 1, .reg = 2})
        == MARKRING_OK);
    writer asked = ask_places(outer);
    HOLDS(answer_of(&asked, &found, &behind) == VERDICT_DONE && found.status == MARKRING_OK);
    HOLDS(found.answer.count == 3 && behind.left == (size_t)3 * REFERENCE_RECORD);
    for (int i = 0; i < 3; i++) {
        read_reference_record(&behind, &read);
        HOLDS(is_same(read, i == 1 ? inner : (markring_ref){0, 0, 0}));
    }
    asked = ask_places(inner);
    HOLDS(answer_of(&asked, &found, &behind) == VERDICT_DONE && found.status == MARKRING_OK);
    HOLDS(found.answer.count == 0 && behind.left == 0);
    static const struct {
        markring_ref of;
        int status;
    } others[] = {{{1, 0, 1}, MARKRING_REMOTE}, {{0, 0, 9}, MARKRING_NO_FIELD},
        {{0, 5, 1}, MARKRING_NO_FIELD}, {{0, UINT32_MAX, 1}, MARKRING_NO_FIELD}};
    for (size_t i = 0; i < sizeof others / sizeof *others; i++) {
        asked = ask_places(others[i].of);
        HOLDS(answer_of(&asked, &found, &behind) == VERDICT_DONE && behind.left == 0);
        HOLDS(found.status == others[i].status && found.answer.count == 0);
    }
    drop_one();
}

// Answers that show objects wait until these are saved.
TEST(test_walks_wait)
{
    make_one(true);
    markring_ref made = make_object(1, 1, 3);
    for (int way = 0; way < 2; way++) {
        writer asked = way == 0 ? ask_objects(0, 10) : ask_places(made);
        host_changed(one.host);
        one.answers = 0;
        host_request(one.host, one.now, asked.start, asked.length, "r");
        host_turn(one.host, one.now += 10);
        HOLDS(one.job != NULL && one.answers == 0);
        finish_save(&one, STORE_FAILED);
        host_turn(one.host, one.now += 10);
        HOLDS(one.answers == 0);
        settle(&one, STORE_OK);
        HOLDS(one.answers == 1);
    }
    drop_one();
}

// Requests that are cut off, or too long, or have another count.
TEST(test_cut_questions)
{
    static const struct {
        uint8_t kind;
        size_t length;
    } kinds[] = {{REQUEST_TRACK_FREED, 0}, {REQUEST_FREED, READ_FREED},
        {REQUEST_OBJECTS, READ_OBJECTS}, {REQUEST_PLACES, REFERENCE_RECORD}};
    answer_head head;
    make_one(true);
    for (size_t i = 0; i < sizeof kinds / sizeof *kinds; i++) {
        request_head request = {kinds[i].kind, SHARER, session_of(SHARER), 3, 1};
        int whole = (int)(REQUEST_HEAD + kinds[i].length);
        for (int length = REQUEST_HEAD; length < whole + 3; length++) {
            request.count = length == whole + 2 ? 2 : 1;
            int given = length == whole + 2 ? whole : length;
            if (given != whole || request.count != 1) {
                HOLDS(ask(&one, request, given, &head) == 1);
                HOLDS(head.verdict == VERDICT_MALFORMED);
            }
        }
    }
    HOLDS(!is_listing());
    drop_one();
}

// Without memory for the list or for an answer none comes, and the next time all does.
TEST(test_without_memory)
{
    markring_remote_since since;
    bool is_new = false;
    make_one(true);
    HOLDS(track(SHARER, &since, &is_new) == VERDICT_DONE);
    free_some(10, 50);
    settle(&one, STORE_OK);
    writer asked = ask_freed(SHARER, session_of(SHARER), since, 64);
    for (int i = 0; i < 2; i++) {
        uint64_t dropped = host_counted(one.host)->dropped;
        one.answers = 0;
        refuse_size = ANSWER_HEAD + RESULT_BYTES + 50 * FREED_RECORD;
        host_request(one.host, one.now, asked.start, asked.length, "r");
        HOLDS(refuse_size == 0);
        settle(&one, STORE_OK);
        HOLDS(one.answers == 0 && host_counted(one.host)->dropped == dropped + 1);
    }
    HOLDS(hears(SHARER, since, 64, 10, 50));
    drop_one();
}

int main(void)
{
    for (int way = 0; way < 2; way++) {
        test_entries(way == 1);
        test_full_list(way == 1);
        test_beside_apart(way == 1);
        test_resolve(way == 1);
    }
    run_tests();
    return report_checks();
}
