// What a host notes for its operator, and the numbers that it shows: with the stations of
// host_test.c, whose packets, saves and time are the test's.
//
//     noting_test
#include "station.h"

enum { NOTED = 512, SECOND = 1000, MINUTE = 60000 };

static host_note noted[2][NOTED];
static int noted_count[2];

static void on_note(void *context, const host_note *what)
{
    int own = context == &pair[1];
    HOLDS(noted_count[own] < NOTED);
    if (noted_count[own] < NOTED) {
        noted[own][noted_count[own]++] = *what;
    }
}

static void forget_notes(void)
{
    noted_count[0] = noted_count[1] = 0;
}

// How often a node noted something of this kind; `*last` is the last one.
static int notes_of(int own, host_note_kind kind, host_note *last)
{
    int count = 0;
    for (int i = 0; i < noted_count[own]; i++) {
        if (noted[own][i].kind == kind) {
            count++;
            *last = noted[own][i];
        }
    }
    return count;
}

// Two nodes that have heard each other.
static void make_heard_pair(void)
{
    open_pair();
    forget_notes();
    host_listen(pair[0].host, on_note, &pair[0]);
    host_listen(pair[1].host, on_note, &pair[1]);
    go_on(20, 10);
}

static void cut(void)
{
    pair[0].other = pair[1].other = NULL;
}

static void join(void)
{
    for (int own = 0; own < 2; own++) {
        pair[own].other = &pair[1 - own];
        host_connected(pair[own].host, pair[own].now);
    }
}

static void begin(void)
{
    host_control(pair[0].host, pair[0].now, "begin", 5, "r");
}

// ## Other nodes

TEST(test_peers)
{
    host_note last;
    make_heard_pair();
    for (int own = 0; own < 2; own++) {
        HOLDS(noted_count[own] == 1 && notes_of(own, NOTE_PEER_SEEN, &last) == 1);
        HOLDS(last.node == 1 - own);
    }
    // Nobody is lost while nothing waits for an answer.
    cut();
    go_on(4000, SECOND);
    HOLDS(noted_count[0] == 1);
    for (int time = 0; time < 3; time++) {
        forget_notes();
        give(0, (uint32_t)time);
        go_on(99, 100);
        HOLDS(noted_count[0] == 0);
        go_on(20, 100);
        HOLDS(noted_count[0] == 1 && notes_of(0, NOTE_PEER_LOST, &last) == 1);
        HOLDS(last.node == 1 && last.time >= SILENCE && last.time <= SILENCE + SECOND);
        go_on(600, 100);
        HOLDS(noted_count[0] == 1);
        join();
        go_on(30, 10);
        HOLDS(noted_count[0] == 2 && notes_of(0, NOTE_PEER_SEEN, &last) == 1);
        HOLDS(last.node == 1 && noted_count[1] == 0);
        cut();
    }
    drop_pair();
}

// A node that is heard, but acknowledges nothing, isn't lost. It is late.
TEST(test_late)
{
    host_note last;
    host_view view;
    make_heard_pair();
    cut();
    give(0, 1);
    for (int i = 0; i < 30; i++) {
        go_on(1, SECOND);
        deliver(&pair[0], (process){NONCE, 11, pair[1].number}, NONCE, 11);
        host_look(pair[0].host, pair[0].now, &view);
        HOLDS(view.peers[1].is_late == (i >= 10) || i == 10);
        HOLDS(view.peers[1].is_seen && view.peers[1].unacknowledged == 1);
    }
    HOLDS(notes_of(0, NOTE_PEER_LOST, &last) == 0);
    pair[0].answers = 0;
    host_control(pair[0].host, pair[0].now, "status", 6, "r");
    pair[0].text[pair[0].told] = 0;
    HOLDS(pair[0].answers == 1 && strstr((char *)pair[0].text, ", \"late\": [1]}") != NULL);
    join();
    go_on(30, 10);
    host_look(pair[0].host, pair[0].now, &view);
    HOLDS(!view.peers[1].is_late && view.peers[1].unacknowledged == 0 && view.unacknowledged == 0);
    drop_pair();
}

// ## Cycles

static void make_objects(int own, int count)
{
    markring_answer answer;
    for (int i = 0; i < count; i++) {
        int status = markring_node_alloc(host_node(pair[own].host), 0, 1, &answer);
        HOLDS(status == MARKRING_OK);
        host_changed(pair[own].host);
    }
}

TEST(test_cycles)
{
    host_note last;
    make_heard_pair();
    make_objects(0, 3);
    make_objects(1, 4);
    go_on(20, 10);
    for (uint64_t cycle = 1; cycle <= 2; cycle++) {
        forget_notes();
        uint64_t before = pair[0].now;
        begin();
        go_on(200, 10);
        for (int own = 0; own < 2; own++) {
            HOLDS(noted_count[own] == 3 && noted[own][0].kind == NOTE_CYCLE_BEGUN);
            HOLDS(noted[own][0].cycle == cycle && noted[own][1].cycle == cycle);
            HOLDS(noted[own][1].kind == NOTE_CYCLE_ENDED && noted[own][1].time > 0);
            HOLDS(notes_of(own, NOTE_CYCLE_SWEPT, &last) == 1 && last.cycle == cycle);
            HOLDS(last.time >= noted[own][1].time && last.time < pair[0].now - before);
            HOLDS(last.count == (cycle == 2 ? 0 : own == 0 ? 2 : 3));
            host_view view;
            host_look(pair[own].host, pair[own].now, &view);
            HOLDS(view.cycle == cycle && view.swept == cycle && view.live == 1);
            HOLDS(view.counts.freed == (own == 0 ? 2 : 3));
            uint64_t count = 0;
            for (int i = 0; i <= HOST_BOUNDS; i++) {
                count += view.cycles.counts[i];
            }
            HOLDS(count == cycle && view.cycles.sum >= cycle * noted[own][1].time);
        }
    }
    drop_pair();
}

// A cycle waits for a node that is away: this is said once, after a minute.
TEST(test_waiting_cycle)
{
    host_note last;
    make_heard_pair();
    cut();
    begin();
    go_on(599, 100);
    HOLDS(notes_of(0, NOTE_CYCLE_WAITS, &last) == 0);
    go_on(30, 100);
    HOLDS(notes_of(0, NOTE_CYCLE_WAITS, &last) == 1 && last.node == 1 && last.cycle == 1);
    HOLDS(last.time >= MINUTE && last.time < MINUTE + 3 * SECOND);
    go_on(6000, 100);
    HOLDS(notes_of(0, NOTE_CYCLE_WAITS, &last) == 1 && notes_of(0, NOTE_CYCLE_STUCK, &last) == 0);
    HOLDS(notes_of(1, NOTE_CYCLE_WAITS, &last) == 0);
    join();
    go_on(200, 10);
    HOLDS(notes_of(0, NOTE_CYCLE_SWEPT, &last) == 1 && last.time > 660 * SECOND);
    drop_pair();
}

// A cycle waits for a node that has acknowledged all: it has more to sweep than a turn does.
TEST(test_stuck_cycle)
{
    host_note last;
    next.slots = 20000;
    make_heard_pair();
    make_objects(1, 15000);
    begin();
    for (int i = 0; i < 1000 && state_of(&pair[1]).ended == 0; i++) {
        go_on(1, 10);
    }
    go_on(1, 10);
    HOLDS(state_of(&pair[1]).ended == 1 && state_of(&pair[1]).swept == 0);
    HOLDS(state_of(&pair[0]).swept == 1);
    begin();
    turns(&pair[0], 5000, 100);
    HOLDS(acknowledged(0) > 0 && state_of(&pair[0]).cycle == 1);
    HOLDS(notes_of(0, NOTE_CYCLE_STUCK, &last) == 1 && last.cycle == 1 && last.time >= MINUTE);
    HOLDS(notes_of(0, NOTE_CYCLE_WAITS, &last) == 0 && notes_of(0, NOTE_PEER_LOST, &last) == 0);
    drop_pair();
}

// ## Limits

TEST(test_message_limit)
{
    host_note last;
    markring_answer answer;
    options.has_limit = true;
    options.limit = 16;
    make_heard_pair();
    options.has_limit = false;
    cut();
    give_many(0, 15);
    go_on(5, 10);
    HOLDS(notes_of(0, NOTE_LIMIT_REACHED, &last) == 0);
    give(0, 15);
    HOLDS(markring_node_give(host_node(pair[0].host), 1, 1, 0, &answer) == MARKRING_CONGESTED);
    go_on(5, 10);
    HOLDS(notes_of(0, NOTE_LIMIT_REACHED, &last) == 1 && notes_of(0, NOTE_LIMIT_LEFT, &last) == 0);
    HOLDS(noted[0][1].limit == LIMIT_MESSAGES && noted[0][1].node == 1);
    go_on(50, 100);
    join();
    go_on(20, 10);
    HOLDS(notes_of(0, NOTE_LIMIT_REACHED, &last) == 1 && notes_of(0, NOTE_LIMIT_LEFT, &last) == 1);
    HOLDS(last.limit == LIMIT_MESSAGES && last.node == 1);
    // The folder has no limit, as before.
    HOLDS(host_is(pair[0].host)->limit == 0 && limit_of(pair[0].host) == 16);
    drop(&pair[0]);
    open_host(&pair[0]);
    HOLDS(limit_of(pair[0].host) == 0);
    give_many(0, 100);
    drop_pair();
}

// What the folder says counts, unless the process has a limit of its own.
TEST(test_folder_limit)
{
    station at;
    host_view view;
    for (int way = 0; way < 3; way++) {
        folder_limit = 7;
        options.has_limit = way > 0;
        options.limit = way == 1 ? 0 : 9;
        make(&at, false);
        host_look(at.host, at.now, &view);
        HOLDS(view.limit == (way == 0 ? 7 : way == 1 ? 0 : 9));
        HOLDS(host_is(at.host)->limit == 7);
        // It is saved as it was.
        options.has_limit = false;
        drop(&at);
        open_host(&at);
        HOLDS(limit_of(at.host) == 7);
        end(&at);
    }
    folder_limit = 0;
}

TEST(test_letter_limit)
{
    host_note last;
    markring_answer answer;
    options.letters_most = 8;
    make_heard_pair();
    give_many(0, 7);
    go_on(300, 10);
    HOLDS(notes_of(1, NOTE_LIMIT_REACHED, &last) == 0);
    give(0, 8);
    go_on(300, 10);
    HOLDS(notes_of(1, NOTE_LIMIT_REACHED, &last) == 1 && last.limit == LIMIT_LETTERS);
    HOLDS(markring_node_accept(host_node(pair[1].host), 1, &answer) == MARKRING_OK);
    go_on(300, 10);
    HOLDS(notes_of(1, NOTE_LIMIT_LEFT, &last) == 0);
    HOLDS(markring_node_accept(host_node(pair[1].host), 1, &answer) == MARKRING_OK);
    go_on(300, 10);
    HOLDS(notes_of(1, NOTE_LIMIT_LEFT, &last) == 1 && last.limit == LIMIT_LETTERS);
    HOLDS(notes_of(1, NOTE_LIMIT_REACHED, &last) == 1);
    options.letters_most = 0;
    drop_pair();
}

TEST(test_image_limit)
{
    host_note last;
    size_t size = 0;
    make_heard_pair();
    make_objects(0, 20);
    go_on(200, 10);
    HOLDS(markring_node_image_size(host_node(pair[0].host), &size) == MARKRING_OK);
    pair[0].host->options.image_most = size;
    go_on(200, 10);
    HOLDS(notes_of(0, NOTE_LIMIT_REACHED, &last) == 0);
    pair[0].host->options.image_most = size - 1;
    go_on(200, 10);
    HOLDS(notes_of(0, NOTE_LIMIT_REACHED, &last) == 1 && last.limit == LIMIT_IMAGE);
    pair[0].host->options.image_most = size + 1;
    go_on(200, 10);
    HOLDS(notes_of(0, NOTE_LIMIT_LEFT, &last) == 0);
    pair[0].host->options.image_most = 2 * size;
    go_on(200, 10);
    HOLDS(notes_of(0, NOTE_LIMIT_LEFT, &last) == 1 && last.limit == LIMIT_IMAGE);
    drop_pair();
}

// ## Saves

// A save of node 0 that takes this long.
static void save_slowly(uint64_t time)
{
    host_changed(pair[0].host);
    host_turn(pair[0].host, pair[0].now += 10);
    HOLDS(pair[0].job != NULL);
    for (uint64_t left = time; left > 0; left -= 100) {
        host_turn(pair[0].host, pair[0].now += 100);
    }
    finish_save(&pair[0], STORE_OK);
}

TEST(test_slow_saves)
{
    host_note last;
    make_heard_pair();
    save_slowly(900);
    HOLDS(notes_of(0, NOTE_SAVE_SLOW, &last) == 0);
    save_slowly(5000);
    HOLDS(notes_of(0, NOTE_SAVE_SLOW, &last) == 1);
    HOLDS(last.time >= SECOND && last.time <= 2 * SECOND);
    save_slowly(1000);
    turns(&pair[0], 590, 100);
    HOLDS(notes_of(0, NOTE_SAVE_SLOW, &last) == 1 && notes_of(0, NOTE_SAVES_QUICK, &last) == 0);
    turns(&pair[0], 3000, 100);
    HOLDS(notes_of(0, NOTE_SAVES_QUICK, &last) == 1 && last.count == 2 && last.time == 5000);
    save_slowly(2000);
    HOLDS(notes_of(0, NOTE_SAVE_SLOW, &last) == 2);
    host_view view;
    host_look(pair[0].host, pair[0].now, &view);
    // 900 and 1,000 ms; 2,000 ms; 5,000 ms.
    HOLDS(view.saves.counts[9] == 2 && view.saves.counts[10] == 1 && view.saves.counts[11] == 1);
    HOLDS(view.saves.sum >= 8900 && view.saves.sum < 9100 && view.save_took == 2000);
    drop_pair();
}

// ## Numbers

TEST(test_times)
{
    static const uint64_t given[] = {0, 1, 2, 3, 299999, 300000, 300001, 1u << 30};
    static const int at[] = {0, 0, 1, 2, 15, 15, 16, 16};
    host_times times = {{0}, 0}, expected = {{0}, 0};
    for (size_t i = 0; i < sizeof at / sizeof *at; i++) {
        observe(&times, given[i]);
        expected.counts[at[i]]++;
        expected.sum += given[i];
    }
    HOLDS(memcmp(&times, &expected, sizeof times) == 0);
    for (int i = 1; i < HOST_BOUNDS; i++) {
        HOLDS(HOST_BOUND[i] > HOST_BOUND[i - 1]);
    }
}

// A request counts once, from when it came until its answer leaves.
TEST(test_request_times)
{
    station at;
    answer_head head;
    host_view view;
    make(&at, false);
    HOLDS(ask(&at, (request_head){REQUEST_OPEN, 3, 100, 1, 0}, -1, &head) == 1);
    HOLDS(ask(&at, (request_head){REQUEST_PERFORM, 3, 100, 1, 2}, -1, &head) == 1);
    host_look(at.host, at.now, &view);
    HOLDS(view.requests.counts[4] == 1 && view.requests.sum == 20);
    // Its save takes half a second; meanwhile it is asked again.
    request_head request = {REQUEST_PERFORM, 3, 100, 2, 1};
    say_request(&at, request, -1);
    host_turn(at.host, at.now += 10);
    at.now += 480;
    say_request(&at, request, -1);
    finish_save(&at, STORE_OK);
    settle(&at, STORE_OK);
    host_look(at.host, at.now, &view);
    HOLDS(view.requests.counts[8] == 1 && view.requests.sum == 520 && view.counts.requests == 2);
    // Another answer to a request that was answered.
    HOLDS(ask(&at, request, -1, &head) == 1 && head.count == 1);
    host_look(at.host, at.now, &view);
    HOLDS(view.requests.sum == 530 && view.counts.repeated_requests == 2);
    end(&at);
}

// The status has each number, once.
TEST(test_status)
{
    station at;
    host_view view;
    make(&at, false);
    host_look(at.host, at.now, &view);
    host_control(at.host, at.now, "status", 6, "r");
    at.text[at.told] = 0;
    const char *text = (const char *)at.text, *last = text;
    HOLDS(strncmp(text, "{\"space\": \"test\", \"node\": 0, \"nodes\": 3, ", 41) == 0);
    for (size_t i = 0; i < HOST_NUMBERS; i++) {
        char part[128];
        snprintf(part, sizeof part, ", \"%s\": %llu,", HOST_NUMBER[i].name,
            (unsigned long long)host_number_of(&view, &HOST_NUMBER[i]));
        const char *found = strstr(text, part);
        HOLDS(found != NULL && found >= last && strstr(found + 1, part) == NULL);
        last = found != NULL ? found : last;
    }
    HOLDS(strcmp(text + at.told - 13, ", \"late\": []}") == 0);
    HOLDS(view.save == 11 && view.run == 11 && view.counts.saves == 1 && view.image > 0);
    end(&at);
}

// ## Another id

TEST(test_rename)
{
    static const uint8_t other[SPACE_ID] = {9, 9, 9, 9, 9, 9, 9, 1};
    answer_head head;
    for (int way = 0; way < 2; way++) {
        station at;
        make(&at, way == 1);
        deliver(&at, (process){9, 5, 7}, NONCE, 11);
        HOLDS(ask(&at, (request_head){REQUEST_OPEN, 3, 100, 1, 0}, -1, &head) == 1);
        HOLDS(ask(&at, (request_head){REQUEST_PERFORM, 3, 100, 1, 2}, -1, &head) == 1);
        drop(&at);
        open_host(&at);
        store_value value = {NULL, 0, 0, false, 0, 0};
        HOLDS(host_rename(at.host, other, &value) == MARKRING_OK && !value.is_entry);
        end(&at);
        at.stored = value.buffer;
        at.length = value.length;
        at.end = value.end;
        at.number++;
        open_host(&at);
        HOLDS(memcmp(host_is(at.host)->space, other, SPACE_ID) == 0 && host_is(at.host)->own == 0);
        HOLDS(is_process(&at.host->peers[1].known, 9, 5, 7) && live(&at) == 2);
        settle(&at, STORE_OK);
        HOLDS(ask(&at, (request_head){REQUEST_PERFORM, 3, 100, 1, 2}, -1, &head) == 1);
        HOLDS(head.verdict == VERDICT_DONE && head.last == 1 && live(&at) == 2);
        end(&at);
    }
}

int main(void)
{
    run_tests();
    return report_checks();
}
