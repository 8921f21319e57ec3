// Letters with bytes and several references, and what is fetched: with the stations of station.h,
// whose packets, saves and time are the test's.
//
//     letters_test
#include "station.h"

enum {
    LABEL = 7,
    LETTER_REGISTERS = 300,
    // What a letter's frame has besides its bytes and its references.
    LETTER_FRAME = 29
};

// ## Two nodes of a wide space

// The program 3 of each has the registers from 1 on, and an object with these bytes in register 1.
static void make_wide_pair(uint32_t object_bytes)
{
    next = (host_shape){
        .registers = LETTER_REGISTERS, .places = 255, .bytes = MARKRING_LETTER_BYTES};
    make_pair();
    for (int own = 0; own < 2; own++) {
        HOLDS(open_apart(&pair[own], 3, 103, 1, LETTER_REGISTERS - 1) == VERDICT_DONE);
        markring_event alloc = {.kind = MARKRING_EVENT_ALLOC, .reg = 1, .place = 1};
        HOLDS(perform_one(&pair[own], 3, 103, alloc) == MARKRING_OK);
        HOLDS(set_bytes(&pair[own], 1, 5, object_bytes) == MARKRING_OK);
    }
}

static int post(int own, uint16_t first, uint32_t count, uint32_t kind, uint32_t length)
{
    markring_remote_event event = {{.kind = MARKRING_REMOTE_POST,
                                       .node = (uint8_t)(1 - own),
                                       .label = LABEL + kind,
                                       .reg = first,
                                       .count = count},
        bytes_of(kind, length), length};
    return perform_bytes(&pair[own], 3, 103, &event);
}

static int fetch(int own, uint16_t object, uint32_t offset, uint32_t count)
{
    markring_event event = {.kind = MARKRING_REMOTE_FETCH,
        .object = object,
        .label = LABEL,
        .count = count,
        .word = offset};
    return perform_one(&pair[own], 3, 103, event);
}

// What became of the last event, as the node's last answer says; and behind it, letters.
static markring_result last_result(station *at, reader *behind)
{
    markring_result found = {0};
    *behind = reader_of(at->text + ANSWER_HEAD, at->told - ANSWER_HEAD);
    read_result(behind, &found);
    return found;
}

static int accept_into(int own, uint16_t reg, uint32_t room)
{
    markring_event event = {
        .kind = MARKRING_REMOTE_ACCEPT_INTO, .reg = reg, .count = room};
    return perform_one(&pair[own], 3, 103, event);
}

// Whether the last answer has one letter, of the first result, with these bytes and no more.
static bool brought(int own, uint32_t kind, uint32_t length)
{
    reader behind;
    letter_bytes found;
    markring_result result = last_result(&pair[own], &behind);
    bool all = result.status == MARKRING_OK && result.answer.kind == MARKRING_ANSWER_LETTER
        && result.answer.number == length && read_letter(&behind, &found) && behind.left == 0
        && found.result == 0 && found.length == length;
    for (uint32_t i = 0; i < length && all; i++) {
        all = found.bytes[i] == byte_of(kind, i);
    }
    return all;
}

// ## Tests

// Letters of all lengths about those at which frames, packets and letters end, with and without
// references.
TEST(test_lengths)
{
    static const uint32_t lengths[] = {0, 1, 255, 256, 1000, UINT16_MAX - LETTER_FRAME - 1,
        UINT16_MAX - LETTER_FRAME, UINT16_MAX - LETTER_FRAME + 1, MARKRING_LETTER_BYTES};
    make_wide_pair(10);
    for (size_t i = 0; i < sizeof lengths / sizeof *lengths; i++) {
        for (uint32_t count = 0; count < 3; count++) {
            HOLDS(post(0, 1, count, 3, lengths[i]) == MARKRING_OK);
            go_on(20, 10);
            HOLDS(accept_into(1, 10, MARKRING_LETTER_BYTES) == MARKRING_OK);
            HOLDS(brought(1, 3, lengths[i]));
        }
    }
    // As many references as there may be.
    HOLDS(post(0, 1, 255, 3, MARKRING_LETTER_BYTES) == MARKRING_OK);
    go_on(20, 10);
    HOLDS(accept_into(1, 10, MARKRING_LETTER_BYTES) == MARKRING_OK);
    HOLDS(brought(1, 3, MARKRING_LETTER_BYTES));
    HOLDS(post(0, 1, 256, 3, 0) == MARKRING_TOO_MANY_FIELDS);
    HOLDS(post(0, 1, 0, 3, MARKRING_LETTER_BYTES + 1) == MARKRING_TOO_MANY_BYTES);
    HOLDS(host_counted(pair[1].host)->malformed == 0 && host_counted(pair[0].host)->resends == 0);
    drop_pair();
}

// A letter without bytes, of a Give: its answer has a letter without bytes.
TEST(test_give)
{
    make_wide_pair(10);
    give(0, LABEL);
    go_on(20, 10);
    HOLDS(accept_into(1, 10, 0) == MARKRING_OK && brought(1, 3, 0));
    HOLDS(accept_into(1, 10, 0) == MARKRING_NO_LETTER);
    drop_pair();
}

// A window that isn't acknowledged has at most a mebibyte, and one message at least. All arrives in
// the end, in order.
TEST(test_windows)
{
    enum { COUNT = 40, LENGTH = 60000 };
    make_wide_pair(10);
    pair[0].other = NULL;
    uint64_t bytes = host_counted(pair[0].host)->bytes_out;
    uint64_t frames = host_counted(pair[0].host)->frames_out;
    for (uint32_t i = 0; i < COUNT; i++) {
        HOLDS(post(0, 1, 1, i, LENGTH) == MARKRING_OK);
        // (no window is sent again before they are all posted)
        pair[0].host->peers[1].sending.again_at = 0;
    }
    bytes = host_counted(pair[0].host)->bytes_out - bytes;
    frames = host_counted(pair[0].host)->frames_out - frames;
    HOLDS(frames == MARKRING_SENDING_BYTES / (LENGTH + LETTER_FRAME + 14));
    HOLDS(bytes > MARKRING_SENDING_BYTES - 2 * LENGTH && bytes < MARKRING_SENDING_BYTES + LENGTH);
    pair[0].other = &pair[1];
    host_connected(pair[0].host, pair[0].now);
    go_on(400, 10);
    HOLDS(acknowledged(0) == COUNT && number_of(&pair[0], "queued_bytes") == 0);
    for (uint32_t i = 0; i < COUNT; i++) {
        HOLDS(accept_into(1, 10, LENGTH) == MARKRING_OK && brought(1, i, LENGTH));
    }
    drop_pair();
}

// More bytes than a window has go without a pause, as the receiver acknowledges them: none is sent
// again.
TEST(test_stream)
{
    enum { COUNT = 40, LENGTH = 60000 };
    make_wide_pair(10);
    for (uint32_t i = 0; i < COUNT; i++) {
        HOLDS(post(0, 1, 0, i, LENGTH) == MARKRING_OK);
        // (none is sent again before they are all posted)
        pair[0].host->peers[1].sending.again_at = 0;
    }
    go_on(100, 10);
    HOLDS(acknowledged(0) == COUNT && host_counted(pair[0].host)->resends == 0);
    drop_pair();
}

// A program can't post to a node that has many bytes to acknowledge; but it can give.
TEST(test_byte_limit)
{
    for (int way = 0; way < 2; way++) {
        // The limit of the folder, or that of the process.
        folder_byte_limit = way == 0 ? 100000 : 1;
        options.has_byte_limit = way == 1;
        options.byte_limit = 100000;
        make_wide_pair(10);
        HOLDS(number_of(&pair[0], "byte_limit") == 100000);
        pair[0].other = NULL;
        HOLDS(post(0, 1, 1, 1, 60000) == MARKRING_OK);
        HOLDS(post(0, 1, 1, 2, 60000) == MARKRING_OK);
        HOLDS(number_of(&pair[0], "queued_bytes") >= 120000);
        HOLDS(post(0, 1, 1, 3, 0) == MARKRING_CONGESTED);
        markring_event letter = {.kind = MARKRING_EVENT_GIVE, .node = 1, .reg = 1};
        HOLDS(perform_one(&pair[0], 3, 103, letter) == MARKRING_OK);
        pair[0].other = &pair[1];
        host_connected(pair[0].host, pair[0].now);
        go_on(100, 10);
        HOLDS(acknowledged(0) == 3 && post(0, 1, 1, 3, 60000) == MARKRING_OK);
        drop_pair();
    }
    folder_byte_limit = BYTE_LIMIT;
    options.has_byte_limit = false;
}

// While letters with many bytes wait, a node takes no messages, and asks for none.
TEST(test_letter_bytes)
{
    options.letter_bytes_most = 10000;
    make_wide_pair(10);
    // Node 1 gets a reference to an object of node 0.
    HOLDS(post(0, 1, 1, 1, 0) == MARKRING_OK);
    go_on(20, 10);
    HOLDS(accept_into(1, 2, 0) == MARKRING_OK && fetch(1, 2, 0, 10) == MARKRING_OK);
    go_on(20, 10);
    HOLDS(accept_into(1, 3, 18) == MARKRING_OK);
    for (uint32_t i = 0; i < 100; i++) {
        HOLDS(post(0, 1, 0, i, 1000) == MARKRING_OK);
    }
    go_on(300, 10);
    uint64_t letters = state_of(&pair[1]).letters;
    HOLDS(letters >= 9 && letters <= 10 + WINDOW && host_counted(pair[1].host)->full > 0);
    HOLDS(number_of(&pair[1], "letter_bytes") >= 10000);
    HOLDS(fetch(1, 2, 0, 10) == MARKRING_CONGESTED);
    uint32_t accepted = 0;
    for (; state_of(&pair[1]).letters > 5; accepted++) {
        HOLDS(accept_into(1, 3, 1000) == MARKRING_OK && brought(1, accepted, 1000));
    }
    // It has room again, before the last one is accepted.
    go_on(300, 10);
    HOLDS(state_of(&pair[1]).letters > 5);
    for (; accepted < 100; accepted++) {
        HOLDS(accept_into(1, 3, 1000) == MARKRING_OK && brought(1, accepted, 1000));
        go_on(state_of(&pair[1]).letters == 0 ? 300 : 1, 10);
    }
    HOLDS(number_of(&pair[1], "letter_bytes") == 0 && fetch(1, 2, 0, 10) == MARKRING_OK);
    drop_pair();
    options.letter_bytes_most = 0;
}

// A Fetch gives the word and the bytes that were asked for; the word, if they aren't there.
TEST(test_fetches)
{
    make_wide_pair(MARKRING_LETTER_BYTES);
    HOLDS(perform_one(&pair[0], 3, 103,
              (markring_event){.kind = MARKRING_EVENT_SET_WORD, .object = 1, .word = 258})
        == MARKRING_OK);
    HOLDS(post(0, 1, 1, 1, 0) == MARKRING_OK);
    go_on(20, 10);
    HOLDS(accept_into(1, 2, 0) == MARKRING_OK);
    static const struct {
        uint32_t offset, count, length;
    } cases[] = {{0, 0, 0}, {0, 10, 10}, {65530, 5, 5}, {65530, 6, 0}, {UINT32_MAX, 1, 0},
        {8, 65527, 65527}};
    for (size_t i = 0; i < sizeof cases / sizeof *cases; i++) {
        HOLDS(fetch(1, 2, cases[i].offset, cases[i].count) == MARKRING_OK);
        go_on(20, 10);
        HOLDS(accept_into(1, 3, MARKRING_LETTER_BYTES) == MARKRING_OK);
        reader behind;
        letter_bytes found;
        (void)last_result(&pair[1], &behind);
        HOLDS(read_letter(&behind, &found) && found.length == 8 + cases[i].length);
        reader word = reader_of(found.bytes, 8);
        HOLDS(read_number(&word, 8) == 258);
        for (uint32_t k = 0; k < cases[i].length; k++) {
            HOLDS(found.bytes[8 + k] == byte_of(5, cases[i].offset + k));
        }
    }
    HOLDS(fetch(1, 2, 0, 65528) == MARKRING_TOO_MANY_BYTES);
    HOLDS(fetch(1, 1, 0, 1) == MARKRING_LOCAL && fetch(1, 9, 0, 1) == MARKRING_EMPTY_REGISTER);
    markring_event far = {.kind = MARKRING_REMOTE_FETCH, .object = 2, .word = UINT32_MAX + 1ull};
    HOLDS(perform_one(&pair[1], 3, 103, far) == MARKRING_BAD_ARGUMENT);
    drop_pair();
}

// A node that has many bytes for another one answers it now and then only.
TEST(test_fetch_pause)
{
    make_wide_pair(900);
    HOLDS(post(1, 1, 1, 1, 0) == MARKRING_OK);
    go_on(20, 10);
    HOLDS(accept_into(0, 2, 0) == MARKRING_OK);
    pair[1].host->shape.byte_limit = 1000;
    pair[1].other = NULL;
    for (int i = 0; i < 10; i++) {
        HOLDS(fetch(0, 2, 0, 900) == MARKRING_OK);
    }
    markring_link link = {0};
    for (int seconds = 0; seconds < 5; seconds++) {
        go_on(100, 10);
        HOLDS(markring_node_link(host_node(pair[1].host), 0, &link) == MARKRING_OK);
        // (one letter of node 1, then two answers within the limit)
        HOLDS(link.appended >= 3u + (unsigned)seconds / 2 && link.appended <= 5u + (unsigned)seconds);
    }
    HOLDS(host_counted(pair[1].host)->full > 0);
    pair[1].other = &pair[0];
    host_connected(pair[1].host, pair[1].now);
    go_on(2000, 10);
    HOLDS(state_of(&pair[0]).letters == 10 && number_of(&pair[1], "queued_bytes") == 0);
    drop_pair();
}

// A Fetch that comes again is acknowledged again, however many bytes wait for the node that asks.
TEST(test_fetch_again)
{
    make_wide_pair(900);
    HOLDS(post(1, 1, 1, 1, 0) == MARKRING_OK);
    go_on(20, 10);
    HOLDS(accept_into(0, 2, 0) == MARKRING_OK);
    pair[1].host->shape.byte_limit = 100;
    pair[1].other = NULL;
    HOLDS(fetch(0, 2, 0, 900) == MARKRING_OK);
    go_on(1000, 10);
    HOLDS(number_of(&pair[1], "queued_bytes") >= 900 && host_counted(pair[0].host)->resends > 0);
    HOLDS(host_counted(pair[1].host)->full == 0);
    drop_pair();
}

// A letter for which the event has too little room, or the program too few registers, stays.
TEST(test_letters_that_stay)
{
    reader behind;
    make_wide_pair(10);
    HOLDS(post(0, 1, 3, 4, 100) == MARKRING_OK);
    go_on(20, 10);
    HOLDS(accept_into(1, 10, 99) == MARKRING_SHORT_BUFFER);
    markring_result refused = last_result(&pair[1], &behind);
    HOLDS(refused.answer.number == 100 && behind.left == 0);
    HOLDS(accept_into(1, 0, 100) == MARKRING_NO_REGISTER);
    HOLDS(accept_into(1, LETTER_REGISTERS - 2, 100) == MARKRING_NO_REGISTER);
    HOLDS(last_result(&pair[1], &behind).answer.number == 0 && behind.left == 0);
    HOLDS(accept_into(1, LETTER_REGISTERS - 3, 100) == MARKRING_OK && brought(1, 4, 100));
    HOLDS(last_result(&pair[1], &behind).answer.count == 3);
    // Without its bytes.
    HOLDS(post(0, 1, 3, 4, 100) == MARKRING_OK);
    go_on(20, 10);
    markring_event accept = {.kind = MARKRING_EVENT_ACCEPT, .reg = 4};
    HOLDS(perform_one(&pair[1], 3, 103, accept) == MARKRING_OK);
    HOLDS(last_result(&pair[1], &behind).answer.number == 100 && behind.left == 0);
    drop_pair();
}

// Registers of another program: none is sent, and none is written.
TEST(test_apart_letters)
{
    make_wide_pair(10);
    for (int own = 0; own < 2; own++) {
        station *at = &pair[own];
        markring_remote_event given = {{.kind = MARKRING_REMOTE_POST,
                                           .node = (uint8_t)(1 - own),
                                           .reg = 0,
                                           .count = 2},
            NULL, 0};
        HOLDS(open_apart(at, 4, 104, 0, 1) == VERDICT_DONE);
        HOLDS(perform_bytes(at, 4, 104, &given) == MARKRING_NO_REGISTER);
        HOLDS(perform_bytes(at, 3, 103, &given) == MARKRING_NO_REGISTER);
        given.event.count = 1;
        HOLDS(perform_bytes(at, 3, 103, &given) == MARKRING_NO_REGISTER);
        HOLDS(perform_bytes(at, 4, 104, &given) == MARKRING_OK);
        given.event.count = 0;
        HOLDS(perform_bytes(at, 3, 103, &given) == MARKRING_OK);
        markring_event far = {.kind = MARKRING_REMOTE_FETCH, .object = 1};
        HOLDS(perform_one(at, 4, 104, far) == MARKRING_NO_REGISTER);
    }
    go_on(20, 10);
    HOLDS(post(0, 1, 2, 1, 0) == MARKRING_OK);
    go_on(20, 10);
    markring_event accept = {.kind = MARKRING_EVENT_ACCEPT, .reg = 0};
    for (int i = 0; i < 2; i++) {
        HOLDS(perform_one(&pair[1], 4, 104, accept) == MARKRING_OK);
    }
    HOLDS(perform_one(&pair[1], 4, 104, accept) == MARKRING_NO_REGISTER);
    accept.kind = MARKRING_REMOTE_ACCEPT_INTO;
    HOLDS(perform_one(&pair[1], 4, 104, accept) == MARKRING_NO_REGISTER);
    HOLDS(accept_into(1, 4, 0) == MARKRING_OK);
    drop_pair();
}

// Opens program 3 of node 1 with this kind of request. Returns what is behind the head.
static reader open_with(uint8_t kind, answer_head *head)
{
    uint8_t bytes[REQUEST_HEAD + 4];
    writer to = writer_of(bytes, sizeof bytes);
    uint64_t round = pair[1].host->programs[3].now.round + 1;
    write_request_head(&to, &(request_head){kind, 3, 200 + round, round, 0});
    if (kind == REQUEST_OPEN_APART || kind == REQUEST_OPEN_APART_LETTERS) {
        write_number(&to, 1, 2);
        write_number(&to, LETTER_REGISTERS - 1, 2);
    }
    HOLDS(say(&pair[1], &to, head) && head->kind == kind && head->verdict == VERDICT_DONE);
    return reader_of(pair[1].text + ANSWER_HEAD, pair[1].told - ANSWER_HEAD);
}

// What a program accepted last, with its bytes, is there after restarts: also from entries, and for
// programs that know no letters without them.
TEST(test_last_letters)
{
    make_wide_pair(10);
    HOLDS(post(0, 1, 2, 6, 5000) == MARKRING_OK);
    go_on(20, 10);
    HOLDS(accept_into(1, 10, 5000) == MARKRING_OK && brought(1, 6, 5000));
    for (int way = 0; way < 3; way++) {
        answer_head head;
        static const uint8_t kinds[2][2] = {{REQUEST_OPEN, REQUEST_OPEN_APART},
            {REQUEST_OPEN_LETTERS, REQUEST_OPEN_APART_LETTERS}};
        for (int apart = 0; apart < 2; apart++) {
            reader rest = open_with(kinds[0][apart], &head);
            HOLDS(head.count == 1 && rest.left == RESULT_BYTES);
            rest = open_with(kinds[1][apart], &head);
            HOLDS(head.count == 1 && rest.left == RESULT_BYTES + LETTER_HEAD + 5000);
            HOLDS(brought(1, 6, 5000));
        }
        if (way == 1) {
            // The next save is a whole value.
            pair[1].host->whole_due = 1;
            host_changed(pair[1].host);
            go_on(20, 10);
        }
        drop(&pair[1]);
        pair[1].nonce++;
        open_host(&pair[1]);
        settle(&pair[1], STORE_OK);
    }
    // The next request has none.
    answer_head head;
    (void)open_with(REQUEST_OPEN_LETTERS, &head);
    uint64_t session = pair[1].host->programs[3].now.session;
    HOLDS(perform_one(&pair[1], 3, session, (markring_event){.kind = MARKRING_EVENT_COPY})
        != MARKRING_OK);
    reader rest = open_with(REQUEST_OPEN_LETTERS, &head);
    HOLDS(rest.left == RESULT_BYTES);
    drop_pair();
}

// Several events of a request: each letter is that of its result. The rooms of all are limited.
TEST(test_several)
{
    static uint8_t bytes[REQUEST_BYTES];
    answer_head head = {0};
    make_wide_pair(10);
    for (uint32_t i = 0; i < 3; i++) {
        HOLDS(post(0, 1, 1, i, 100 * i) == MARKRING_OK);
    }
    go_on(20, 10);
    for (int way = 0; way < 2; way++) {
        writer to = writer_of(bytes, sizeof bytes);
        uint64_t next = pair[1].host->programs[3].now.number + 1;
        write_request_head(&to, &(request_head){REQUEST_PERFORM, 3, 103, next, 4});
        for (uint16_t i = 0; i < 4; i++) {
            // (the second one is another event)
            markring_event event = {.kind = MARKRING_REMOTE_ACCEPT_INTO, .reg = 10,
                .count = BYTES_MOST / 3 + (way == 0 && i == 3 ? 2 : 0)};
            write_event(&to, i == 1 ? &(markring_event){.kind = MARKRING_EVENT_WORD, .object = 1}
                                    : &event);
        }
        HOLDS(say(&pair[1], &to, &head));
        HOLDS(head.verdict == (way == 0 ? VERDICT_TOO_LONG : VERDICT_DONE));
    }
    reader behind = reader_of(pair[1].text + ANSWER_HEAD, pair[1].told - ANSWER_HEAD);
    letter_bytes found;
    (void)read_bytes(&behind, (size_t)4 * RESULT_BYTES);
    for (uint32_t i = 0; i < 3; i++) {
        HOLDS(read_letter(&behind, &found) && found.result == (i == 0 ? 0 : i + 1));
        HOLDS(found.length == 100 * i && memcmp(found.bytes, bytes_of(i, 100 * i), 100 * i) == 0);
    }
    HOLDS(behind.left == 0);
    drop_pair();
}

int main(void)
{
    folder_byte_limit = BYTE_LIMIT;
    run_tests();
    return report_checks();
}
