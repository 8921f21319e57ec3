// One host, whose packets, saves and time are the test's: what it does when the library, a peer or
// a folder isn't as it should be.
//
//     host_test
#include "station.h"

enum { LETTERS = 300, STARTS = LINE + 60 };

// ## Tests

// An image that hasn't the size that the library said: no attempt to save again.
TEST(test_sizes)
{
    for (int i = 0; i < 2; i++) {
        station at;
        make(&at, false);
        HOLDS(host_ended(at.host) == HOST_RUNS && host_counted(at.host)->saves == 1);
        wrong_size = i == 0 ? 1 : SIZE_MAX;
        host_changed(at.host);
        settle(&at, STORE_OK);
        wrong_size = 0;
        HOLDS(host_ended(at.host) == HOST_BROKEN);
        HOLDS(strstr(host_reason(at.host), "no image or batch") != NULL);
        HOLDS(host_counted(at.host)->failed_saves == 0);
        end(&at);
    }
}

// A host that leaves saves what it heard last of the others, also if saves fail at first.
TEST(test_leaving)
{
    for (int way = 0; way < 4; way++) {
        station at;
        make(&at, false);
        deliver(&at, (process){9, 5, 7}, NONCE, 11);
        settle(&at, STORE_OK);
        HOLDS(host_counted(at.host)->saves == 1);
        if (way == 1) {
            // A save is under way, without what comes now.
            host_changed(at.host);
            host_turn(at.host, at.now += 10);
            HOLDS(at.job != NULL);
            deliver(&at, (process){9, 5, 8}, NONCE, 11);
        }
        if (way == 2) {
            host_leave(at.host);
        }
        host_control(at.host, at.now, "stop", 4, "r");
        deliver(&at, (process){9, 5, 1000}, NONCE, 11);
        if (way == 1) {
            host_turn(at.host, at.now += 10);
            HOLDS(at.answers == 0 && host_ended(at.host) == HOST_RUNS);
            finish_save(&at, STORE_OK);
        }
        if (way == 3) {
            settle(&at, STORE_FAILED);
            HOLDS(at.answers == 0 && host_ended(at.host) == HOST_RUNS);
        }
        settle(&at, STORE_OK);
        HOLDS(at.answers == 1 && host_ended(at.host) == HOST_LEFT);
        drop(&at);
        open_host(&at);
        HOLDS(is_process(&at.host->peers[1].known, 9, 5, way == 1 ? 8 : 7));
        end(&at);
    }
    // Nothing new: no save.
    station at;
    make(&at, false);
    host_leave(at.host);
    settle(&at, STORE_OK);
    HOLDS(host_ended(at.host) == HOST_LEFT && host_counted(at.host)->saves == 1);
    end(&at);
}

// A packet that knows as many saves as there can be, of this process or of the sender's.
TEST(test_lies)
{
    for (int way = 0; way < 3; way++) {
        station at;
        options.trusts_folder = way > 0;
        make(&at, false);
        deliver(&at, (process){9, 5, UINT64_MAX}, NONCE, 11);
        HOLDS(host_ended(at.host) == HOST_RUNS);
        settle(&at, STORE_OK);
        deliver(&at, (process){9, 5, UINT64_MAX}, NONCE + 1, UINT64_MAX);
        HOLDS(host_ended(at.host) == (way > 0 ? HOST_RUNS : HOST_OLDER));
        HOLDS(way > 0 || strstr(host_reason(at.host), "node 1 knows save 18446744073709551615"));
        HOLDS(way > 0 || strstr(host_reason(at.host), "--trust-folder"));
        // Packets like this one aren't answered, which would go on for ever.
        settle(&at, STORE_OK);
        int packets = at.packets;
        deliver(&at, (process){9, 5, UINT64_MAX}, NONCE + 1, UINT64_MAX);
        settle(&at, STORE_OK);
        HOLDS(at.packets == packets);
        if (way > 0) {
            host_leave(at.host);
            settle(&at, STORE_OK);
            drop(&at);
            // What that node's next process says is believed again, if the old one is forgotten.
            options.trusts_folder = way == 2;
            open_host(&at);
            HOLDS(is_process(&at.host->peers[1].known, 0, 0, 0) == (way == 2));
            settle(&at, STORE_OK);
            deliver(&at, (process){10, 8, 8}, NONCE, 11);
            HOLDS(is_process(&at.host->peers[1].known, 10, 8, 8) == (way == 2));
            HOLDS(host_counted(at.host)->outdated == (way != 2));
        }
        end(&at);
    }
    options.trusts_folder = false;
}

// Which saves of a process make it the later one, and which end it: exactly.
TEST(test_ages)
{
    for (uint64_t known = 10; known <= 12; known++) {
        station at;
        make(&at, false);
        // It began with save 11.
        HOLDS(at.number == 11);
        deliver(&at, (process){9, 5, 7}, 0, known);
        HOLDS(host_ended(at.host) == HOST_RUNS);
        deliver(&at, (process){9, 5, 7}, NONCE + 1, known);
        HOLDS(host_ended(at.host) == (known >= 11 ? HOST_OLDER : HOST_RUNS));
        end(&at);
    }
    station at;
    make(&at, false);
    deliver(&at, (process){9, 5, 7}, NONCE, 11);
    settle(&at, STORE_OK);
    int packets = at.packets;
    deliver(&at, (process){10, 7, 8}, NONCE, 11);
    HOLDS(is_process(&at.host->peers[1].known, 9, 5, 7) && host_counted(at.host)->outdated == 1);
    settle(&at, STORE_OK);
    // That process is told of the later one.
    HOLDS(at.packets == packets + 1 && at.last.to == 1);
    HOLDS(at.last.known_nonce == 9 && at.last.known_saves == 7);
    deliver(&at, (process){11, 7, 8}, NONCE, 11);
    settle(&at, STORE_OK);
    HOLDS(at.packets == packets + 2 && host_counted(at.host)->outdated == 2);
    deliver(&at, (process){9, 5, 6}, NONCE, 11);
    HOLDS(is_process(&at.host->peers[1].known, 9, 5, 7));
    deliver(&at, (process){10, 8, 8}, NONCE, 11);
    HOLDS(is_process(&at.host->peers[1].known, 10, 8, 8) && host_counted(at.host)->outdated == 2);
    end(&at);
}

// A snapshot of a machine with its memory: another node knows saves that this process didn't make.
TEST(test_snapshots)
{
    for (uint64_t known = 11; known <= 13; known++) {
        station at;
        make(&at, false);
        host_changed(at.host);
        settle(&at, STORE_OK);
        HOLDS(at.number == 12);
        deliver(&at, (process){9, 5, 7}, NONCE, known);
        HOLDS(host_ended(at.host) == (known > 12 ? HOST_OLDER : HOST_RUNS));
        HOLDS(known <= 12 || strstr(host_reason(at.host), "this process hasn't made") != NULL);
        end(&at);
    }
    // Of two packets of one process, the one with fewer saves is late, or of a snapshot, which is
    // told.
    station at;
    make(&at, false);
    deliver(&at, (process){9, 5, 7}, NONCE, 11);
    settle(&at, STORE_OK);
    int packets = at.packets;
    deliver(&at, (process){9, 5, 7}, NONCE, 11);
    settle(&at, STORE_OK);
    HOLDS(at.packets == packets);
    deliver(&at, (process){9, 5, 6}, NONCE, 11);
    settle(&at, STORE_OK);
    HOLDS(at.packets == packets + 1 && at.last.to == 1 && at.last.known_saves == 7);
    end(&at);
}

// The nonces and the saves of the processes on one folder.
static struct {
    uint64_t nonce, run, last;
} ran[STARTS];
static int ran_count;

// Another process on this folder, which makes some saves.
static void start_again(station *at, int saves)
{
    drop(at);
    at->nonce++;
    open_host(at);
    ran[ran_count].nonce = at->nonce;
    ran[ran_count].run = at->number + 1;
    for (int i = 0; i < saves; i++) {
        host_changed(at->host);
        turn(at, 10, STORE_OK);
        turn(at, 10, STORE_OK);
    }
    ran[ran_count++].last = at->number;
}

// Whether the process goes on when node 1 says that it knows this. If not, it is opened again.
static bool accepts(station *at, uint64_t nonce, uint64_t save)
{
    deliver(at, (process){9, 5, 7}, nonce, save);
    if (host_ended(at->host) == HOST_RUNS) {
        return true;
    }
    HOLDS(host_ended(at->host) == HOST_OLDER && !options.trusts_folder);
    start_again(at, 1);
    return false;
}

// What another node may know of a folder that is the newest one is taken; everything else ends the
// process, as long as the folder knows all of its processes.
TEST(test_line)
{
    for (int way = 0; way < 2; way++) {
        station at;
        ran_count = 0;
        make_node(&at, 0, 3, way == 1);
        start_again(&at, 3);
        for (int i = 0; i < 6; i++) {
            start_again(&at, 1 + i % 3);
        }
        for (int i = 0; i < 7; i++) {
            for (uint64_t save = ran[0].run; save <= ran[6].last; save++) {
                bool is_own = save >= ran[i].run && save <= ran[i].last;
                HOLDS(accepts(&at, ran[i].nonce, save) == is_own);
                HOLDS(!accepts(&at, 5, save));
            }
            // The first process, and no process.
            HOLDS(accepts(&at, NONCE, ran[0].run - 1) && accepts(&at, 0, 0));
        }
        end(&at);
    }
}

// A folder with very many processes: no true word is refused, and those of the first processes and
// of the last ones are told from wrong ones.
TEST(test_long_line)
{
    station at;
    ran_count = 0;
    make_node(&at, 0, 3, true);
    for (int i = 0; i < LINE + 40; i++) {
        start_again(&at, 1 + (i % 50 == 0));
    }
    HOLDS(at.host->line_count <= LINE);
    for (int i = 0; i < LINE + 40; i++) {
        HOLDS(accepts(&at, ran[i].nonce, ran[i].run) && accepts(&at, ran[i].nonce, ran[i].last));
    }
    HOLDS(ran_count == LINE + 40);
    // What is forgotten is in the middle.
    HOLDS(accepts(&at, 5, ran[LINE / 2 + 10].run));
    HOLDS(!accepts(&at, 5, ran[0].run) && !accepts(&at, 5, ran[LINE / 4].run));
    HOLDS(!accepts(&at, ran[3].nonce, ran[4].run) && !accepts(&at, 5, ran[LINE].run));
    // Once all know the process that runs, nothing before it has to be known.
    HOLDS(at.host->line_count == LINE);
    for (uint8_t node = 1; node < 3; node++) {
        packet_head head = {0, node, 0, {node, 1, 1}, at.nonce, at.number, 0, 0, NO_WORD};
        deliver_head(&at, head);
        HOLDS(at.host->line_count == (node == 1 ? LINE : 2));
    }
    host_changed(at.host);
    settle(&at, STORE_OK);
    start_again(&at, 1);
    HOLDS(at.host->line_count == 3 && accepts(&at, 5, ran[0].run));
    end(&at);
}

// Another process of node 1 shows itself: nothing of it is taken before it says that it has heard
// what is known of that node, unless it is of an earlier version.
TEST(test_meeting)
{
    static const uint64_t fits[] = {NO_WORD, 9 ^ 6, 10 ^ 7, 9 ^ 7, 0};
    for (size_t i = 0; i < sizeof fits / sizeof *fits; i++) {
        station at;
        bool is_taken = i >= 3;
        make(&at, false);
        HOLDS(at.last.fits == NO_WORD);
        deliver(&at, (process){9, 5, 7}, NONCE, 11);
        settle(&at, STORE_OK);
        int packets = at.packets;
        deliver_head(&at, (packet_head){0, 1, 0, {20, 8, 9}, NONCE + 1, 10, 0, 0, fits[i]});
        HOLDS(is_process(&at.host->peers[1].known, 20, 8, 9) == is_taken);
        settle(&at, STORE_OK);
        HOLDS(at.packets == packets + 1 && at.last.to == 1);
        HOLDS(at.last.known_nonce == (is_taken ? 20 : 9));
        HOLDS(at.last.fits == ((NONCE + 1) ^ 10));
        // It says so, having heard that.
        deliver_head(&at, (packet_head){0, 1, 0, {20, 8, 9}, NONCE, 11, 0, 0, 9 ^ 7});
        HOLDS(is_process(&at.host->peers[1].known, 20, 8, 9));
        HOLDS(host_counted(at.host)->outdated == 0 && host_ended(at.host) == HOST_RUNS);
        end(&at);
    }
}

// A value with two entries, as a host of the first version saved it. A program was opened and made
// an object, and save 7 of a process of node 1 was heard of.
static const char *const OLD[] = {
    "036f6c64010203040506070800020000000000000000000000000000000000000000000000000000000000000000"
    "00000000000000000000000000000000000000000000000000000000000000006a4d520302000001000000020000"
    "00000000000000000000000000000000000000000000000000000000000000000000000000000000000000000000"
    "00000000000000000000000000000000000000000000000000000000000000000000000000000000000000000000"
    "00",
    "000000000000000000080000000000000000",
    "01010000000000000009000000000000000500000000000000070103000000000000006400000000000000010000"
    "00000000000100010000010000000000000000000000000000000000000000000000000000000000000000000000"
    "0000000001000000000000000c000000000000000401000001"};

static void write_hex(writer *to, const char *text)
{
    for (; text[0] != 0; text += 2) {
        char pair[3] = {text[0], text[1], 0};
        write_number(to, strtoul(pair, NULL, 16), 1);
    }
}

// What a host of the first version saved is opened, and saved again as a whole value.
TEST(test_old_folder)
{
    uint8_t bytes[1024] = {0};
    station at;
    memset(&at, 0, sizeof at);
    at.now = 1000;
    at.nonce = NONCE;
    at.number = 3;
    at.length = strlen(OLD[0]) / 2;
    writer to = writer_of(bytes, sizeof bytes);
    to.length = STORE_HEAD;
    write_hex(&to, OLD[0]);
    to.length += STORE_TAIL;
    for (uint64_t number = 2; number <= 3; number++) {
        write_number(&to, strlen(OLD[number - 1]) / 2, 8);
        write_number(&to, number, 8);
        write_hex(&to, OLD[number - 1]);
        to.length += STORE_TAIL;
    }
    at.stored = malloc(sizeof bytes);
    memcpy(at.stored, bytes, sizeof bytes);
    at.end = to.length;
    at.has_entries = true;
    for (int i = 0; i < 2; i++) {
        open_host(&at);
        HOLDS(is_process(&at.host->peers[1].known, 9, 5, 7));
        HOLDS(at.host->programs[3].now.number == 1 && at.host->programs[3].now.session == 100);
        HOLDS(at.host->programs[3].count == 1 && at.host->line_count == 2u + (unsigned)i);
        HOLDS(state_of(&at).live == 1);
        settle(&at, STORE_OK);
        HOLDS(at.end > STORE_HEAD + at.length + STORE_TAIL || i == 0);
        HOLDS(at.stored[STORE_HEAD] == 0x83);
        drop(&at);
        at.nonce++;
    }
    free(at.stored);
}

// A save that says that another process runs the node ends the host; nothing is answered.
TEST(test_taken_over)
{
    station at;
    make(&at, false);
    deliver(&at, (process){9, 5, 7}, NONCE, 11);
    host_control(at.host, at.now, "stop", 4, "r");
    settle(&at, STORE_TAKEN);
    HOLDS(host_ended(at.host) == HOST_OLDER && at.answers == 0);
    end(&at);
}

// Each node is told of a save within a second; of many saves, once a second; of none, never.
TEST(test_telling)
{
    station at;
    make_node(&at, 0, 3, false);
    turns(&at, 300, 10);
    int packets = at.packets;
    HOLDS(host_wait(at.host, at.now) > 1000000);
    turns(&at, 300, 10);
    HOLDS(at.packets == packets);
    host_changed(at.host);
    turn(&at, 10, STORE_OK);
    turn(&at, 10, STORE_OK);
    HOLDS(at.packets == packets && host_wait(at.host, at.now) <= 1000);
    turn(&at, 1000, STORE_OK);
    HOLDS(at.packets == packets + 2 && at.last.sender.saves == at.number);
    packets = at.packets;
    for (int i = 0; i < 1000; i++) {
        host_changed(at.host);
        turn(&at, 10, STORE_OK);
        turn(&at, 0, STORE_OK);
    }
    HOLDS(at.packets >= packets + 2 * 9 && at.packets <= packets + 2 * 11);
    // A process that leaves says to the others which save is the last.
    settle(&at, STORE_OK);
    packets = at.packets;
    host_changed(at.host);
    host_leave(at.host);
    settle(&at, STORE_OK);
    HOLDS(host_ended(at.host) == HOST_LEFT && at.packets == packets + 2);
    HOLDS(at.last.sender.saves == at.number);
    end(&at);
}

// ## Requests

// The request that is next is done, once, and no other one; nothing of a request that is cut.
TEST(test_requests)
{
    station at;
    answer_head head;
    make(&at, false);
    request_head request = {REQUEST_PERFORM, 3, 100, 1, 2};
    HOLDS(judge(&at, request, &head) == VERDICT_SUPERSEDED);
    HOLDS(judge(&at, (request_head){REQUEST_OPEN, 3, 0, 1, 0}, &head) == VERDICT_MALFORMED);
    HOLDS(ask(&at, (request_head){REQUEST_OPEN, 3, 100, 2, 0}, -1, &head) == 1);
    HOLDS(head.verdict == VERDICT_STALE && head.round == 0);
    HOLDS(ask(&at, (request_head){REQUEST_OPEN, 3, 100, 1, 0}, -1, &head) == 1);
    HOLDS(head.verdict == VERDICT_DONE && head.round == 1 && head.last == 0);
    int whole = REQUEST_HEAD + 2 * EVENT_BYTES;
    for (int length = 0; length <= whole + 1; length++) {
        if (length != whole) {
            int answers = ask(&at, request, length, &head);
            HOLDS(answers == (length >= REQUEST_HEAD));
            HOLDS(answers == 0 || head.verdict == VERDICT_MALFORMED);
        }
    }
    HOLDS(live(&at) == 0);
    for (uint64_t number = 0; number < 5; number++) {
        request.number = number;
        HOLDS(ask(&at, request, -1, &head) == 1);
        HOLDS(head.verdict == (number == 0 ? VERDICT_MALFORMED : VERDICT_DONE));
        HOLDS(head.last == number && head.count == (number == 0 ? 0 : 2));
        HOLDS(ask(&at, request, -1, &head) == 1 && head.count == (number == 0 ? 0 : 2));
        request.number = number + 2;
        HOLDS(judge(&at, request, &head) == VERDICT_AHEAD);
        HOLDS(live(&at) == 2 * number);
    }
    request.number = 3;
    HOLDS(judge(&at, request, &head) == VERDICT_STALE && live(&at) == 8);
    request_head reading = {REQUEST_READ, 3, 100, 1, 1};
    HOLDS(judge(&at, reading, &head) == VERDICT_DONE && head.count == 1);
    HOLDS(ask(&at, reading, REQUEST_HEAD + 1, &head) == 1 && head.verdict == VERDICT_MALFORMED);
    HOLDS(ask(&at, reading, REQUEST_HEAD, &head) == 1 && head.verdict == VERDICT_MALFORMED);
    HOLDS(judge(&at, (request_head){5, 3, 100, 1, 0}, &head) == VERDICT_MALFORMED);
    // One beyond each limit, and at it.
    HOLDS(ask(&at, (request_head){REQUEST_PERFORM, 3, 100, 5, 256}, -1, &head) == 1);
    HOLDS(head.verdict == VERDICT_DONE && head.count == 256 && live(&at) == 64);
    HOLDS(judge(&at, (request_head){REQUEST_OPEN, 63, 100, 1, 0}, &head) == VERDICT_DONE);
    HOLDS(judge(&at, (request_head){REQUEST_READ, 64, 100, 1, 1}, &head) == VERDICT_MALFORMED);
    HOLDS(judge(&at, (request_head){REQUEST_OPEN, 64, 100, 1, 0}, &head) == VERDICT_MALFORMED);
    HOLDS(ask(&at, (request_head){REQUEST_PERFORM, 3, 100, 6, 257}, -1, &head) == 1);
    HOLDS(head.verdict == VERDICT_MALFORMED && head.count == 0);
    HOLDS(head.last == 5);
    end(&at);
}

// What begins with no head of a request is dropped, and counted.
TEST(test_strangers)
{
    station at;
    make(&at, false);
    for (size_t i = 0; i < 4; i++) {
        uint8_t bytes[REQUEST_HEAD];
        writer to = writer_of(bytes, sizeof bytes);
        write_request_head(&to, &(request_head){REQUEST_OPEN, 3, 100, 1, 0});
        bytes[i] ^= 1;
        host_request(at.host, at.now, bytes, to.length, "r");
        settle(&at, STORE_OK);
        HOLDS(at.answers == 0 && host_counted(at.host)->foreign == i + 1);
    }
    end(&at);
}

// No answer comes before what it shows is stored, and one save is made at a time.
TEST(test_order)
{
    static const request_head requests[] = {{REQUEST_OPEN, 3, 100, 1, 0},
        {REQUEST_PERFORM, 3, 100, 1, 2}, {REQUEST_READ, 3, 100, 1, 0},
        {REQUEST_OPEN, 3, 200, 2, 0}, {REQUEST_PERFORM, 3, 200, 2, 1}};
    station at;
    make(&at, false);
    for (size_t i = 0; i < sizeof requests / sizeof *requests; i++) {
        at.answers = 0;
        host_changed(at.host);
        say_request(&at, requests[i], -1);
        host_turn(at.host, at.now += 10);
        int saves = at.saves;
        HOLDS(at.job != NULL && at.answers == 0);
        // What changes meanwhile is for the next save.
        host_changed(at.host);
        for (int k = 0; k < 3; k++) {
            host_turn(at.host, at.now += 1000);
        }
        HOLDS(at.answers == 0 && at.saves == saves);
        finish_save(&at, STORE_FAILED);
        host_turn(at.host, at.now += 10);
        HOLDS(at.answers == 0);
        settle(&at, STORE_OK);
        HOLDS(at.answers == 1);
    }
    end(&at);
}

// The last request was performed, and is stored. A process that has just opened the program asks
// for it again, and for what is freed. It is answered once its opening is stored: else a crash
// would take back that it speaks for the program, and that there was another round.
TEST(test_taken_over_program)
{
    for (int way = 0; way < 2; way++) {
        station at;
        answer_head head;
        make(&at, false);
        HOLDS(ask(&at, (request_head){REQUEST_OPEN, 3, 100, 1, 0}, -1, &head) == 1);
        HOLDS(ask(&at, (request_head){REQUEST_PERFORM, 3, 100, 1, 0}, -1, &head) == 1);
        at.answers = 0;
        say_request(&at, (request_head){REQUEST_OPEN, 3, 200, 2, 0}, -1);
        say_request(&at, (request_head){REQUEST_PERFORM, 3, 200, 1, 0}, -1);
        say_request(&at, (request_head){REQUEST_TRACK_FREED, 3, 200, 5, 1}, -1);
        host_turn(at.host, at.now += 10);
        HOLDS(at.answers == 0 && at.job != NULL);
        if (way == 0) {
            finish_save(&at, STORE_OK);
            settle(&at, STORE_OK);
            HOLDS(at.answers == 3);
        } else {
            at.job = NULL;
        }
        drop(&at);
        open_host(&at);
        HOLDS(at.host->programs[3].now.round == (way == 0 ? 2 : 1));
        HOLDS(at.host->programs[3].now.session == (way == 0 ? 200 : 100));
        end(&at);
    }
}

// The numbers of a program never begin again: after the greatest, nothing is next.
TEST(test_greatest_numbers)
{
    station at;
    answer_head head;
    make(&at, false);
    HOLDS(judge(&at, (request_head){REQUEST_OPEN, 3, 100, 1, 0}, &head) == VERDICT_DONE);
    at.host->programs[3].now.number = UINT64_MAX;
    HOLDS(judge(&at, (request_head){REQUEST_PERFORM, 3, 100, 1, 0}, &head) == VERDICT_STALE);
    HOLDS(ask(&at, (request_head){REQUEST_PERFORM, 3, 100, UINT64_MAX, 0}, -1, &head) == 1);
    HOLDS(head.verdict == VERDICT_DONE && head.last == UINT64_MAX);
    HOLDS(judge(&at, (request_head){REQUEST_PERFORM, 3, 100, 0, 0}, &head) == VERDICT_MALFORMED);
    at.host->programs[3].now.round = UINT64_MAX;
    for (uint64_t number = 0; number < 2; number++) {
        HOLDS(ask(&at, (request_head){REQUEST_OPEN, 3, 200, number, 0}, -1, &head) == 1);
        HOLDS(head.verdict == VERDICT_STALE && head.round == UINT64_MAX);
    }
    HOLDS(at.host->programs[3].now.session == 100);
    end(&at);
}

// The next process knows what was done, from whole values and from entries: programs, and objects.
TEST(test_restarts)
{
    for (int way = 0; way < 2; way++) {
        station at;
        answer_head head;
        make(&at, way == 1);
        HOLDS(ask(&at, (request_head){REQUEST_OPEN, 3, 100, 1, 0}, -1, &head) == 1);
        for (uint64_t number = 1; number <= 3; number++) {
            request_head request = {REQUEST_PERFORM, 3, 100, number, 2};
            HOLDS(judge(&at, request, &head) == VERDICT_DONE);
            if (number % 2 == 1) {
                open_again(&at);
            }
            HOLDS(live(&at) == 2 * number);
            HOLDS(ask(&at, request, -1, &head) == 1 && head.count == 2 && head.last == number);
            HOLDS(live(&at) == 2 * number);
        }
        HOLDS((at.end > STORE_HEAD + at.length + STORE_TAIL) == (way == 1));
        HOLDS(ask(&at, (request_head){REQUEST_OPEN, 3, 200, 2, 0}, -1, &head) == 1);
        HOLDS(head.verdict == VERDICT_DONE && head.last == 3 && head.round == 2);
        // The opening lasts, too.
        open_again(&at);
        HOLDS(ask(&at, (request_head){REQUEST_PERFORM, 3, 100, 4, 2}, -1, &head) == 1);
        HOLDS(head.verdict == VERDICT_SUPERSEDED && head.round == 2);
        HOLDS(ask(&at, (request_head){REQUEST_PERFORM, 3, 200, 4, 2}, -1, &head) == 1);
        HOLDS(head.verdict == VERDICT_DONE && live(&at) == 8);
        end(&at);
    }
}

// More answers than a host keeps wait for a save: the others are lost, and the first ones come.
TEST(test_held)
{
    station at;
    make(&at, false);
    host_changed(at.host);
    host_turn(at.host, at.now += 10);
    HOLDS(at.job != NULL);
    for (uint64_t number = 1; number <= HELD_ANSWERS + 100; number++) {
        say_request(&at, (request_head){REQUEST_READ, 3, 100, number, 0}, -1);
    }
    HOLDS(at.answers == 0 && host_counted(at.host)->dropped == 100);
    finish_save(&at, STORE_OK);
    settle(&at, STORE_OK);
    HOLDS(at.answers == HELD_ANSWERS);
    end(&at);
}

// ## Programs with registers for themselves

// What a program reads in a register.
static int read_one(station *at, uint8_t number, uint16_t reg)
{
    uint8_t bytes[REQUEST_HEAD + 2];
    writer to = writer_of(bytes, sizeof bytes);
    answer_head head = {0};
    write_request_head(&to, &(request_head){REQUEST_READ, number, 1, 1, 1});
    write_number(&to, reg, 2);
    HOLDS(say(at, &to, &head) && head.verdict == VERDICT_DONE);
    reader from = reader_of(at->text + ANSWER_HEAD, RESULT_BYTES);
    markring_result found;
    read_result(&from, &found);
    return found.status;
}

// Program 3 has the registers 2 and 3. No event of it uses another one, nor do those of program 4
// use these.
static void expect_apart(station *at)
{
    static const char *const uses[MARKRING_REMOTE_PATCH + 1] = {"", "r", "rs", "r", "ro", "ro", "o",
        "o", "o", "r", "r", "ro", "o", [MARKRING_REMOTE_SET_BYTES] = "o",
        [MARKRING_REMOTE_PATCH] = "o"};
    for (uint8_t kind = MARKRING_EVENT_ALLOC; kind <= MARKRING_REMOTE_PATCH;
         kind = kind == MARKRING_EVENT_BEGIN ? MARKRING_REMOTE_SET_BYTES : kind + 1) {
        for (const char *field = "rso"; *field != 0; field++) {
            for (int way = 0; way < 2; way++) {
                uint8_t program = way == 0 ? 3 : 4;
                uint16_t own = way == 0 ? 3 : 4, other = way == 0 ? 4 : 3;
                markring_event event = {.kind = kind, .reg = *field == 'r' ? other : own,
                    .source = *field == 's' ? other : own, .object = *field == 'o' ? other : own};
                int status = perform_one(at, program, 100u + program, event);
                // (No program has the events of the collector.)
                HOLDS((status == MARKRING_BAD_ARGUMENT) == (uses[kind] == NULL));
                HOLDS((status == MARKRING_NO_REGISTER)
                    == (uses[kind] != NULL && strchr(uses[kind], *field) != NULL));
            }
        }
    }
    for (uint16_t reg = 0; reg < 10; reg++) {
        bool is_own = reg == 2 || reg == 3;
        HOLDS((read_one(at, 3, reg) == MARKRING_NO_REGISTER) == !is_own);
        HOLDS((read_one(at, 4, reg) == MARKRING_NO_REGISTER) == (is_own || reg >= 8));
    }
}

TEST(test_apart)
{
    for (int way = 0; way < 2; way++) {
        station at;
        answer_head head;
        make(&at, way == 1);
        HOLDS(open_apart(&at, 3, 103, 7, 2) == VERDICT_REGISTERS);
        HOLDS(open_apart(&at, 3, 103, 65535, 65535) == VERDICT_REGISTERS);
        HOLDS(open_apart(&at, 3, 103, 2, 0) == VERDICT_MALFORMED);
        HOLDS(open_apart(&at, 3, 103, 2, 2) == VERDICT_DONE);
        request_head cut = {REQUEST_OPEN_APART, 5, 105, 1, 0};
        HOLDS(judge(&at, cut, &head) == VERDICT_MALFORMED);
        HOLDS(ask(&at, cut, REQUEST_HEAD + 5, &head) == 1 && head.verdict == VERDICT_MALFORMED);
        // Those that overlap, and those that don't.
        for (uint8_t first = 1; first < 7; first++) {
            bool is_free = first == 4 || first == 6;
            int said = open_apart(&at, (uint8_t)(10 + first), 7, first, 2);
            HOLDS(said == (is_free ? VERDICT_DONE : VERDICT_REGISTERS));
        }
        HOLDS(open_apart(&at, 20, 7, 0, 2) == VERDICT_DONE);
        HOLDS(judge(&at, (request_head){REQUEST_OPEN, 4, 104, 1, 0}, &head) == VERDICT_DONE);
        HOLDS(open_apart(&at, 4, 204, 6, 1) == VERDICT_REGISTERS && read_one(&at, 4, 6) != 0);
        end(&at);
    }
}

TEST(test_forgetting)
{
    for (int way = 0; way < 2; way++) {
        station at;
        answer_head head;
        markring_event alloc = {.kind = MARKRING_EVENT_ALLOC, .reg = 2, .place = 1};
        make(&at, way == 1);
        HOLDS(open_apart(&at, 3, 103, 2, 2) == VERDICT_DONE);
        HOLDS(ask(&at, (request_head){REQUEST_OPEN, 4, 104, 1, 0}, -1, &head) == 1);
        expect_apart(&at);
        // Its next process may say so again, or nothing.
        HOLDS(open_apart(&at, 3, 203, 2, 1) == VERDICT_REGISTERS);
        HOLDS(open_apart(&at, 3, 203, 2, 2) == VERDICT_DONE);
        HOLDS(judge(&at, (request_head){REQUEST_OPEN, 3, 103, 3, 0}, &head) == VERDICT_DONE);
        open_again(&at);
        expect_apart(&at);
        HOLDS(perform_one(&at, 3, 103, alloc) == MARKRING_OK);
        HOLDS(perform_one(&at, 4, 104, (markring_event){.kind = 1, .reg = 7}) == MARKRING_OK);
        // The answer to the operator comes once that is stored.
        static const char *const others[] = {"forget", "forget ", "forget 4", "forget 64",
            "forget 3x", "forget 03x", "forget -3", "forget 99"};
        for (size_t i = 0; i < sizeof others / sizeof *others; i++) {
            host_control(at.host, at.now, others[i], strlen(others[i]), "r");
            HOLDS(at.told > 10 && memcmp(at.text, "{\"error\"", 8) == 0);
        }
        HOLDS(read_one(&at, 3, 2) == MARKRING_OK);
        at.answers = 0;
        // (whoever waits for its last answer isn't answered for nobody)
        uint64_t last = at.host->programs[3].now.number;
        say_request(&at, (request_head){REQUEST_PERFORM, 3, 103, last, 0}, -1);
        host_control(at.host, at.now, "forget 3", 8, "r");
        HOLDS(at.answers == 0);
        settle(&at, STORE_OK);
        HOLDS(at.answers == 1 && memcmp(at.text, "{\"forgotten\": 3", 15) == 0);
        HOLDS(read_one(&at, 3, 2) == MARKRING_NOTHING && read_one(&at, 4, 7) == MARKRING_OK);
        open_again(&at);
        HOLDS(read_one(&at, 3, 2) == MARKRING_NOTHING);
        HOLDS(perform_one(&at, 3, 103, alloc) == -1 - VERDICT_SUPERSEDED);
        HOLDS(open_apart(&at, 3, 303, 2, 2) == VERDICT_DONE);
        HOLDS(perform_one(&at, 3, 303, alloc) == MARKRING_OK);
        end(&at);
    }
}

static unsigned long long image_of(station *at)
{
    return number_of(at, "image");
}

// ## Wide spaces

static void make_wide(station *at, uint16_t count, uint32_t bytes, bool has_entries)
{
    next = (host_shape){.slots = 16777216, .registers = count, .places = 255, .bytes = bytes};
    make(at, has_entries);
}

// Two programs have all registers. One has an object with the most places in its last one, and
// still after a restart.
TEST(test_wide)
{
    for (int way = 0; way < 2; way++) {
        station at;
        markring_event alloc = {.kind = MARKRING_EVENT_ALLOC, .reg = 65534, .place = 255};
        markring_event store = {
            .kind = MARKRING_EVENT_STORE, .reg = 65534, .object = 65534, .place = 254};
        markring_event load = {
            .kind = MARKRING_EVENT_LOAD, .reg = 65533, .object = 65534, .place = 254};
        markring_event beyond = load, other = alloc, last = alloc;
        beyond.place = 255;
        other.reg = 65532;
        last.reg = 65535;
        make_wide(&at, 65535, 0, way == 1);
        HOLDS(open_apart(&at, 3, 103, 65534, 2) == VERDICT_REGISTERS);
        HOLDS(open_apart(&at, 3, 103, 65535, 1) == VERDICT_REGISTERS);
        HOLDS(open_apart(&at, 3, 103, 65533, 2) == VERDICT_DONE);
        HOLDS(open_apart(&at, 4, 104, 0, 65534) == VERDICT_REGISTERS);
        HOLDS(open_apart(&at, 4, 104, 0, 65533) == VERDICT_DONE);
        HOLDS(perform_one(&at, 3, 103, alloc) == MARKRING_OK);
        HOLDS(perform_one(&at, 3, 103, store) == MARKRING_OK);
        HOLDS(perform_one(&at, 4, 104, other) == MARKRING_OK);
        for (int i = 0; i < 2; i++) {
            HOLDS(perform_one(&at, 3, 103, load) == MARKRING_OK);
            HOLDS(perform_one(&at, 3, 103, beyond) == MARKRING_NO_FIELD);
            HOLDS(perform_one(&at, 3, 103, other) == MARKRING_NO_REGISTER);
            HOLDS(perform_one(&at, 3, 103, last) == MARKRING_NO_REGISTER);
            HOLDS(read_one(&at, 3, 65534) == MARKRING_OK);
            HOLDS(read_one(&at, 3, 65535) == MARKRING_NO_REGISTER);
            HOLDS(read_one(&at, 3, 65532) == MARKRING_NO_REGISTER);
            HOLDS(read_one(&at, 4, 65532) == MARKRING_OK);
            HOLDS(read_one(&at, 4, 65533) == MARKRING_NO_REGISTER);
            HOLDS(number_of(&at, "registers") == 65535 && number_of(&at, "slots") == 16777216);
            HOLDS(number_of(&at, "places") == 255 && number_of(&at, "wide") == 1);
            open_again(&at);
        }
        host_control(at.host, at.now, "forget 4", 8, "r");
        settle(&at, STORE_OK);
        at.text[at.told] = 0;
        HOLDS(strstr((const char *)at.text, "\"registers\": 65533}") != NULL);
        HOLDS(read_one(&at, 4, 65532) == MARKRING_NOTHING && read_one(&at, 3, 65534) == MARKRING_OK);
        end(&at);
    }
    station plain;
    make(&plain, true);
    HOLDS(number_of(&plain, "places") == 8 && number_of(&plain, "wide") == 0);
    end(&plain);
}

// The image hasn't more bytes than the host reckons.
static void expect_bound(station *at)
{
    size_t size = 0;
    HOLDS(__real_markring_node_image_size(host_node(at->host), &size) == MARKRING_OK);
    HOLDS(at->host->size >= size);
}

// A letter of node 1 with a reference to an object there, which goes into a place.
static void fill_place(station *at, uint32_t number, uint16_t object, uint8_t place)
{
    uint8_t frame[38];
    markring_answer answer;
    markring_node *node = host_node(at->host);
    writer to = writer_of(frame, sizeof frame);
    write_number(&to, 0x450100, 3);
    write_number(&to, number, 8);
    write_number(&to, 0, 8);
    write_number(&to, 4, 1);
    write_number(&to, number, 4);
    write_number(&to, 0x0101, 2);
    write_number(&to, number, 4);
    write_number(&to, 1, 8);
    HOLDS(to.ok && to.length == sizeof frame);
    HOLDS(markring_node_take(node, frame, sizeof frame, &answer) == MARKRING_OK);
    HOLDS(markring_node_accept(node, 0, &answer) == MARKRING_OK);
    HOLDS(markring_node_store(node, object, place, 0, &answer) == MARKRING_OK);
    host_changed(at->host);
}

// Objects with the most places: as they are made, and as they are scanned, when each place asks
// another node to mark.
TEST(test_wide_growth)
{
    enum { OBJECTS = 20 };
    station at;
    uint32_t number = 0;
    make_wide(&at, OBJECTS + 1, 0, true);
    HOLDS(open_apart(&at, 3, 103, 1, OBJECTS) == VERDICT_DONE);
    for (uint16_t i = 0; i < OBJECTS; i++) {
        markring_event alloc = {
            .kind = MARKRING_EVENT_ALLOC, .reg = (uint16_t)(1 + i), .place = 255};
        HOLDS(perform_one(&at, 3, 103, alloc) == MARKRING_OK);
        expect_bound(&at);
    }
    for (uint16_t object = 1; object <= OBJECTS; object++) {
        for (int place = 0; place < 255; place++) {
            fill_place(&at, ++number, object, (uint8_t)place);
        }
        turn(&at, 10, STORE_OK);
        expect_bound(&at);
    }
    // From here on the host knows the size.
    open_again(&at);
    host_control(at.host, at.now, "begin", 5, "r");
    for (int i = 0; i < 10; i++) {
        turn(&at, 10, STORE_OK);
        expect_bound(&at);
    }
    markring_link link = {0};
    HOLDS(markring_node_link(host_node(at.host), 1, &link) == MARKRING_OK);
    HOLDS(link.appended > OBJECTS * 255);
    end(&at);
}

// ## Bytes of objects

// The answer to a reading of bytes. Returns the verdict, and in `*found` the result.
static int read_object(station *at, uint8_t number, uint16_t object, uint32_t offset,
    uint32_t count, markring_result *found)
{
    uint8_t bytes[REQUEST_HEAD + READ_BYTES];
    writer to = writer_of(bytes, sizeof bytes);
    answer_head head = {0};
    write_request_head(&to, &(request_head){REQUEST_READ_BYTES, number, 1, 1, 1});
    write_number(&to, object, 2);
    write_number(&to, offset, 4);
    write_number(&to, count, 4);
    HOLDS(say(at, &to, &head) && head.kind == REQUEST_READ_BYTES);
    reader from = reader_of(at->text + ANSWER_HEAD, at->told - ANSWER_HEAD);
    HOLDS(head.count == (head.verdict == VERDICT_DONE));
    if (head.count == 1) {
        read_result(&from, found);
        HOLDS(from.ok && from.left == (found->status == MARKRING_OK ? count : 0));
        HOLDS(found->status == MARKRING_OK || found->answer.number == 0);
    }
    return head.verdict;
}

static int patch(station *at, uint16_t object, uint32_t offset, uint32_t kind, uint32_t length)
{
    markring_remote_event event = {
        {.kind = MARKRING_REMOTE_PATCH, .object = object, .count = offset}, bytes_of(kind, length),
        length};
    return perform_bytes(at, 3, 103, &event);
}

// What reading gives, if the verdict is that it is done.
static int status_of_reading(station *at, uint16_t object, uint32_t offset, uint32_t count)
{
    markring_result found = {0};
    HOLDS(read_object(at, 3, object, offset, count, &found) == VERDICT_DONE);
    return found.status;
}

// Whether the object has these bytes, and no more: `patched` of another kind from `offset` on.
static bool has(station *at, uint16_t object, uint32_t kind, uint32_t length, uint32_t offset,
    uint32_t other, uint32_t patched)
{
    markring_result found = {0};
    bool all = read_object(at, 3, object, 0, length, &found) == VERDICT_DONE
        && found.status == MARKRING_OK && found.answer.number == length;
    const uint8_t *bytes = at->text + ANSWER_HEAD + RESULT_BYTES;
    for (uint32_t i = 0; i < length && all; i++) {
        bool is_patched = i >= offset && i - offset < patched;
        all = bytes[i] == (is_patched ? byte_of(other, i - offset) : byte_of(kind, i));
    }
    return all;
}

// A wide space whose objects have up to `most` bytes. Program 3 has the registers 1 to 4, and an
// object in register 1.
static void make_with_bytes(station *at, uint32_t most, bool has_entries)
{
    make_wide(at, 6, most, has_entries);
    HOLDS(open_apart(at, 3, 103, 1, 4) == VERDICT_DONE);
    markring_event alloc = {.kind = MARKRING_EVENT_ALLOC, .reg = 1, .place = 1};
    HOLDS(perform_one(at, 3, 103, alloc) == MARKRING_OK);
}

// Parts of the bytes of the object in register 1.
static void expect_ranges(station *at, uint32_t kind, uint32_t length)
{
    const uint8_t *bytes = at->text + ANSWER_HEAD + RESULT_BYTES;
    for (uint32_t offset = 0; offset < length; offset += 1 + length / 7) {
        uint32_t count = (length - offset) / 2;
        HOLDS(status_of_reading(at, 1, offset, count) == MARKRING_OK);
        for (uint32_t i = 0; i < count; i++) {
            HOLDS(bytes[i] == byte_of(kind, offset + i));
        }
    }
}

// Bytes are set, patched and read; those that are refused change nothing; all is there after
// restarts, also from entries.
TEST(test_bytes)
{
    enum { MOST = 1000 };
    for (int way = 0; way < 2; way++) {
        station at;
        make_with_bytes(&at, MOST, way == 1);
        HOLDS(number_of(&at, "bytes") == MOST);
        HOLDS(has(&at, 1, 0, 0, 0, 0, 0) && status_of_reading(&at, 1, 0, 1) == MARKRING_NO_BYTES);
        for (uint32_t length = 0; length <= MOST; length += 250) {
            HOLDS(set_bytes(&at, 1, 5 + length, length) == MARKRING_OK);
            HOLDS(has(&at, 1, 5 + length, length, 0, 0, 0));
            HOLDS(set_bytes(&at, 1, 9, MOST + 1) == MARKRING_TOO_MANY_BYTES);
            expect_ranges(&at, 5 + length, length);
            for (uint32_t offset = 0; offset <= length + 1; offset += 1 + length / 3) {
                uint32_t room = offset <= length ? length - offset : 0;
                HOLDS(patch(&at, 1, offset, 8, room + 1) == MARKRING_NO_BYTES);
                HOLDS(status_of_reading(&at, 1, offset, room + 1) == MARKRING_NO_BYTES);
                HOLDS(status_of_reading(&at, 1, offset, room)
                    == (offset <= length ? MARKRING_OK : MARKRING_NO_BYTES));
            }
            HOLDS(status_of_reading(&at, 1, UINT32_MAX, 1) == MARKRING_NO_BYTES);
            HOLDS(status_of_reading(&at, 1, 1, BYTES_MOST) == MARKRING_NO_BYTES);
            open_again(&at);
            HOLDS(has(&at, 1, 5 + length, length, 0, 0, 0));
        }
        HOLDS(patch(&at, 1, 900, 77, 100) == MARKRING_OK && has(&at, 1, 1005, MOST, 900, 77, 100));
        open_again(&at);
        HOLDS(has(&at, 1, 1005, MOST, 900, 77, 100));
        HOLDS((at.end > STORE_HEAD + at.length + STORE_TAIL) == (way == 1));
        end(&at);
    }
}

// Whose bytes a program reads and writes, and in which kind of space.
TEST(test_byte_refusals)
{
    station at;
    markring_answer answer;
    make_with_bytes(&at, 10, false);
    markring_node *node = host_node(at.host);
    fill_place(&at, 1, 1, 0);
    HOLDS(markring_node_load(node, 3, 1, 0, &answer) == MARKRING_OK);
    static const struct {
        uint16_t object;
        int status;
    } cases[] = {{0, MARKRING_NO_REGISTER}, {5, MARKRING_NO_REGISTER}, {6, MARKRING_NO_REGISTER},
        {65535, MARKRING_NO_REGISTER}, {2, MARKRING_EMPTY_REGISTER}, {3, MARKRING_REMOTE},
        {1, MARKRING_OK}};
    for (size_t i = 0; i < sizeof cases / sizeof *cases; i++) {
        HOLDS(set_bytes(&at, cases[i].object, 1, 10) == cases[i].status);
        HOLDS(patch(&at, cases[i].object, 2, 1, 8) == cases[i].status);
        HOLDS(status_of_reading(&at, cases[i].object, 0, 0) == cases[i].status);
    }
    end(&at);
    make(&at, false);
    HOLDS(open_apart(&at, 3, 103, 1, 4) == VERDICT_DONE);
    HOLDS(perform_one(&at, 3, 103, (markring_event){.kind = MARKRING_EVENT_ALLOC, .reg = 1})
        == MARKRING_OK);
    HOLDS(set_bytes(&at, 1, 1, 1) == MARKRING_TOO_MANY_BYTES && number_of(&at, "bytes") == 0);
    HOLDS(patch(&at, 1, 0, 1, 1) == MARKRING_NO_BYTES && has(&at, 1, 0, 0, 0, 0, 0));
    end(&at);
}

// Writes a request with three events, of which two have 5 and 3 bytes.
static size_t write_three(uint8_t *bytes, size_t room, uint64_t number, uint32_t first)
{
    writer to = writer_of(bytes, room);
    write_request_head(&to, &(request_head){REQUEST_PERFORM, 3, 103, number, 3});
    markring_remote_event events[3] = {
        {{.kind = MARKRING_REMOTE_SET_BYTES, .object = 1}, bytes_of(first, 5), 5},
        {{.kind = MARKRING_EVENT_ALLOC, .reg = 2, .place = 1}, NULL, 0},
        {{.kind = MARKRING_REMOTE_PATCH, .object = 1, .count = 1}, bytes_of(first + 50, 3), 3}};
    for (int i = 0; i < 3; i++) {
        write_remote_event(&to, &events[i]);
    }
    HOLDS(to.ok);
    return to.length;
}

// What a host says to these bytes.
static int judge_bytes(station *at, uint8_t *bytes, size_t length)
{
    answer_head head = {0};
    writer to = {bytes, length, length, true};
    bool is_answered = say(at, &to, &head);
    HOLDS(is_answered == (length >= REQUEST_HEAD));
    return is_answered ? head.verdict : -1;
}

// Nothing of a request is done if any length in it is wrong, and what is done is done once.
TEST(test_byte_requests)
{
    enum { SECOND = REQUEST_HEAD + 2 * EVENT_BYTES + 9, WHOLE = SECOND + EVENT_BYTES + 7 };
    static const size_t lengths[2] = {REQUEST_HEAD + EVENT_BYTES, SECOND + EVENT_BYTES};
    uint8_t bytes[WHOLE + 1] = {0};
    station at;
    make_with_bytes(&at, 10, true);
    HOLDS(write_three(bytes, WHOLE, 2, 20) == WHOLE);
    for (size_t length = 0; length <= sizeof bytes; length++) {
        int said = length != WHOLE ? judge_bytes(&at, bytes, length) : VERDICT_MALFORMED;
        HOLDS(said == (length < REQUEST_HEAD ? -1 : VERDICT_MALFORMED));
    }
    for (int i = 0; i < 2; i++) {
        for (uint64_t by = 1; by < UINT32_MAX; by = 3 * by + 1) {
            for (int sign = -1; sign <= 1; sign += 2) {
                reader from = reader_of(bytes + lengths[i], 4);
                uint64_t right = read_number(&from, 4);
                writer to = writer_of(bytes + lengths[i], 4);
                write_number(&to, sign < 0 ? right - by : right + by, 4);
                HOLDS(judge_bytes(&at, bytes, WHOLE) == VERDICT_MALFORMED);
                to = writer_of(bytes + lengths[i], 4);
                write_number(&to, right, 4);
            }
        }
    }
    HOLDS(live(&at) == 1 && has(&at, 1, 0, 0, 0, 0, 0));
    for (int i = 0; i < 3; i++) {
        HOLDS(judge_bytes(&at, bytes, WHOLE) == VERDICT_DONE && at.host->programs[3].count == 3);
        HOLDS(live(&at) == 2 && has(&at, 1, 20, 5, 1, 70, 3));
        open_again(&at);
    }
    // And the next one.
    HOLDS(write_three(bytes, WHOLE, 3, 30) == WHOLE);
    HOLDS(judge_bytes(&at, bytes, WHOLE) == VERDICT_DONE && has(&at, 1, 30, 5, 1, 80, 3));
    end(&at);
}

// The same of readings.
TEST(test_cut_readings)
{
    uint8_t bytes[REQUEST_HEAD + READ_BYTES + 1] = {0};
    station at;
    make_with_bytes(&at, 10, true);
    for (uint16_t count = 0; count < 3; count++) {
        for (size_t length = REQUEST_HEAD; length <= sizeof bytes; length++) {
            writer to = writer_of(bytes, sizeof bytes);
            write_request_head(&to, &(request_head){REQUEST_READ_BYTES, 3, 103, 7, count});
            write_number(&to, 1, 2);
            bool is_right = count == 1 && length == REQUEST_HEAD + READ_BYTES;
            int said = judge_bytes(&at, bytes, length);
            HOLDS(said == (is_right ? VERDICT_DONE : VERDICT_MALFORMED));
        }
    }
    end(&at);
}

// The most bytes that a request and an answer carry, and one more.
TEST(test_most_bytes)
{
    static uint8_t bytes[LONGEST_REQUEST + 64];
    station at;
    markring_result found = {0};
    make_with_bytes(&at, 2 * BYTES_MOST, true);
    HOLDS(set_bytes(&at, 1, 3, BYTES_MOST + 1) == -1 - VERDICT_TOO_LONG);
    HOLDS(has(&at, 1, 0, 0, 0, 0, 0) && set_bytes(&at, 1, 3, BYTES_MOST) == MARKRING_OK);
    HOLDS(has(&at, 1, 3, BYTES_MOST, 0, 0, 0));
    // Two events share them.
    for (uint32_t more = 0; more < 2; more++) {
        writer to = writer_of(bytes, sizeof bytes);
        write_request_head(&to, &(request_head){REQUEST_PERFORM, 3, 103, 3 + more, 2});
        for (uint32_t i = 0; i < 2; i++) {
            write_remote_event(&to,
                &(markring_remote_event){{.kind = MARKRING_REMOTE_PATCH, .object = 1},
                    bytes_of(40 + more, BYTES_MOST), BYTES_MOST / 2 + more * i});
        }
        int said = more ? VERDICT_TOO_LONG : VERDICT_DONE;
        HOLDS(to.ok && judge_bytes(&at, bytes, to.length) == said);
    }
    HOLDS(has(&at, 1, 3, BYTES_MOST, 0, 40, BYTES_MOST / 2));
    HOLDS(read_object(&at, 3, 1, 0, BYTES_MOST + 1, &found) == VERDICT_TOO_LONG);
    HOLDS(read_object(&at, 3, 1, 0, UINT32_MAX, &found) == VERDICT_TOO_LONG);
    // No block is as large as a program says that something is.
    HOLDS(set_bytes(&at, 1, 3, 10) == MARKRING_OK);
    settle(&at, STORE_OK);
    largest = 0;
    HOLDS(status_of_reading(&at, 1, 0, BYTES_MOST) == MARKRING_NO_BYTES && largest < 1000);
    end(&at);
}

// No answer shows bytes before they are stored; and a process that ends before takes them along.
TEST(test_bytes_wait)
{
    station at;
    uint8_t bytes[REQUEST_HEAD + READ_BYTES];
    make_with_bytes(&at, 10, false);
    HOLDS(set_bytes(&at, 1, 1, 10) == MARKRING_OK);
    writer to = writer_of(bytes, sizeof bytes);
    write_request_head(&to, &(request_head){REQUEST_READ_BYTES, 3, 103, 9, 1});
    write_number(&to, 1, 2);
    write_number(&to, 0, 4);
    write_number(&to, 10, 4);
    for (int way = 0; way < 2; way++) {
        markring_answer answer;
        at.answers = 0;
        HOLDS(markring_node_set_bytes(host_node(at.host), 1, bytes_of(2, 10), 10, &answer)
            == MARKRING_OK);
        host_changed(at.host);
        host_request(at.host, at.now, bytes, to.length, "r");
        host_turn(at.host, at.now += 10);
        HOLDS(at.job != NULL && at.answers == 0);
        if (way == 0) {
            at.job = NULL;
            open_again(&at);
            HOLDS(at.answers == 0 && has(&at, 1, 1, 10, 0, 0, 0));
        } else {
            finish_save(&at, STORE_FAILED);
            host_turn(at.host, at.now += 10);
            HOLDS(at.answers == 0);
            settle(&at, STORE_OK);
            HOLDS(at.answers == 1 && at.told == ANSWER_HEAD + RESULT_BYTES + 10);
            HOLDS(has(&at, 1, 2, 10, 0, 0, 0));
        }
    }
    end(&at);
}

// Answers with bytes that wait for a save have a limit of their own.
TEST(test_held_bytes)
{
    enum { LENGTH = 500000, ANSWER = ANSWER_HEAD + RESULT_BYTES + LENGTH };
    station at;
    uint8_t bytes[REQUEST_HEAD + READ_BYTES];
    make_with_bytes(&at, LENGTH, false);
    for (int way = 0; way < 2; way++) {
        HOLDS(set_bytes(&at, 1, 1, LENGTH) == MARKRING_OK);
        uint64_t dropped = host_counted(at.host)->dropped;
        host_changed(at.host);
        host_turn(at.host, at.now += 10);
        for (int i = 0; i < 100; i++) {
            writer to = writer_of(bytes, sizeof bytes);
            write_request_head(&to, &(request_head){REQUEST_READ_BYTES, 3, 103, 9, 1});
            write_number(&to, 1, 2);
            write_number(&to, 0, 4);
            write_number(&to, LENGTH, 4);
            host_request(at.host, at.now, bytes, to.length, "r");
        }
        at.answers = 0;
        finish_save(&at, STORE_OK);
        settle(&at, STORE_OK);
        HOLDS(at.answers == HELD_BYTES / ANSWER);
        HOLDS(host_counted(at.host)->dropped == dropped + 100 - HELD_BYTES / ANSWER);
    }
    end(&at);
}

// The host reckons with the bytes of objects: the image is never larger, programs can't fill it
// beyond its limit, and once they are gone it is small again.
TEST(test_bytes_growth)
{
    enum { LENGTH = 3000, MOST = 20000 };
    station at;
    int refused = 0;
    options.image_most = MOST;
    make_with_bytes(&at, LENGTH, true);
    markring_event alloc = {.kind = MARKRING_EVENT_ALLOC, .reg = 2, .place = 1};
    markring_event store = {.kind = MARKRING_EVENT_STORE, .object = 2, .reg = 1};
    markring_event copy = {.kind = MARKRING_EVENT_COPY, .reg = 1, .source = 2};
    for (int i = 0; i < 20; i++) {
        int status = perform_one(&at, 3, 103, alloc);
        status = status == MARKRING_OK ? perform_one(&at, 3, 103, store) : status;
        status = status == MARKRING_OK ? perform_one(&at, 3, 103, copy) : status;
        status = status == MARKRING_OK ? set_bytes(&at, 1, 1, LENGTH) : status;
        refused += status == MARKRING_IMAGE_TOO_LARGE;
        HOLDS(status == MARKRING_OK || status == MARKRING_IMAGE_TOO_LARGE);
        expect_bound(&at);
        HOLDS(image_of(&at) < MOST + LENGTH + GROWTH);
    }
    HOLDS(refused > 0 && image_of(&at) > MOST && set_bytes(&at, 1, 1, 1) != MARKRING_OK);
    // What needs no room is done.
    HOLDS(patch(&at, 1, 0, 2, LENGTH) == MARKRING_OK && has(&at, 1, 1, LENGTH, 0, 2, LENGTH));
    options.image_most = 100 * MOST;
    open_again(&at);
    for (int i = 0; i < 200; i++) {
        HOLDS(set_bytes(&at, 1, 1, (uint32_t)(i % 2) * LENGTH) == MARKRING_OK);
        expect_bound(&at);
        HOLDS(at.host->size < 10 * MOST);
    }
    drop(&at);
    // Without a limit nobody looks at the size of a large image, which takes as long as making it.
    options.image_most = 0;
    open_host(&at);
    settle(&at, STORE_OK);
    at.host->measured = (1 << 20) + 1;
    looks = at.wholes = 0;
    for (int i = 0; i < 200; i++) {
        HOLDS(set_bytes(&at, 1, 1, (uint32_t)(i % 2) * LENGTH) == MARKRING_OK);
    }
    HOLDS(looks == 0 && at.wholes == 0);
    end(&at);
    // Bytes that are replaced by none.
    make_with_bytes(&at, 10 * MOST, true);
    HOLDS(set_bytes(&at, 1, 1, 10 * MOST) == MARKRING_OK);
    open_again(&at);
    HOLDS(image_of(&at) > 10 * MOST && set_bytes(&at, 1, 1, 0) == MARKRING_OK);
    settle(&at, STORE_OK);
    HOLDS(image_of(&at) < MOST);
    end(&at);
}

// ## Rewrites

enum { REWRITE_LENGTH = 300, REWRITE_LEAST = 4000 };

// Performs events until the host has asked as often, or saves a whole value. Returns how many bytes
// the entries have then.
static size_t add_entries(station *at, int until)
{
    int wholes = at->wholes;
    for (int i = 0; i < 200 && asked < until && at->wholes == wholes; i++) {
        HOLDS(set_bytes(at, 1, 1, REWRITE_LENGTH) == MARKRING_OK);
    }
    return at->host->entries;
}

static void begin_rewrites(station *at)
{
    rewrites = true;
    asked = 0;
    options.entries_least = REWRITE_LEAST;
    make_with_bytes(at, REWRITE_LENGTH, true);
    HOLDS(add_entries(at, 1) < 2 * REWRITE_LEAST && asked == 1);
    at->wholes = 0;
}

static void end_rewrites(station *at)
{
    end(at);
    rewrites = false;
    options.entries_least = 0;
}

// The value that a rewrite makes takes the place of what is stored, with what is added meanwhile.
TEST(test_rewrite)
{
    station at;
    begin_rewrites(&at);
    store_value stored = {at.stored, at.length, at.end, false, at.end, 0}, whole = {0};
    HOLDS(host_rewrite(&stored, &whole) == MARKRING_OK);
    size_t before = at.end;
    HOLDS(set_bytes(&at, 1, 1, 7) == MARKRING_OK && at.end > before && at.wholes == 0);
    size_t added = at.end - before;
    uint8_t *joined = malloc(whole.room + added);
    memcpy(joined, whole.buffer, whole.room);
    memcpy(joined + whole.room, at.stored + before, added);
    free(at.stored);
    free(whole.buffer);
    at.stored = joined;
    at.length = whole.length;
    at.end = whole.room + added;
    host_rewritten(at.host, STORE_OK, at.length, added);
    // The host goes on with entries, and asks again when there are too many.
    HOLDS(at.host->entries == added && asked == 1);
    HOLDS(add_entries(&at, 2) < 2 * REWRITE_LEAST && asked == 2 && at.wholes == 0);
    size_t image = image_of(&at);
    open_again(&at);
    HOLDS(image_of(&at) == image && has(&at, 1, 1, REWRITE_LENGTH, 0, 0, 0));
    end_rewrites(&at);
}

// A rewrite that comes to no end, or is given up: entries are added up to twice the limit; then the
// host makes a whole value, and a later rewrite is another one.
TEST(test_rewrites_given_up)
{
    for (int fails = 0; fails < 2; fails++) {
        station at;
        begin_rewrites(&at);
        if (fails) {
            host_rewritten(at.host, STORE_MEMORY, 0, 0);
        }
        (void)add_entries(&at, 2);
        HOLDS(asked == 1 && at.wholes == 1);
        if (!fails) {
            // What comes late counts for nothing.
            size_t entries = at.host->entries;
            host_rewritten(at.host, STORE_OK, 1, 123456);
            HOLDS(at.host->entries == entries);
        }
        (void)add_entries(&at, 2);
        HOLDS(asked == 2 && at.wholes == 1);
        end_rewrites(&at);
    }
    station at;
    begin_rewrites(&at);
    host_rewritten(at.host, STORE_UNKNOWN, 0, 0);
    HOLDS(host_ended(at.host) == HOST_UNSURE);
    end_rewrites(&at);
}

// What isn't a saved node isn't made one.
TEST(test_rewrite_refused)
{
    station at;
    begin_rewrites(&at);
    store_value stored = {at.stored, at.length, at.end, false, at.end, 0}, whole = {0};
    at.stored[STORE_HEAD + 1] ^= 0x40;
    HOLDS(host_rewrite(&stored, &whole) == MARKRING_BAD_IMAGE && whole.buffer == NULL);
    at.stored[STORE_HEAD + 1] ^= 0x40;
    end_rewrites(&at);
}

// A node whose image is larger than that of a plain space may be: it is saved, takes messages and
// events, and is opened again.
TEST(test_wide_size)
{
    enum { OBJECT = 26 };
    station at;
    markring_answer answer;
    markring_event alloc = {.kind = MARKRING_EVENT_ALLOC, .reg = 1};
    bool all = true;
    make_wide(&at, 2, 0, true);
    HOLDS(open_apart(&at, 3, 103, 1, 1) == VERDICT_DONE);
    for (uint32_t i = 0; i <= IMAGE_LIMIT / OBJECT; i++) {
        all = all && markring_node_alloc(host_node(at.host), 0, 0, &answer) == MARKRING_OK;
    }
    HOLDS(all);
    host_changed(at.host);
    settle(&at, STORE_OK);
    for (int i = 0; i < 2; i++) {
        HOLDS(perform_one(&at, 3, 103, alloc) == MARKRING_OK);
        HOLDS(number_of(&at, "image") > IMAGE_LIMIT);
        HOLDS(takes_messages(at.host) && host_ended(at.host) == HOST_RUNS);
        open_again(&at);
    }
    end(&at);
}

// A node of a wide space whose programs have made this many objects, each in place of the last one.
static void fill_wide(station *at, uint32_t least, int objects)
{
    markring_event alloc = {.kind = MARKRING_EVENT_ALLOC, .reg = 1};
    options.reclaim_objects = least;
    next.places = 8;
    make(at, true);
    options.reclaim_objects = 0;
    HOLDS(open_apart(at, 3, 103, 1, 2) == VERDICT_DONE);
    for (int i = 0; i < objects; i++) {
        HOLDS(perform_one(at, 3, 103, alloc) == MARKRING_OK);
    }
}

// A list of this many objects in register 1.
static void make_list(station *at, int objects)
{
    static const markring_event LIST[] = {
        {.kind = MARKRING_EVENT_ALLOC, .reg = 2, .place = 1},
        {.kind = MARKRING_EVENT_STORE, .object = 2, .reg = 1},
        {.kind = MARKRING_EVENT_COPY, .reg = 1, .source = 2},
    };
    for (int i = 0; i < objects; i++) {
        for (int event = 0; event < 3; event++) {
            int status = perform_one(at, 3, 103, LIST[event]);
            bool has_none = i == 0 && event == 1;
            HOLDS(status == (has_none ? MARKRING_EMPTY_REGISTER : MARKRING_OK));
        }
    }
}

// Drops the list.
static void drop_list(station *at)
{
    for (uint16_t reg = 1; reg <= 2; reg++) {
        markring_event drop_one = {.kind = MARKRING_EVENT_DROP, .reg = reg};
        HOLDS(perform_one(at, 3, 103, drop_one) == MARKRING_OK);
    }
}

// A node reclaims the young when a program finds it full, and when as many objects were made as the
// option says; 0 for never.
TEST(test_reclaims)
{
    enum { SLOTS = 64, LEAST = 20 };
    station at;
    markring_event alloc = {.kind = MARKRING_EVENT_ALLOC, .reg = 1};
    fill_wide(&at, 0, SLOTS);
    HOLDS(perform_one(&at, 3, 103, alloc) == MARKRING_ARENA_FULL);
    HOLDS(number_of(&at, "reclaimed") == 0 && number_of(&at, "live") == SLOTS);
    end(&at);
    fill_wide(&at, 1000, SLOTS);
    HOLDS(number_of(&at, "reclaimed") == 0 && number_of(&at, "live") == SLOTS);
    HOLDS(perform_one(&at, 3, 103, alloc) == MARKRING_OK);
    HOLDS(number_of(&at, "reclaimed") == SLOTS - 1 && number_of(&at, "live") == 2);
    open_again(&at);
    HOLDS(number_of(&at, "live") == 2 && read_one(&at, 3, 1) == MARKRING_OK);
    end(&at);
    fill_wide(&at, LEAST, LEAST - 1);
    HOLDS(number_of(&at, "reclaimed") == 0);
    HOLDS(perform_one(&at, 3, 103, alloc) == MARKRING_OK);
    settle(&at, STORE_OK);
    HOLDS(number_of(&at, "reclaimed") == LEAST - 1 && number_of(&at, "live") == 1);
    end(&at);
}

// It reclaims all when that leaves it full, and when it has twice as many objects as the last time
// that it did.
TEST(test_old_reclaims)
{
    enum { SLOTS = 64, LEAST = 10 };
    station at;
    markring_event alloc = {.kind = MARKRING_EVENT_ALLOC, .reg = 1};
    markring_event drop_first = {.kind = MARKRING_EVENT_DROP, .reg = 1};
    fill_wide(&at, 1000, 0);
    make_list(&at, SLOTS);
    HOLDS(perform_one(&at, 3, 103, alloc) == MARKRING_ARENA_FULL);
    drop_list(&at);
    HOLDS(perform_one(&at, 3, 103, alloc) == MARKRING_OK);
    HOLDS(number_of(&at, "reclaimed") == SLOTS && number_of(&at, "live") == 1);
    HOLDS(perform_one(&at, 3, 103, drop_first) == MARKRING_OK);
    make_list(&at, SLOTS);
    HOLDS(number_of(&at, "reclaimed") == SLOTS + 1 && number_of(&at, "live") == SLOTS);
    end(&at);
    fill_wide(&at, LEAST, 0);
    make_list(&at, 2 * LEAST);
    for (int i = 0; i < LEAST; i++) {
        HOLDS(number_of(&at, "reclaimed") == 0);
        HOLDS(perform_one(&at, 3, 103, alloc) == MARKRING_OK);
    }
    settle(&at, STORE_OK);
    HOLDS(number_of(&at, "reclaimed") == LEAST - 1 && number_of(&at, "live") == 2 * LEAST + 1);
    drop_list(&at);
    make_list(&at, 2 * LEAST);
    settle(&at, STORE_OK);
    HOLDS(number_of(&at, "live") == 2 * LEAST);
    end(&at);
}

// ## Large images
//
// Nobody waits for a look at an image of more than 1 MiB.

enum { LARGE = 50000, LARGE_IMAGE = 40 * LARGE };

// A node with a list of LARGE objects in register 0, whose size it knows, and a program that has the
// registers 1 and 2. In a wide space, objects have at most this many places; 0 for a plain space. Its
// entries never become a whole value because of their number.
static void make_large(station *at, uint8_t places)
{
    markring_answer answer;
    next = (host_shape){.slots = 1048576, .places = places};
    make(at, true);
    markring_node *node = host_node(at->host);
    bool all = markring_node_alloc(node, 0, 1, &answer) == MARKRING_OK;
    for (int i = 1; i < LARGE; i++) {
        all = all && markring_node_alloc(node, 1, 1, &answer) == MARKRING_OK
            && markring_node_store(node, 1, 0, 0, &answer) == MARKRING_OK
            && markring_node_copy(node, 0, 1, &answer) == MARKRING_OK;
    }
    HOLDS(all && markring_node_drop(node, 1, &answer) == MARKRING_OK);
    host_changed(at->host);
    settle(at, STORE_OK);
    drop(at);
    options.entries_least = 100000000;
    open_host(at);
    options.entries_least = 0;
    settle(at, STORE_OK);
    HOLDS(open_apart(at, 3, 103, 1, 2) == VERDICT_DONE);
    HOLDS(at->host->measured > LARGE_IMAGE && at->host->measured < 2 * LARGE_IMAGE);
    looks = 0;
}

static size_t true_size(station *at)
{
    size_t size = 0;
    HOLDS(__real_markring_node_image_size(host_node(at->host), &size) == MARKRING_OK);
    return size;
}

// Makes a list in register 2, whose objects refer to another one first: while it is marked, most of
// these are grey at one time.
static void make_leaves(station *at, int count)
{
    markring_answer answer;
    markring_node *node = host_node(at->host);
    bool all = true;
    for (int i = 0; i < count; i++) {
        all = all && markring_node_alloc(node, 1, 2, &answer) == MARKRING_OK
            && markring_node_alloc(node, 3, 1, &answer) == MARKRING_OK
            && markring_node_store(node, 1, 0, 3, &answer) == MARKRING_OK
            && (i == 0 || markring_node_store(node, 1, 1, 2, &answer) == MARKRING_OK)
            && markring_node_copy(node, 2, 1, &answer) == MARKRING_OK;
    }
    HOLDS(all);
    host_changed(at->host);
    settle(at, STORE_OK);
    options.entries_least = 100000000;
    open_again(at);
    options.entries_least = 0;
}

// Marking adds nothing to an image that refers to no other node, and the host reckons so.
TEST(test_large_marking)
{
    enum { LEAVES = 10000 };
    station at;
    markring_state state = {.grey = 1};
    uint64_t most = 0;
    make_large(&at, 0);
    make_leaves(&at, LEAVES);
    looks = 0;
    host_control(at.host, at.now, "begin", 5, "r");
    for (int i = 0; i < LARGE && state.grey > 0; i++) {
        turn(&at, 10, STORE_OK);
        state = state_of(&at);
        most = state.grey > most ? state.grey : most;
        if (i % 20 == 0) {
            expect_bound(&at);
        }
    }
    HOLDS(state.cycle == 1 && state.grey == 0 && most > LEAVES / 2 && looks == 0);
    expect_bound(&at);
    HOLDS(at.host->size < true_size(&at) + 4 * GROWTH);
    end(&at);
}

// Garbage that comes and goes doesn't let the reckoned size grow.
TEST(test_large_churn)
{
    enum { ROUNDS = 3000, EACH = 4 };
    station at;
    options.reclaim_objects = 500;
    make_large(&at, 8);
    size_t reckoned = at.host->size;
    for (int i = 0; i < ROUNDS; i++) {
        HOLDS(perform_one(&at, 3, 103, (markring_event){.kind = MARKRING_EVENT_ALLOC, .reg = 1})
            == MARKRING_OK);
        HOLDS(perform_one(&at, 3, 103, (markring_event){.kind = MARKRING_EVENT_DROP, .reg = 1})
            == MARKRING_OK);
    }
    // (the young are reclaimed as many times; those that are there now were all in fresh slots once)
    HOLDS(number_of(&at, "reclaimed") >= ROUNDS - 500 && looks == 0);
    expect_bound(&at);
    HOLDS(at.host->size < reckoned + 500 * 40 + ROUNDS * EACH);
    // Fresh slots are reckoned as such, after those that were freed.
    for (int i = 0; i < ROUNDS; i++) {
        markring_event alloc = {.kind = MARKRING_EVENT_ALLOC, .reg = 1, .place = 8};
        at.host->objects_kept = UINT32_MAX; // (no reclaim now)
        HOLDS(perform_one(&at, 3, 103, alloc) == MARKRING_OK);
        HOLDS(perform_one(&at, 3, 103, (markring_event){.kind = MARKRING_EVENT_DROP, .reg = 1})
            == MARKRING_OK);
        HOLDS(i % 50 > 0 || at.host->size >= true_size(&at));
    }
    options.reclaim_objects = 0;
    end(&at);
}

// Of many objects the old ones are left to a cycle, for which nobody waits; but not while a node that
// it needs is lost.
TEST(test_large_reclaims)
{
    for (int way = 0; way < 2; way++) {
        station at;
        markring_answer answer;
        options.reclaim_objects = 500;
        make_large(&at, 8);
        at.host->peers[1].notes.is_lost = way == 1;
        at.host->objects_kept_by_all = LARGE / 2 + 1;
        settle(&at, STORE_OK);
        bool all = markring_node_drop(host_node(at.host), 0, &answer) == MARKRING_OK;
        for (int i = 0; i < 10; i++) {
            all = all && markring_node_alloc(host_node(at.host), 3, 0, &answer) == MARKRING_OK;
        }
        host_changed(at.host);
        // (a cycle is under way, and the next one waits for its end)
        HOLDS(number_of(&at, "cycle") == 1);
        at.host->asked = at.host->needs_cycle = false;
        settle(&at, STORE_OK);
        HOLDS(all && number_of(&at, "reclaimed") >= (way == 1 ? LARGE : 0));
        HOLDS(way == 1 || number_of(&at, "reclaimed") < 1000);
        HOLDS(at.host->asked == (way == 0));
        at.host->asked = at.host->needs_cycle = false;
        host_changed(at.host);
        settle(&at, STORE_OK);
        HOLDS(!at.host->asked);
        options.reclaim_objects = 0;
        end(&at);
    }
}

// No program is refused for an estimate; and one that is refused again and again doesn't make the
// host look again each time.
TEST(test_large_limit)
{
    enum { HEADROOM = 20000, MORE = 300 };
    station at;
    markring_event alloc = {.kind = MARKRING_EVENT_ALLOC, .reg = 1, .place = 1};
    make_large(&at, 0);
    size_t most = at.host->options.image_most = true_size(&at) + HEADROOM;
    // What comes in one turn is counted, since the image isn't looked at twice.
    host_changed(at.host);
    turn(&at, 10, STORE_OK);
    looks = 0;
    for (int i = 0; i < 2; i++) {
        host_wrote(at.host, LARGE_IMAGE / 32);
        HOLDS(is_full(at.host) == (i == 1) && looks == 1);
    }
    turn(&at, 10, STORE_OK);
    HOLDS(!is_full(at.host) && looks == 2);
    int status = MARKRING_OK;
    uint64_t began = at.now;
    for (int i = 0; i < HEADROOM && status == MARKRING_OK; i++) {
        status = perform_one(&at, 3, 103, alloc);
    }
    HOLDS(status == MARKRING_IMAGE_TOO_LARGE && true_size(&at) > most);
    HOLDS(true_size(&at) < most + LARGE_IMAGE / 32);
    HOLDS(looks > 0 && (uint64_t)looks < 2 + (at.now - began) / 1000);
    // (a change that adds nothing is done, and may be a loss)
    looks = 0;
    began = at.now;
    markring_event set = {.kind = MARKRING_EVENT_SET_WORD, .object = 1, .word = 1};
    for (int i = 0; i < MORE; i++) {
        HOLDS(perform_one(&at, 3, 103, set) == MARKRING_OK);
        HOLDS(perform_one(&at, 3, 103, alloc) == MARKRING_IMAGE_TOO_LARGE);
    }
    HOLDS((uint64_t)looks <= 1 + (at.now - began) / 1000 && looks > 0);
    // Many changes at once are looked at at once.
    looks = 0;
    host_wrote(at.host, LARGE_IMAGE / 16);
    turn(&at, 10, STORE_OK);
    HOLDS(perform_one(&at, 3, 103, alloc) == MARKRING_IMAGE_TOO_LARGE && looks == 1);
    at.host->options.image_most = 0;
    end(&at);
}

// A node whose messages filled its image takes some again, though the estimate was wrong.
TEST(test_large_tight)
{
    station at;
    make_large(&at, 0);
    at.host->options.image_tight = true_size(&at) + 1000;
    host_wrote(at.host, 2000);
    HOLDS(is_tight(at.host) == (looks == 0));
    turns(&at, 150, 10);
    HOLDS(!is_tight(at.host) && looks > 0 && looks <= 2);
    end(&at);
}

// Before the image may be too large, a rewrite is asked for, and shows how many bytes it has.
TEST(test_size_by_rewrite)
{
    enum { HEADROOM = LARGE_IMAGE / 2 };
    station at;
    rewrites = true;
    asked = 0;
    make_large(&at, 0);
    size_t size = true_size(&at);
    at.host->options.image_most = size + HEADROOM;
    host_wrote(at.host, HEADROOM / 2 - 3 * GROWTH);
    turn(&at, 10, STORE_OK);
    HOLDS(asked == 0);
    host_wrote(at.host, 3 * GROWTH);
    turn(&at, 10, STORE_OK);
    HOLDS(asked == 1 && at.host->size > size + HEADROOM / 2);
    // What came before the save that asked isn't in what is written again.
    host_wrote(at.host, 5000);
    turn(&at, 10, STORE_OK);
    host_rewritten(at.host, STORE_OK, size + 200, 0);
    HOLDS(at.host->size >= size + 200 + 5000 + 4 * GROWTH && at.host->size < size + 5000 + 8 * GROWTH);
    HOLDS(at.host->measured == size + 200 && looks == 0);
    for (int i = 0; i < 20; i++) {
        host_changed(at.host);
        turn(&at, 10, STORE_OK);
    }
    HOLDS(asked == 1 && at.wholes == 0);
    end(&at);
    rewrites = false;
}

// The status says how many bytes the image has, and that stays so when events change none of them.
TEST(test_image)
{
    station at;
    markring_answer answer;
    size_t size = 0;
    make(&at, true);
    markring_node *node = host_node(at.host);
    HOLDS(markring_node_alloc(node, 0, 8, &answer) == MARKRING_OK);
    for (uint64_t word = 0; word < 5000; word++) {
        HOLDS(markring_node_set_word(node, 0, word, &answer) == MARKRING_OK);
        host_changed(at.host);
        turn(&at, 10, STORE_OK);
    }
    HOLDS(markring_node_image_size(node, &size) == MARKRING_OK && image_of(&at) == size);
    for (int i = 0; i < 1000; i++) {
        HOLDS(markring_node_give(node, 1, 1, 0, &answer) == MARKRING_OK);
        host_changed(at.host);
        turn(&at, 10, STORE_OK);
    }
    HOLDS(markring_node_image_size(node, &size) == MARKRING_OK && size > 20000);
    HOLDS(image_of(&at) <= size && image_of(&at) > size / 2);
    end(&at);
}

// A saved value whose program had more results than a request has events isn't one.
TEST(test_results)
{
    for (int way = 0; way < 4; way++) {
        station at;
        answer_head head;
        uint16_t count = (uint16_t)(REQUEST_EVENTS + way % 2);
        make(&at, way >= 2);
        HOLDS(ask(&at, (request_head){REQUEST_OPEN, 3, 100, 1, 0}, -1, &head) == 1);
        at.host->programs[3].results = calloc(count, RESULT_BYTES);
        at.host->programs[3].count = count;
        at.host->programs[3].now.number++;
        host_changed(at.host);
        settle(&at, STORE_OK);
        drop(&at);
        store_value value = {at.stored, at.length, at.end, false, at.end, 0};
        host_calls calls = {&at, on_send, on_answer, on_save, NULL};
        int status = host_open(&at.host, &value, at.number, NONCE, &options, &calls, at.now);
        HOLDS(status == (count > REQUEST_EVENTS ? MARKRING_BAD_IMAGE : MARKRING_OK));
        end(&at);
    }
}

// ## Two nodes

// Once an object with bytes is freed, the status shows how large the image is without it.
TEST(test_swept_bytes)
{
    enum { LENGTH = 100000 };
    markring_answer answer;
    next.places = 8;
    next.bytes = LENGTH;
    make_pair();
    markring_node *node = host_node(pair[0].host);
    HOLDS(markring_node_alloc(node, 1, 0, &answer) == MARKRING_OK);
    HOLDS(markring_node_set_bytes(node, 1, bytes_of(1, LENGTH), LENGTH, &answer) == MARKRING_OK);
    host_wrote(pair[0].host, LENGTH);
    expect_bound(&pair[0]);
    go_on(20, 10);
    HOLDS(image_of(&pair[0]) > LENGTH);
    HOLDS(markring_node_drop(node, 1, &answer) == MARKRING_OK);
    host_changed(pair[0].host);
    host_control(pair[0].host, pair[0].now, "begin", 5, "r");
    go_on(100, 10);
    HOLDS(live(&pair[0]) == 0 && image_of(&pair[0]) < LENGTH / 10);
    drop_pair();
}

// More objects than one turn scans: the next turn is due at once, until all are scanned and swept.
TEST(test_work_that_is_left)
{
    enum { OBJECTS = 600 };
    markring_answer answer;
    int turns = 0;
    next.slots = OBJECTS;
    make_pair();
    markring_node *node = host_node(pair[0].host);
    for (int i = 0; i < OBJECTS; i++) {
        HOLDS(markring_node_alloc(node, 1, 1, &answer) == MARKRING_OK);
        HOLDS(i == 0 || markring_node_store(node, 1, 0, 0, &answer) == MARKRING_OK);
        HOLDS(markring_node_copy(node, 0, 1, &answer) == MARKRING_OK);
    }
    host_changed(pair[0].host);
    go_on(20, 10);
    HOLDS(host_wait(pair[0].host, pair[0].now) > 0);
    host_control(pair[0].host, pair[0].now, "begin", 5, "r");
    do {
        turn(&pair[0], 10, STORE_OK);
        turns++;
    } while (host_wait(pair[0].host, pair[0].now) == 0 && turns < 10);
    HOLDS(turns == 3);
    go_on(100, 10);
    HOLDS(live(&pair[0]) == OBJECTS && host_wait(pair[0].host, pair[0].now) > 0);
    drop_pair();
}

// No packet is lost, so nothing is sent again or comes twice.
TEST(test_pace)
{
    make_pair();
    for (uint32_t label = 0; label < LETTERS; label++) {
        give((int)(label & 1), label);
        go_on(label % 7 == 0 ? 10 : 1, 5);
    }
    go_on(100, 10);
    for (int own = 0; own < 2; own++) {
        const host_counts *counts = host_counted(pair[own].host);
        HOLDS(counts->resends == 0 && counts->repeats == 0 && counts->outdated == 0);
        HOLDS(counts->frames_out >= LETTERS / 2 && counts->packets_out < 4 * LETTERS);
        HOLDS(acknowledged(own) == LETTERS / 2);
    }
    drop_pair();
}

// A node that is away: pauses grow up to 1.6 s, and no further.
TEST(test_absence)
{
    make_pair();
    pair[0].other = NULL;
    give(0, 1);
    uint64_t before = host_counted(pair[0].host)->resends;
    turns(&pair[0], 1000, 10);
    uint64_t first = host_counted(pair[0].host)->resends - before;
    HOLDS(first >= 8 && first <= 12);
    int packets = pair[0].packets;
    turns(&pair[0], 36000, 100);
    uint64_t all = host_counted(pair[0].host)->resends - before - first;
    uint64_t sent = (uint64_t)(pair[0].packets - packets);
    HOLDS(all >= 2100 && all <= 2251);
    HOLDS(sent >= all && sent <= all + 1);
    // It is back, and says so: what it misses is sent at once.
    pair[0].other = &pair[1];
    host_connected(pair[1].host, pair[1].now);
    host_connected(pair[0].host, pair[0].now);
    go_on(3, 10);
    HOLDS(acknowledged(0) == 1);
    drop_pair();
}

// Acknowledgements are lost, or frames: what is sent again is acknowledged again.
TEST(test_losses)
{
    make_pair();
    for (uint32_t label = 1; label <= 6; label++) {
        int deaf = label % 2 == 0;
        pair[deaf].other = NULL;
        give(0, label);
        go_on(30, 10);
        HOLDS(acknowledged(0) == label - 1);
        pair[deaf].other = &pair[1 - deaf];
        go_on(200, 10);
        HOLDS(acknowledged(0) == label);
    }
    HOLDS(host_counted(pair[0].host)->resends >= 6 && host_counted(pair[1].host)->repeats >= 3);
    drop_pair();
}

// A cycle goes round, and frees what nobody holds.
TEST(test_cycle)
{
    markring_answer answer;
    make_pair();
    for (int own = 0; own < 2; own++) {
        markring_node *node = host_node(pair[own].host);
        HOLDS(markring_node_alloc(node, 0, 1, &answer) == MARKRING_OK);
        HOLDS(markring_node_alloc(node, 0, 1, &answer) == MARKRING_OK);
        host_changed(pair[own].host);
    }
    for (int i = 0; i < 2; i++) {
        host_control(pair[0].host, pair[0].now, "begin", 5, "r");
        go_on(200, 10);
    }
    for (int own = 0; own < 2; own++) {
        HOLDS(state_of(&pair[own]).swept == 2 && live(&pair[own]) == 1);
    }
    drop_pair();
}

// While a node has too many letters, it takes no more.
TEST(test_letters)
{
    options.letters_most = 5;
    make_pair();
    give_many(0, LETTERS);
    go_on(200, 10);
    uint64_t letters = state_of(&pair[1]).letters;
    HOLDS(letters >= 5 && letters < 5 + 64);
    HOLDS(host_counted(pair[1].host)->full > 0 && acknowledged(0) == letters);
    drop_pair();
    options.letters_most = 0;
}

static void accept(int own, uint64_t count)
{
    markring_answer answer;
    for (; count > 0; count--) {
        HOLDS(markring_node_accept(host_node(pair[own].host), 0, &answer) == MARKRING_OK);
    }
    host_changed(pair[own].host);
}

// While a node's image is too large for messages, it takes none; but what it holds is enough for
// the next cycle.
TEST(test_tight)
{
    options.image_tight = 4000;
    make_pair();
    give_many(0, LETTERS);
    go_on(300, 10);
    uint64_t letters = state_of(&pair[1]).letters;
    HOLDS(letters > 20 && letters < 4000 / JOINING && acknowledged(0) == letters);
    HOLDS(host_counted(pair[1].host)->full > 0);
    // There is room for others. (A window of messages may come beyond the limit.)
    accept(1, 40);
    go_on(300, 10);
    HOLDS(acknowledged(0) > letters && state_of(&pair[1]).letters <= letters);
    letters = state_of(&pair[1]).letters;
    // The same after a restart.
    drop(&pair[1]);
    pair[1].nonce++;
    open_host(&pair[1]);
    go_on(300, 10);
    HOLDS(state_of(&pair[1]).letters >= letters && state_of(&pair[1]).letters < 4000 / JOINING);
    // No cycle begins at a node that has no room for it.
    drop_pair();
    options.image_tight = 0;
    make_pair();
    give_many(1, LETTERS);
    go_on(300, 10);
    HOLDS(state_of(&pair[0]).letters == LETTERS);
    pair[0].host->options.image_tight = 8000;
    host_control(pair[0].host, pair[0].now, "begin", 5, "r");
    go_on(100, 10);
    HOLDS(state_of(&pair[0]).cycle == 0 && host_wait(pair[0].host, pair[0].now) <= RETRY);
    HOLDS(state_of(&pair[1]).cycle == 0);
    accept(0, LETTERS);
    go_on(100, 10);
    HOLDS(state_of(&pair[0]).cycle == 1 && state_of(&pair[0]).swept == 1);
    for (int own = 0; own < 2; own++) {
        HOLDS(host_ended(pair[own].host) == HOST_RUNS);
    }
    drop_pair();
}

// Messages that were acknowledged aren't reckoned for ever.
TEST(test_acknowledged_size)
{
    make_pair();
    give_many(0, LETTERS);
    // (nobody looks at a large image)
    size_t reckoned = pair[0].host->size;
    pair[0].host->measured = (1 << 20) + 1;
    go_on(300, 10);
    HOLDS(acknowledged(0) == LETTERS);
    expect_bound(&pair[0]);
    HOLDS(pair[0].host->size + 9 * LETTERS < reckoned + GROWTH);
    drop_pair();
}

// Letters that nobody accepts are as many as fit, and then come one after another as there is room.
TEST(test_room)
{
    options.image_tight = 4000;
    make_pair();
    give_many(0, LETTERS);
    for (uint64_t accepted = 0; accepted < LETTERS;) {
        go_on(200, 10);
        uint64_t letters = state_of(&pair[1]).letters;
        HOLDS(letters > 0);
        accept(1, letters);
        accepted = letters > 0 ? accepted + letters : LETTERS;
    }
    go_on(100, 10);
    HOLDS(acknowledged(0) == LETTERS && state_of(&pair[1]).letters == 0);
    options.image_tight = 0;
    drop_pair();
}

// A request of program 0 of node 1 for as many Gets as fit. Returns the status of the last one.
static int ask_gets(uint64_t number)
{
    uint8_t bytes[REQUEST_BYTES];
    writer to = writer_of(bytes, sizeof bytes);
    write_request_head(&to, &(request_head){REQUEST_PERFORM, 0, 100, number, REQUEST_EVENTS});
    for (int i = 0; i < REQUEST_EVENTS; i++) {
        write_event(&to, &(markring_event){.kind = MARKRING_EVENT_GET, .object = 1});
    }
    pair[1].answers = 0;
    host_request(pair[1].host, pair[1].now, bytes, to.length, "r");
    go_on(30, 10);
    HOLDS(pair[1].answers == 1 && pair[1].told >= RESULT_BYTES);
    reader last = reader_of(pair[1].text + pair[1].told - RESULT_BYTES, RESULT_BYTES);
    markring_result found;
    read_result(&last, &found);
    return found.status;
}

// A program asks another node for what places hold, again and again, and nobody accepts answers.
TEST(test_gets)
{
    markring_answer answer;
    answer_head head;
    options.letters_most = 20;
    make_pair();
    HOLDS(markring_node_alloc(host_node(pair[0].host), 1, 1, &answer) == MARKRING_OK);
    HOLDS(markring_node_give(host_node(pair[0].host), 1, 1, 1, &answer) == MARKRING_OK);
    host_changed(pair[0].host);
    go_on(30, 10);
    HOLDS(markring_node_accept(host_node(pair[1].host), 1, &answer) == MARKRING_OK);
    host_changed(pair[1].host);
    HOLDS(ask(&pair[1], (request_head){REQUEST_OPEN, 0, 100, 1, 0}, -1, &head) == 1);
    uint64_t number = 1;
    for (; number <= 50; number++) {
        int status = ask_gets(number);
        HOLDS(status == (number == 1 ? MARKRING_OK : MARKRING_NOT_DONE));
    }
    size_t size = 0;
    HOLDS(markring_node_image_size(host_node(pair[0].host), &size) == MARKRING_OK && size < 30000);
    HOLDS(host_ended(pair[0].host) == HOST_RUNS && host_ended(pair[1].host) == HOST_RUNS);
    for (int i = 0; i < 20; i++) {
        accept(1, state_of(&pair[1]).letters);
        go_on(30, 10);
    }
    HOLDS(state_of(&pair[1]).letters == 0 && ask_gets(number) == MARKRING_OK);
    options.letters_most = 0;
    drop_pair();
}

// A process waits for a letter, and then another one opens its program: the first one is answered.
TEST(test_waiting)
{
    for (uint8_t program = 0; program < 2; program++) {
        answer_head head;
        make_pair();
        HOLDS(ask(&pair[1], (request_head){REQUEST_OPEN, program, 100, 1, 0}, -1, &head) == 1);
        HOLDS(ask(&pair[1], (request_head){REQUEST_WAIT, program, 100, 7, 0}, -1, &head) == 0);
        HOLDS(ask(&pair[1], (request_head){REQUEST_OPEN, program, 200, 2, 0}, -1, &head) == 1);
        pair[1].answers = 0;
        give(0, 1);
        go_on(20, 10);
        reader from = reader_of(pair[1].text, pair[1].told);
        HOLDS(pair[1].answers == 1 && read_answer_head(&from, &head) && head.kind == REQUEST_WAIT);
        HOLDS(head.session == 100 && head.number == 7 && head.count == 1);
        drop_pair();
    }
}

int main(void)
{
    run_tests();
    return report_checks();
}
