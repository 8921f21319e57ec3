// Cells in one thread: mailboxes, marks, saves, reopenings, the board. What is expected comes from
// docs/RULES.md and from the header.
#include "check.h"

static markring_cell cells[2];
static markring_watch watch;
static markring_answer answer;
static uint8_t image[512];
static size_t needed;

static void begin(void)
{
    markring_space space = {0};
    OK(markring_space_new(&space, 2, 2, 4, 1));
    OK(open_space(&space));
    OK(markring_space_cell(&space, 0, &cells[0]));
    OK(markring_space_cell(&space, 1, &cells[1]));
    OK(markring_space_watch(&space, &watch));
    // The cells outlive the space.
    OK(markring_space_free(&space));
}

static void end(void)
{
    OK(markring_cell_free(&cells[0]));
    OK(markring_watch_free(&watch));
    OK(markring_cell_free(&cells[1]));
}

static uint64_t image_mark(int own_number)
{
    uint64_t mark = 0;
    OK(markring_cell_image(&cells[own_number], image, sizeof image, &needed, &mark));
    return mark;
}

static void save_cell(int own_number)
{
    OK(markring_cell_save(&cells[own_number], image_mark(own_number)));
}

// The cell sends to the other one: 1 if the mailbox was empty.
static void send(int from, uint8_t expected)
{
    uint8_t sent = 7;
    OK(markring_cell_send(&cells[from], (uint8_t)(1 - from), &sent));
    EQUAL(expected, sent);
}

// The cell receives from the other one, with this kind of answer.
static void receive(int to, int kind)
{
    OK(markring_cell_receive(&cells[to], (uint8_t)(1 - to), &answer));
    EQUAL((uint64_t)kind, answer.kind);
}

static void receive_nothing(int to)
{
    blot(&answer);
    IS(MARKRING_NOTHING, markring_cell_receive(&cells[to], (uint8_t)(1 - to), &answer));
    HOLDS(is_blotted(&answer));
}

static void expect_unsaved(int own_number, uint8_t expected)
{
    uint8_t flag = 7;
    OK(markring_cell_unsaved(&cells[own_number], &flag));
    EQUAL(expected, flag);
}

static void expect_released(int own_number, uint64_t appended, uint64_t released)
{
    markring_link link;
    OK(markring_cell_link(&cells[own_number], (uint8_t)(1 - own_number), &link));
    EQUAL(appended, link.appended);
    EQUAL(released, link.released);
}

// A letter isn't sent before it is saved. A mailbox holds one frame, messages and acknowledgements
// take turns.
static void letters(void)
{
    begin();
    OK(markring_cell_alloc(&cells[0], 0, 0, &answer));
    OK(markring_cell_give(&cells[0], 1, 4, 0, &answer));
    EQUAL(1, answer.number);
    receive_nothing(1);
    send(0, 1);
    receive(1, MARKRING_ANSWER_DONE);
    expect_released(0, 1, 0);
    save_cell(0);
    expect_released(0, 1, 1);
    send(0, 1);
    send(0, 0);
    receive(1, MARKRING_ANSWER_RECEIVED);
    receive_nothing(1);
    send(0, 1);
    receive(1, MARKRING_ANSWER_DONE);
    // What isn't acknowledged is sent again.
    send(0, 1);
    receive(1, MARKRING_ANSWER_REPEAT);
    save_cell(1);
    send(1, 1);
    receive(0, MARKRING_ANSWER_DONE);
    send(0, 1);
    receive(1, MARKRING_ANSWER_DONE);
    OK(markring_cell_accept(&cells[1], 1, &answer));
    HOLDS(answer.node == 0 && answer.label == 4 && answer.reference.node == 0);
    HOLDS(answer.reference.slot == 0 && answer.reference.generation == 1);
    end();
}

static void expect_state(int own_number, uint32_t live)
{
    markring_state state;
    OK(markring_cell_state(&cells[own_number], &state));
    HOLDS(state.own == own_number && state.nodes == 2 && state.registers == 2 && state.slots == 4);
    EQUAL(live, state.live);
    EQUAL(0, state.cycle + state.ended + state.swept + state.grey + state.letters);
    HOLDS(state.colour == MARKRING_WHITE && !state.has_token);
}

// A letter and its answer with a reference, after which both cells are opened again.
static void there_and_back(void)
{
    markring_state state;
    begin();
    OK(markring_cell_alloc(&cells[0], 0, 1, &answer));
    OK(markring_cell_set_word(&cells[0], 0, 5, &answer));
    OK(markring_cell_alloc(&cells[0], 1, 0, &answer));
    OK(markring_cell_store(&cells[0], 0, 0, 1, &answer));
    OK(markring_cell_give(&cells[0], 1, 7, 0, &answer));
    save_cell(0);
    send(0, 1);
    receive(1, MARKRING_ANSWER_RECEIVED);
    OK(markring_cell_state(&cells[1], &state));
    EQUAL(1, state.letters);
    OK(markring_cell_accept(&cells[1], 0, &answer));
    OK(markring_cell_give(&cells[1], 0, 8, 0, &answer));
    save_cell(1);
    send(1, 1);
    receive(0, MARKRING_ANSWER_RECEIVED);
    OK(markring_cell_accept(&cells[0], 1, &answer));
    OK(markring_cell_drop(&cells[0], 0, &answer));
    save_cell(0);
    OK(markring_cell_reopen(&cells[0]));
    OK(markring_cell_reopen(&cells[1]));
    expect_state(0, 2);
    expect_state(1, 0);
    OK(markring_cell_word(&cells[0], 1, &answer));
    EQUAL(5, answer.number);
    OK(markring_cell_load(&cells[0], 0, 1, 0, &answer));
    HOLDS(answer.reference.node == 0 && answer.reference.slot == 1);
    end();
}

// A reopening goes back to what was saved. Messages that come before their turn are received first.
static void early_messages(void)
{
    begin();
    for (uint32_t label = 1; label <= 3; label++) {
        OK(markring_cell_give(&cells[0], 1, label, 0, &answer));
    }
    save_cell(0);
    send(0, 1);
    receive(1, MARKRING_ANSWER_RECEIVED);
    expect_unsaved(1, 1);
    OK(markring_cell_reopen(&cells[1]));
    expect_unsaved(1, 0);
    for (int times = 0; times < 2; times++) {
        send(0, 1);
        receive(1, MARKRING_ANSWER_EARLY);
    }
    expect_unsaved(1, 0);
    IS(MARKRING_NO_LETTER, markring_cell_accept(&cells[1], 0, &answer));
    send(0, 1);
    receive(1, MARKRING_ANSWER_DONE);
    send(0, 1);
    receive(1, MARKRING_ANSWER_RECEIVED);
    receive(1, MARKRING_ANSWER_RECEIVED);
    receive(1, MARKRING_ANSWER_RECEIVED);
    receive_nothing(1);
    IS(MARKRING_NOTHING_TO_DO, markring_cell_next(&cells[1], 0, &answer));
    IS(MARKRING_NO_NODE, markring_cell_next(&cells[1], 2, &answer));
    for (uint32_t label = 1; label <= 3; label++) {
        OK(markring_cell_accept(&cells[1], 0, &answer));
        EQUAL(label, answer.label);
    }
    end();
}

// A mark is good for one save, and only if nothing happened since the image.
static void marks(void)
{
    uint64_t mark, later = 77;
    begin();
    mark = image_mark(0);
    EQUAL(1, mark);
    OK(markring_cell_save(&cells[0], mark));
    IS(MARKRING_WRONG_MARK, markring_cell_save(&cells[0], mark));
    mark = image_mark(0);
    EQUAL(2, mark);
    OK(markring_cell_give(&cells[0], 1, 1, 0, &answer));
    IS(MARKRING_WRONG_MARK, markring_cell_save(&cells[0], mark));
    expect_released(0, 1, 0);
    mark = image_mark(0);
    later = image_mark(0);
    IS(MARKRING_WRONG_MARK, markring_cell_save(&cells[0], mark));
    IS(MARKRING_WRONG_MARK, markring_cell_save(&cells[0], later + 1));
    IS(MARKRING_WRONG_MARK, markring_cell_save(&cells[0], 0));
    OK(markring_cell_save(&cells[0], later));
    expect_released(0, 1, 1);
    expect_unsaved(0, 0);

    mark = image_mark(0);
    OK(markring_cell_reopen(&cells[0]));
    IS(MARKRING_WRONG_MARK, markring_cell_save(&cells[0], mark));
    mark = image_mark(1);
    send(0, 1);
    receive(1, MARKRING_ANSWER_RECEIVED);
    IS(MARKRING_WRONG_MARK, markring_cell_save(&cells[1], mark));

    // Each length of the buffer.
    size_t size = 0;
    uint8_t small[512], clean[512];
    OK(markring_cell_image_size(&cells[1], &size));
    memset(clean, 0x5A, sizeof clean);
    uint64_t last = image_mark(1);
    for (size_t length = 0; length <= size; length++) {
        memset(small, 0x5A, sizeof small);
        mark = 77;
        int status = markring_cell_image(&cells[1], small, length, &needed, &mark);
        IS(length < size ? MARKRING_SHORT_BUFFER : MARKRING_OK, status);
        EQUAL(size, needed);
        EQUAL(length < size ? 77 : last + 1, mark);
        HOLDS(length == size || memcmp(small, clean, sizeof small) == 0);
    }
    OK(markring_cell_save(&cells[1], mark));
    end();
}

// The board shows what node 0 has saved.
static void board(void)
{
    uint64_t cycle = 77;
    begin();
    OK(markring_cell_begin(&cells[0], &answer));
    EQUAL(1, answer.number);
    save_cell(0);
    send(0, 1);
    receive(1, MARKRING_ANSWER_RECEIVED);
    send(0, 1);
    receive(1, MARKRING_ANSWER_RECEIVED);
    OK(markring_cell_pass(&cells[1], &answer));
    HOLDS(answer.kind == MARKRING_ANSWER_PASSED && answer.colour == MARKRING_BLACK);
    EQUAL(0, (uint64_t)answer.sum);
    save_cell(1);
    send(1, 1);
    receive(0, MARKRING_ANSWER_RECEIVED);
    OK(markring_cell_pass(&cells[0], &answer));
    EQUAL(MARKRING_ANSWER_PROBE_AGAIN, answer.kind);
    save_cell(0);
    // An acknowledgement of node 1, and then node 0's new message.
    send(1, 1);
    receive(0, MARKRING_ANSWER_DONE);
    do {
        send(0, 1);
        OK(markring_cell_receive(&cells[1], 0, &answer));
    } while (answer.kind != MARKRING_ANSWER_RECEIVED);
    OK(markring_cell_pass(&cells[1], &answer));
    HOLDS(answer.kind == MARKRING_ANSWER_PASSED && answer.colour == MARKRING_WHITE);
    save_cell(1);
    do {
        send(1, 1);
        OK(markring_cell_receive(&cells[0], 1, &answer));
    } while (answer.kind != MARKRING_ANSWER_RECEIVED);
    OK(markring_cell_pass(&cells[0], &answer));
    HOLDS(answer.kind == MARKRING_ANSWER_ENDED && answer.number == 1);
    OK(markring_cell_raise(&cells[0], &cycle));
    EQUAL(0, cycle);
    OK(markring_watch_look(&watch, &cycle));
    EQUAL(0, cycle);
    save_cell(0);
    OK(markring_watch_look(&watch, &cycle));
    EQUAL(0, cycle);
    OK(markring_cell_raise(&cells[0], &cycle));
    EQUAL(1, cycle);
    cycle = 77;
    OK(markring_watch_look(&watch, &cycle));
    EQUAL(1, cycle);
    cycle = 77;
    IS(MARKRING_NOT_DIRECTOR, markring_cell_raise(&cells[1], &cycle));
    EQUAL(77, cycle);
    end();
}

// Images of different moments: node 1 has received a letter that an older node 0 hasn't sent, or
// lacks one that a later node 0 has dropped.
static void ages(void)
{
    static uint8_t stored[3][2][512];
    size_t lengths[3][2];
    begin();
    for (int moment = 0; moment < 3; moment++) {
        for (int own_number = 0; own_number < 2; own_number++) {
            save_cell(own_number);
            memcpy(stored[moment][own_number], image, needed);
            lengths[moment][own_number] = needed;
        }
        if (moment == 0) {
            OK(markring_cell_give(&cells[0], 1, 4, 0, &answer));
            save_cell(0);
            send(0, 1);
            receive(1, MARKRING_ANSWER_RECEIVED);
        } else if (moment == 1) {
            // The acknowledgement: node 0 drops the letter.
            send(1, 1);
            receive(0, MARKRING_ANSWER_DONE);
        }
    }
    end();
    for (int zero = 0; zero < 3; zero++) {
        for (int one = 0; one < 3; one++) {
            markring_space space = {0};
            OK(markring_space_new(&space, 2, 2, 4, 1));
            OK(markring_space_disk(&space, 0, stored[zero][0], lengths[zero][0]));
            OK(markring_space_disk(&space, 1, stored[one][1], lengths[one][1]));
            int is_apart = (zero == 0 && one > 0) || (zero == 2 && one == 0);
            uint8_t sender = 7, receiver = 7;
            IS(is_apart ? MARKRING_AGES : MARKRING_OK,
                markring_space_open(&space, &sender, &receiver));
            EQUAL(is_apart ? 0 : 7, sender);
            EQUAL(is_apart ? 1 : 7, receiver);
            // The right image can still be given.
            if (is_apart) {
                OK(markring_space_disk(&space, 0, stored[one][0], lengths[one][0]));
                OK(open_space(&space));
                IS(MARKRING_IN_USE, open_space(&space));
            }
            OK(markring_space_free(&space));
        }
    }
}

int main(void)
{
    letters();
    there_and_back();
    early_messages();
    marks();
    board();
    ages();
    return report();
}
