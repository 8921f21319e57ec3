// What letters.c tests of nodes and of cells alike: KIND is `node` or `cell`.

// A letter from node 0 with these references and the bytes given waits at node 1, which reads and
// then accepts it. All other registers there keep what they have.
static void OF(accept_letter)(uint32_t label, const markring_ref *sent, uint8_t count,
    size_t length, int with_bytes)
{
    HANDLE *one = &BOTH[1];
    markring_answer expected = {0}, waiting;
    markring_ref mine = {0};
    markring_state state;
    size_t needed = 77;
    uint8_t entries = count > 0 ? count : 1;
    expected.kind = MARKRING_ANSWER_LETTER;
    expected.label = label;
    expected.reference = count > 0 ? sent[0] : NOTHING;
    expected.count = entries;
    expected.number = length;
    OK(CALL(state)(one, &state));
    EQUAL(entries, state.letters);
    OK(CALL(register)(one, 0, &mine));
    for (uint16_t reg = 1; reg < REGISTERS; reg++) {
        OK(CALL(copy)(one, reg, 0, &answer));
    }
    blot(&waiting);
    OK(CALL(letter)(one, &waiting));
    HOLDS(same_answer(&expected, &waiting));
    memset(found, 0x5A, sizeof found);
    OK(CALL(letter_bytes)(one, found, sizeof found, &needed));
    HOLDS(needed == length && found_given(length));
    blot(&answer);
    if (with_bytes) {
        memset(found, 0x5A, sizeof found);
        needed = 77;
        OK(CALL(accept_into)(one, 7, found, length, &needed, &answer));
        HOLDS(needed == length && found_given(length));
    } else {
        OK(CALL(accept)(one, 7, &answer));
    }
    HOLDS(same_answer(&expected, &answer));
    for (uint16_t reg = 0; reg < REGISTERS; reg++) {
        int is_written = reg >= 7 && reg < 7 + entries;
        markring_ref held = {0}, wanted = is_written ? NOTHING : mine;
        if (is_written && count > 0) {
            wanted = sent[reg - 7];
        }
        IS(markring_ref_is_some(wanted) ? MARKRING_OK : MARKRING_NOTHING,
            CALL(register)(one, reg, &held));
        HOLDS(same_ref(held, wanted));
    }
    REFUSED(MARKRING_NO_LETTER, CALL(letter)(one, &answer));
}

// No, one, and as many references as may be, with no bytes, some, and as many as may be.
static void OF(sizes)(void)
{
    static const uint8_t COUNTS[] = {0, 1, 8};
    static const size_t LENGTHS[] = {0, 1, 1000, LONGEST};
    markring_ref sent[8] = {{0}};
    uint32_t label = 0xA1B2C3D0;
    uint64_t number = 0;
    OF(open)(&WIDE);
    OK(CALL(alloc)(&BOTH[1], 0, 0, &answer));
    for (uint8_t i = 0; i < 8; i++) {
        if (i % 4 != 1) {
            OK(CALL(alloc)(&BOTH[0], (uint16_t)(2 + i), 0, &answer));
            sent[i] = answer.reference;
        }
    }
    for (int i = 0; i < 3 * 4 * 2; i++) {
        uint8_t count = COUNTS[i % 3];
        size_t length = LENGTHS[i / 3 % 4];
        fill(++label);
        SENT(++number, CALL(post)(&BOTH[0], 1, label, 2, count, given, length, &answer));
        OF(flush)(0);
        OF(accept_letter)(label, sent, count, length, i >= 3 * 4);
    }
    // One reference from each register, and from the second one on.
    for (uint16_t reg = 0; reg < 10; reg++) {
        fill(++label);
        SENT(++number, CALL(post)(&BOTH[0], 1, label, reg, 1, given, reg, &answer));
        OF(flush)(0);
        OF(accept_letter)(label, reg < 2 ? &NOTHING : sent + reg - 2, 1, reg, reg % 2);
    }
    OF(close)();
}

// The refusals of a Post in their order, and what is just not refused.
static void OF(post_refusals)(void)
{
    HANDLE *zero = &BOTH[0];
    markring_link link;
    OF(open)(&WIDE);
    fill(1);
    REFUSED(MARKRING_NO_NODE, CALL(post)(zero, 2, 0, 99, 255, given, LONGEST + 1, &answer));
    REFUSED(MARKRING_NO_NODE, CALL(post)(zero, 255, 0, 0, 0, given, 0, &answer));
    REFUSED(MARKRING_SELF_SEND, CALL(post)(zero, 0, 0, 99, 255, given, LONGEST + 1, &answer));
    REFUSED(MARKRING_NO_REGISTER, CALL(post)(zero, 1, 0, 12, 9, given, LONGEST + 1, &answer));
    REFUSED(MARKRING_NO_REGISTER, CALL(post)(zero, 1, 0, 20, 1, given, 0, &answer));
    REFUSED(MARKRING_NO_REGISTER, CALL(post)(zero, 1, 0, 21, 0, given, 0, &answer));
    REFUSED(MARKRING_NO_REGISTER, CALL(post)(zero, 1, 0, 65535, 255, given, 0, &answer));
    REFUSED(MARKRING_TOO_MANY_FIELDS, CALL(post)(zero, 1, 0, 11, 9, given, LONGEST + 1, &answer));
    REFUSED(MARKRING_TOO_MANY_FIELDS, CALL(post)(zero, 1, 0, 0, 20, given, 0, &answer));
    REFUSED(MARKRING_TOO_MANY_BYTES, CALL(post)(zero, 1, 0, 12, 8, given, LONGEST + 1, &answer));
    OK(CALL(link)(zero, 1, &link));
    EQUAL(0, link.appended);
    SENT(1, CALL(post)(zero, 1, 0, 12, 8, given, LONGEST, &answer));
    SENT(2, CALL(post)(zero, 1, 0, 20, 0, given, 0, &answer));
    OF(close)();
    markring_shape small = {SLOTS, 10, REGISTERS, 2, 0, 1};
    OF(open)(&small);
    REFUSED(MARKRING_TOO_MANY_FIELDS, CALL(post)(zero, 1, 0, 0, 1, given, 11, &answer));
    REFUSED(MARKRING_TOO_MANY_BYTES, CALL(post)(zero, 1, 0, 0, 0, given, 11, &answer));
    SENT(1, CALL(post)(zero, 1, 0, 0, 0, given, 10, &answer));
    OF(close)();
    OF(open)(&PLAIN);
    REFUSED(MARKRING_SELF_SEND, CALL(post)(zero, 0, 0, 0, 0, given, 0, &answer));
    REFUSED(MARKRING_NO_REGISTER, CALL(post)(zero, 1, 0, 20, 1, given, 1, &answer));
    REFUSED(MARKRING_TOO_MANY_FIELDS, CALL(post)(zero, 1, 0, 0, 0, given, 0, &answer));
    OF(close)();
}

// The same of a Fetch. Register 0 has an object of node 0, register 1 none, register 2 one of
// node 1.
static void OF(fetch_refusals)(void)
{
    for (int is_wide = 0; is_wide < 2; is_wide++) {
        HANDLE *zero = &BOTH[0];
        OF(open)(is_wide ? &WIDE : &PLAIN);
        OK(CALL(alloc)(zero, 0, 0, &answer));
        OK(CALL(alloc)(&BOTH[1], 0, 0, &answer));
        OK(CALL(give)(&BOTH[1], 0, 0, 0, &answer));
        OF(flush)(1);
        OK(CALL(accept)(zero, 2, &answer));
        REFUSED(MARKRING_NO_REGISTER, CALL(fetch)(zero, 20, 0, 0, UINT32_MAX, &answer));
        REFUSED(MARKRING_NO_REGISTER, CALL(fetch)(zero, 65535, 0, 0, 0, &answer));
        REFUSED(MARKRING_EMPTY_REGISTER, CALL(fetch)(zero, 1, 0, 0, UINT32_MAX, &answer));
        REFUSED(MARKRING_LOCAL, CALL(fetch)(zero, 0, 0, 0, UINT32_MAX, &answer));
        REFUSED(MARKRING_TOO_MANY_BYTES, CALL(fetch)(zero, 2, 0, 0, LONGEST - 7, &answer));
        REFUSED(MARKRING_TOO_MANY_BYTES, CALL(fetch)(zero, 2, 0, 0, UINT32_MAX, &answer));
        if (is_wide) {
            SENT(1, CALL(fetch)(zero, 2, 0, UINT32_MAX, LONGEST - 8, &answer));
        } else {
            REFUSED(MARKRING_TOO_MANY_BYTES, CALL(fetch)(zero, 2, 0, 0, 0, &answer));
        }
        OF(close)();
    }
}

// What is refused leaves the letter, its bytes, and all registers.
static void OF(accept_refusals)(void)
{
    HANDLE *one = &BOTH[1];
    markring_ref sent[3] = {{0}};
    size_t needed = 77;
    OF(open)(&WIDE);
    OK(CALL(alloc)(one, 0, 0, &answer));
    fill(8);
    REFUSED(MARKRING_NO_REGISTER, CALL(accept)(one, 20, &answer));
    REFUSED(MARKRING_NO_LETTER, CALL(accept)(one, 19, &answer));
    REFUSED(MARKRING_NO_LETTER, CALL(letter)(one, &answer));
    REFUSED(MARKRING_NO_LETTER, CALL(letter_bytes)(one, found, sizeof found, &needed));
    REFUSED(MARKRING_NO_LETTER, CALL(accept_into)(one, 99, found, 0, &needed, &answer));
    HOLDS(needed == 77 && found_given(0));
    OK(CALL(alloc)(&BOTH[0], 1, 0, &answer));
    sent[1] = answer.reference;
    SENT(1, CALL(post)(&BOTH[0], 1, 77, 0, 3, given, 1000, &answer));
    OF(flush)(0);
    REFUSED(MARKRING_NO_REGISTER, CALL(accept)(one, 20, &answer));
    REFUSED(MARKRING_NO_REGISTER, CALL(accept)(one, 65535, &answer));
    REFUSED(MARKRING_NO_REGISTER, CALL(accept)(one, 18, &answer));
    for (size_t length = 0; length < 1000; length += length < 5 || length >= 995 ? 1 : 90) {
        needed = 77;
        REFUSED(MARKRING_SHORT_BUFFER, CALL(letter_bytes)(one, found, length, &needed));
        EQUAL(1000, needed);
        needed = 77;
        REFUSED(MARKRING_SHORT_BUFFER, CALL(accept_into)(one, 99, found, length, &needed, &answer));
        HOLDS(needed == 1000 && found_given(0));
    }
    REFUSED(MARKRING_NO_REGISTER, CALL(accept_into)(one, 18, found, 1000, &needed, &answer));
    REFUSED(MARKRING_NO_REGISTER, CALL(accept_into)(one, 20, found, 1000, &needed, &answer));
    HOLDS(needed == 1000 && found[1000] == 0x5A);
    OF(accept_letter)(77, sent, 3, 1000, 1);
    // The last registers.
    SENT(2, CALL(post)(&BOTH[0], 1, 78, 0, 3, given, 0, &answer));
    OF(flush)(0);
    OK(CALL(accept)(one, 17, &answer));
    EQUAL(78, answer.label);
    OF(close)();
}

// Node 1 asks for this range of its object, the word of which is in the answer, and gets this many
// of its bytes.
static void OF(fetch)(uint32_t offset, uint32_t count, size_t length)
{
    static const uint8_t WORD[] = {1, 2, 3, 4, 5, 6, 7, 8};
    size_t needed = 0;
    uint32_t label = 0xB1B20000 + 100 * offset + count;
    OK(CALL(fetch)(&BOTH[1], 3, label, offset, count, &answer));
    EQUAL(MARKRING_ANSWER_SENT, answer.kind);
    OF(flush)(1);
    OF(flush)(0);
    memset(found, 0x5A, sizeof found);
    OK(CALL(accept_into)(&BOTH[1], 5, found, sizeof found, &needed, &answer));
    HOLDS(answer.node == 0 && answer.label == label && answer.count == 1);
    HOLDS(same_ref(answer.reference, NOTHING) && answer.number == needed);
    EQUAL(8 + length, needed);
    HOLDS(memcmp(found, WORD, 8) == 0 && found[needed] == 0x5A);
    HOLDS(memcmp(found + 8, given + offset, length) == 0);
}

// The word and the range that are asked for; the word alone if the object hasn't the range.
static void OF(fetches)(void)
{
    OF(open)(&WIDE);
    fill(6);
    OK(CALL(alloc)(&BOTH[0], 0, 2, &answer));
    OK(CALL(set_word)(&BOTH[0], 0, UINT64_C(0x0102030405060708), &answer));
    OK(CALL(give)(&BOTH[0], 1, 0, 0, &answer));
    OF(flush)(0);
    OK(CALL(accept)(&BOTH[1], 3, &answer));
    OF(fetch)(0, 0, 0);
    OF(fetch)(0, 1, 0);
    OK(CALL(set_bytes)(&BOTH[0], 0, given, 10, &answer));
    OF(fetch)(0, 10, 10);
    OF(fetch)(3, 4, 4);
    OF(fetch)(9, 1, 1);
    OF(fetch)(10, 0, 0);
    OF(fetch)(9, 2, 0);
    OF(fetch)(11, 0, 0);
    OF(fetch)(0, 11, 0);
    OK(CALL(set_bytes)(&BOTH[0], 0, given, LONGEST, &answer));
    OF(fetch)(0, LONGEST - 8, LONGEST - 8);
    OF(fetch)(8, LONGEST - 8, LONGEST - 8);
    OF(fetch)(9, LONGEST - 8, 0);
    OF(close)();
}

// What waits, and what isn't acknowledged, is there again after a restart.
static void OF(restarts)(void)
{
    markring_ref sent[4] = {{0}};
    OF(open)(&WIDE);
    OK(CALL(alloc)(&BOTH[1], 0, 0, &answer));
    for (uint8_t i = 0; i < 4; i += 2) {
        OK(CALL(alloc)(&BOTH[0], i, 0, &answer));
        sent[i] = answer.reference;
    }
    fill(5);
    SENT(1, CALL(post)(&BOTH[0], 1, 10, 0, 4, given, 2000, &answer));
    OF(flush)(0);
    SENT(2, CALL(post)(&BOTH[0], 1, 11, 2, 2, given, 300, &answer));
    SENT(3, CALL(give)(&BOTH[0], 1, 12, 2, &answer));
    OF(reopen)(0);
    OF(reopen)(1);
    OF(accept_letter)(10, sent, 4, 2000, 1);
    OF(flush)(0);
    OF(reopen)(1);
    memset(found, 0x5A, sizeof found);
    size_t needed = 0;
    OK(CALL(accept_into)(&BOTH[1], 3, found, sizeof found, &needed, &answer));
    HOLDS(answer.label == 11 && answer.count == 2 && needed == 300 && found_given(300));
    OF(accept_letter)(12, sent + 2, 1, 0, 0);
    OF(close)();
}

// One cycle, from Begin until both nodes have swept.
static void OF(collect)(uint64_t cycle)
{
    markring_state states[2] = {{0}};
    OK(CALL(begin)(&BOTH[0], &answer));
    EQUAL(cycle, answer.number);
    for (int round = 0; states[0].swept + states[1].swept < 2 * cycle && HOLDS(round < ROUNDS);
         round++) {
        for (int i = 0; i < 2; i++) {
            while (CALL(scan)(&BOTH[i], &answer) == MARKRING_OK) {
            }
            (void)CALL(pass)(&BOTH[i], &answer);
            (void)CALL(sweep)(&BOTH[i], SLOTS, &answer);
            OF(flush)(i);
            OK(CALL(state)(&BOTH[i], &states[i]));
        }
    }
}

static void OF(expect_live)(uint32_t live)
{
    markring_state state;
    OK(CALL(state)(&BOTH[0], &state));
    EQUAL(live, state.live);
}

// The references of a letter keep their objects alive: on its way, while it waits, and then in
// registers.
static void OF(cycles)(void)
{
    OF(open)(&WIDE);
    for (uint16_t reg = 0; reg < 4; reg++) {
        OK(CALL(alloc)(&BOTH[0], reg, 1, &answer));
    }
    // The object in register 3 is only in a place of that in register 2.
    OK(CALL(store)(&BOTH[0], 2, 0, 3, &answer));
    OK(CALL(post)(&BOTH[0], 1, 1, 0, 3, given, 5, &answer));
    for (uint16_t reg = 0; reg < 4; reg++) {
        OK(CALL(drop)(&BOTH[0], reg, &answer));
    }
    // The fourth is private, and needed by one that was sent.
    OK(CALL(reclaim)(&BOTH[0], &answer));
    EQUAL(0, answer.count);
    OF(expect_live)(4);
    OF(collect)(1);
    OF(expect_live)(4);
    OF(collect)(2);
    OF(expect_live)(4);
    OK(CALL(accept)(&BOTH[1], 6, &answer));
    EQUAL(3, answer.count);
    OK(CALL(drop)(&BOTH[1], 7, &answer));
    OF(collect)(3);
    OF(expect_live)(3);
    OK(CALL(drop)(&BOTH[1], 8, &answer));
    OF(collect)(4);
    OF(expect_live)(1);
    OK(CALL(drop)(&BOTH[1], 6, &answer));
    OF(collect)(5);
    OF(expect_live)(0);
    OF(close)();
}

static void OF(both)(void)
{
    OF(sizes)();
    OF(post_refusals)();
    OF(fetch_refusals)();
    OF(accept_refusals)();
    OF(fetches)();
    OF(restarts)();
    OF(cycles)();
}
