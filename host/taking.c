// What comes from other nodes: who sent it, and the frames.
#include "inside.h"

enum { DATA_FRAME = 0x45, WIDE_DATA_FRAME = 0x46, FRAME_ADDRESSES = 3 };

// A message of wide spaces: its first byte, the addresses, its number (8), its stamp (8), its tag.
// In a Fetch, how many bytes it asks for comes last.
enum { FRAME_NUMBER = FRAME_ADDRESSES, FRAME_TAG = 19, POST = 9, FETCH = 10, FETCH_BYTES = 45 };

// ## The processes that ran this node
//
// The library judges what other nodes say of them (markring_lineage.h). Nothing leaves a process
// before its first save is stored, and with it the line up to this process; so no word is wrong of
// a folder that is the newest one.
//
// Once all other nodes know this process, the line before it may be forgotten: any older word is
// that of a node that has forgotten the newer one.

void forget_line(host *it)
{
    it->line[0] = (markring_ancestor){0, 0};
    it->line_count = 1;
    it->line_saved = false;
}

void begin_line(host *it)
{
    const markring_ancestor own = {it->nonce, it->run};
    it->line_count = markring_lineage_begin(it->line, LINE, it->line_count, &own);
    it->line_saved = false;
}

static void forget_earlier(host *it)
{
    const markring_ancestor own = {it->nonce, it->run};
    it->line_count = markring_lineage_forget(it->line, LINE, &own);
    it->line_saved = false;
}

// Another node knows this process.
static void note_known(host *it, peer *by)
{
    bool all = true;
    if (by->knows_this) {
        return;
    }
    by->knows_this = true;
    for (uint8_t node = 0; node < it->shape.nodes; node++) {
        all = all && (node == it->shape.own || it->peers[node].knows_this);
    }
    if (all) {
        forget_earlier(it);
    }
}

// That node doesn't know this process yet, and takes nothing of it before it hears that its word
// fits this folder.
static void note_word(host *it, const packet_head *head)
{
    peer *from = &it->peers[head->from];
    const process known = {head->known_nonce, 0, head->known_saves};
    uint64_t word = markring_lineage_word(&known);
    if (from->heard != word && !from->knows_this) {
        markring_sending_again(&from->sending);
    }
    from->heard = word;
    markring_sending_owe(&from->sending);
}

// What another node knows of this one shows whether this process may go on.
static bool may_go_on(host *it, const packet_head *head)
{
    switch (markring_lineage_judge(it->line, it->line_count, it->nonce, it->stored,
        head->known_nonce, head->known_saves)) {
    case MARKRING_LINEAGE_KNOWN: note_known(it, &it->peers[head->from]); return true;
    case MARKRING_LINEAGE_FITS: note_word(it, head); return true;
    default: break;
    }
    if (it->options.trusts_folder) {
        return true;
    }
    end_with(it, HOST_OLDER,
        "node %d knows save %llu of this node, which %s. So this folder or this process is an "
        "older copy, or another process uses a copy of the folder. Use the newest folder of this "
        "node, or restore the folders of all nodes from one moment. If neither is so, node %d is "
        "wrong: `run --trust-folder` once, on both, makes that node forget it and this one go on",
        head->from, (unsigned long long)head->known_saves,
        head->known_nonce == it->nonce ? "this process hasn't made"
                                       : "a process made that this folder doesn't know",
        head->from);
    return false;
}

// ## The processes that run other nodes

// Whether the packet is from the latest process of that node that is known. If a later one shows
// itself, that one is known from now on.
static bool is_latest(host *it, const packet_head *head)
{
    peer *from = &it->peers[head->from];
    switch (markring_lineage_meet(&from->known, &head->sender, head->fits)) {
    case MARKRING_LINEAGE_LATEST: return true;
    case MARKRING_LINEAGE_BEHIND:
        // It has to hear of it. (Two that trust their folders don't answer each other for ever.)
        if (!it->options.trusts_folder) {
            markring_sending_owe(&from->sending);
        }
        return true;
    case MARKRING_LINEAGE_LATER: markring_sending_again(&from->sending); return true;
    default:
        // The answer says to that process what is known.
        it->counts.outdated += head->sender.run <= from->known.saves;
        markring_sending_owe(&from->sending);
        return false;
    }
}

static bool is_for_us(const host *it, uint8_t from, const packet_head *head)
{
    return head->space == space_number(it->shape.space) && head->from == from
        && head->to == it->shape.own && from < it->shape.nodes && from != it->shape.own;
}

static load load_of(const uint8_t *frame, size_t length)
{
    load it = {0, 0, 0};
    if (frame[0] != WIDE_DATA_FRAME || length <= FRAME_TAG) {
        return it;
    }
    reader from = reader_of(frame + FRAME_NUMBER, 8);
    it.number = read_number(&from, 8);
    it.brings = frame[FRAME_TAG] == POST ? (uint32_t)length : 0;
    if (frame[FRAME_TAG] == FETCH && length == FETCH_BYTES) {
        from = reader_of(frame + length - 4, 4);
        it.asks = (uint32_t)read_number(&from, 4);
    }
    return it;
}

// Whether there is room for the letter that the message asks for.
static bool has_room_for(host *it, uint8_t from, const load *what)
{
    return what->asks == 0 || make_room_in_queue(&it->peers[from].queue);
}

// A message was received, and the letter that it asks for was sent.
static void note_received(host *it, uint8_t from, const load *what)
{
    markring_link link;
    note_change(it, MESSAGE_GROWTH + (size_t)what->brings + what->asks, 0);
    it->letter_bytes += what->brings;
    if (what->asks > 0 && markring_node_link(&it->node, from, &link) == MARKRING_OK) {
        add_to_queue(&it->peers[from].queue, link.appended, parcel_bytes(0, what->asks));
    }
}

// Receives the messages that were early, and whose turn has come. Returns whether it got all.
static bool receive_early(host *it, uint8_t from)
{
    markring_answer answer;
    uint64_t number;
    while (markring_node_waiting(&it->node, from, &number) == MARKRING_OK) {
        const load *noted = &it->peers[from].early[number % WINDOW];
        load what = noted->number == number ? *noted : (load){number, 0, 0};
        if (!has_room_for(it, from, &what)
            || markring_node_next(&it->node, from, &answer) != MARKRING_OK) {
            return false;
        }
        note_received(it, from, &what);
    }
    return true;
}

bool receive_all_early(host *it)
{
    bool all = true;
    for (uint8_t from = 0; from < it->shape.nodes; from++) {
        all = receive_early(it, from) && all;
    }
    return all;
}

static void note_taken(
    host *it, uint8_t from, int status, const load *what, const markring_answer *answer)
{
    switch (status) {
    case MARKRING_OK:
        it->counts.frames_in++;
        it->moved++;
        if (answer->kind == MARKRING_ANSWER_RECEIVED) {
            note_received(it, from, what);
        } else if (answer->kind == MARKRING_ANSWER_EARLY && what->number > 0) {
            it->peers[from].early[what->number % WINDOW] = *what;
        } else if (answer->kind == MARKRING_ANSWER_REPEAT) {
            it->counts.repeats++;
            markring_sending_owe(&it->peers[from].sending);
        }
        break;
    case MARKRING_MEMORY: it->counts.dropped++; break;
    case MARKRING_OUT_OF_ORDER:
    case MARKRING_ACK_BEYOND:
    case MARKRING_WRONG_NODE:
        end_with(it, HOST_OLDER,
            "a frame of node %d was refused with %s, which happens only if a folder is older than "
            "what left it. Use the newest folder of each node, or restore the folders of all nodes "
            "from one moment",
            from, markring_status_text(status));
        break;
    default: it->counts.malformed++;
    }
}

// Whether the letter that a Fetch asks for may be sent. While too many bytes wait for the node that
// asks, that is so only now and then, and of the next message alone: never would be too little,
// since that node may do the same.
static bool may_answer(host *it, uint8_t from, const load *what, uint64_t now)
{
    markring_link link;
    peer *at = &it->peers[from];
    if (what->asks == 0 || markring_node_link(&it->node, from, &link) != MARKRING_OK
        || what->number <= link.received) {
        return true;
    }
    bool is_next = what->number == link.received + 1;
    bool may = !is_over_byte_limit(it, from) || (is_next && now >= at->fetch_at);
    at->fetch_at = may && is_next ? now + FETCH_PAUSE : at->fetch_at;
    return may;
}

static void take_frame(host *it, uint64_t now, uint8_t from, const uint8_t *frame, size_t length)
{
    markring_answer answer;
    if (length < FRAME_ADDRESSES || frame[1] != from || frame[2] != it->shape.own) {
        it->counts.malformed++;
        return;
    }
    load what = load_of(frame, length);
    bool is_message = frame[0] == DATA_FRAME || frame[0] == WIDE_DATA_FRAME;
    if (is_message && !(takes_messages(it) && may_answer(it, from, &what, now))) {
        it->counts.full++;
        return;
    }
    if (!has_room_for(it, from, &what)) {
        it->counts.dropped++;
        return;
    }
    int status = markring_node_take(&it->node, frame, length, &answer);
    note_taken(it, from, status, &what, &answer);
}

void host_packet(host *it, uint64_t now, uint8_t from, const uint8_t *bytes, size_t length)
{
    packet_head head;
    reader rest = reader_of(bytes, length);
    if (it->end != HOST_RUNS || it->stopping) {
        return;
    }
    if (!read_packet_head(&rest, &head) || !is_for_us(it, from, &head)) {
        it->counts.foreign++;
        return;
    }
    it->counts.packets_in++;
    if (!may_go_on(it, &head) || !is_latest(it, &head)) {
        return;
    }
    note_heard(it, from, now);
    it->peers[from].live = head.live;
    it->peers[from].needs_cycle = head.needs_cycle != 0;
    while (rest.left > 0 && it->end == HOST_RUNS) {
        size_t size = 0;
        const uint8_t *frame = read_frame(&rest, &size);
        if (frame == NULL) {
            it->counts.malformed++;
            break;
        }
        take_frame(it, now, from, frame, size);
    }
    (void)receive_early(it, from);
}
