// The classes of markring.hpp: letters, images, batches and cells, what is refused, what is moved.
// Once more with the calls of markring.h that C++ programs use directly.
#include "markring.hpp"

#include <cstdio>
#include <cstring>
#include <string>
#include <type_traits>

using markring::Bytes;
using markring::Cell;
using markring::Error;
using markring::Node;
using markring::Space;
using markring::Watch;

namespace {

unsigned long passed, failed;

void check(bool holds, const char *what, int line)
{
    passed += holds;
    failed += !holds;
    if (!holds) {
        std::printf("FAILED: header.cc:%d: %s\n", line, what);
    }
}

#define HOLDS(condition) check((condition), #condition, __LINE__)

// The status with which a call ends.
template <class Call> int status_of(Call call)
{
    try {
        call();
    } catch (const Error &error) {
        HOLDS(std::strcmp(error.what(), markring_status_text(error.status())) == 0);
        return error.status();
    }
    return MARKRING_OK;
}

#define REFUSED(status, call) HOLDS(status_of([&] { (void)(call); }) == (status))

template <class Type> constexpr bool moves_only()
{
    return std::is_nothrow_move_constructible_v<Type> && std::is_nothrow_move_assignable_v<Type>
        && !std::is_copy_constructible_v<Type> && !std::is_copy_assignable_v<Type>;
}

static_assert(moves_only<Node>() && moves_only<Space>(), "");
static_assert(moves_only<Cell>() && moves_only<Watch>(), "");

bool is(const markring_ref &it, int node, std::uint32_t slot, std::uint64_t generation)
{
    return it.node == node && it.slot == slot && it.generation == generation;
}

void flush(Node &from, std::uint8_t own, Node &to)
{
    from.kept(from.image().mark);
    for (const auto &frame : from.frames(1 - own)) {
        to.take(frame.bytes.data(), frame.bytes.size());
    }
    to.release();
    const Bytes ack = to.ack_for(own);
    HOLDS(from.take(ack.data(), ack.size()) == MARKRING_ANSWER_DONE);
}

void letters()
{
    Node zero(2, 4, 16, 0), one(2, 4, 16, 1);
    HOLDS(is(zero.alloc(0, 1), 0, 0, 1));
    zero.set_word(0, 77);
    HOLDS(zero.give(1, 7, 0) == 1 && zero.frames(1).empty() && zero.unsaved());
    HOLDS(!zero.frame_at(1, 0) && !zero.reference(3));
    zero.release();
    const auto frames = zero.frames(1);
    HOLDS(frames.size() == 1 && frames[0].number == 1 && zero.frame_at(1, 0) == frames[0].bytes);
    flush(zero, 0, one);
    const markring_letter letter = one.accept(2);
    HOLDS(letter.from == 0 && letter.label == 7 && is(letter.reference, 0, 0, 1));
    REFUSED(MARKRING_REMOTE, one.word(2));
    HOLDS(is(one.alloc(1, 0), 1, 0, 1) && one.put(2, 0, 1) == 1 && one.get_place(2, 0, 9) == 2);
    flush(one, 1, zero);
    const auto held = zero.load(1, 0, 0);
    HOLDS(held && is(*held, 1, 0, 1) && zero.word(0) == 77);
    flush(zero, 0, one);
    HOLDS(one.accept(3).label == 9 && one.link(0).received == 2 && one.link(0).appended == 2);
    zero.clear(0, 0);
    HOLDS(!zero.load(1, 0, 0) && zero.state().live == 1 && zero.slots() == 1);
    zero.copy(3, 0);
    zero.store(3, 0, 0);
    zero.drop(3);
    const auto object = zero.object(0);
    HOLDS(object && object->word == 77 && object->places == 1 && !zero.object(1));
    HOLDS(zero.place(0, 0) && is(*zero.place(0, 0), 0, 0, 1));
    REFUSED(MARKRING_NOTHING, zero.place(1, 0));
    REFUSED(MARKRING_NO_FIELD, zero.place(0, 1));
    HOLDS(zero.act({MARKRING_EVENT_WORD, 0, 0, 0, 0, 0, 0, 0, 0}).number == 77);
}

// Letters with references and bytes of nodes and cells: what a sender with an object in register 2
// sends, and what the other one accepts.
template <class Sender> void post(Sender &sender)
{
    const Bytes all(65535, 0xAB);
    HOLDS(sender.post(1, 0xA1B2C3D4, 1, 3, all.data(), all.size()) == 1);
    HOLDS(sender.post(1, 8, 0, 0) == 2 && sender.post(1, 9, 2, 1, "bytes", 5) == 3);
    REFUSED(MARKRING_TOO_MANY_BYTES, sender.post(1, 9, 0, 0, all.data(), all.size() + 1));
    REFUSED(MARKRING_TOO_MANY_FIELDS, sender.post(1, 9, 0, 4, all.data(), 0));
    REFUSED(MARKRING_NO_REGISTER, sender.post(1, 9, 297, 4, all.data(), 0));
}

template <class Receiver> void accept(Receiver &receiver)
{
    const markring_letter first = receiver.letter();
    HOLDS(first.from == 0 && first.label == 0xA1B2C3D4 && first.reference.generation == 0);
    HOLDS(first.registers == 3 && first.bytes == 65535);
    HOLDS(receiver.letter_bytes() == Bytes(65535, 0xAB));
    REFUSED(MARKRING_NO_REGISTER, receiver.accept_with_bytes(298));
    const markring::Accepted accepted = receiver.accept_with_bytes(297);
    HOLDS(accepted.bytes == Bytes(65535, 0xAB) && accepted.letter.label == 0xA1B2C3D4);
    HOLDS(accepted.letter.registers == 3 && accepted.letter.bytes == 65535);
    HOLDS(!receiver.reference(297) && receiver.reference(298) && !receiver.reference(299));
    const markring::Accepted none = receiver.accept_with_bytes(4);
    HOLDS(none.bytes.empty() && none.letter.registers == 1 && none.letter.label == 8);
    HOLDS(receiver.letter_bytes().size() == 5);
    const markring_letter last = receiver.accept(5);
    HOLDS(last.label == 9 && last.registers == 1 && last.bytes == 5 && last.reference.slot == 0);
    REFUSED(MARKRING_NO_LETTER, receiver.letter());
    REFUSED(MARKRING_NO_LETTER, receiver.letter_bytes());
    REFUSED(MARKRING_NO_LETTER, receiver.accept_with_bytes(5));
}

void wide_letters()
{
    const markring_shape shape = {16, 70000, 300, 2, 3, 1};
    Node zero(shape, 0), one(shape, 1);
    zero.alloc(2, 1);
    zero.set_word(2, 0x0102030405060708);
    zero.set_bytes(2, "0123456789", 10);
    post(zero);
    zero.release();
    const auto frames = zero.frames(1), later = zero.frames(1, 2);
    HOLDS(frames.size() == 3 && frames[0].number == 1 && frames[2].number == 3);
    HOLDS(frames[0].bytes.size() > 65535 && zero.frame_at(1, 0) == frames[0].bytes);
    HOLDS(later.size() == 1 && later[0].number == 3 && later[0].bytes == frames[2].bytes);
    flush(zero, 0, one);
    accept(one);
    // The frames behind the second one are longer than the window of a plain space.
    Node longer(shape, 0);
    const Bytes all(65535, 0xCD);
    for (std::uint64_t number = 1; number <= 3; number++) {
        HOLDS(longer.post(1, 7, 0, 0, all.data(), all.size()) == number);
    }
    longer.release();
    const auto last = longer.frames(1, 2);
    HOLDS(last.size() == 1 && last[0].number == 3 && longer.frame_at(1, 2) == last[0].bytes);
    // Its owner sends the word and a range of the bytes.
    HOLDS(one.fetch(5, 0xB1B2B3B4, 3, 4) == 1);
    REFUSED(MARKRING_TOO_MANY_BYTES, one.fetch(5, 0, 0, 65528));
    flush(one, 1, zero);
    flush(zero, 0, one);
    const markring::Accepted fetched = one.accept_with_bytes(6);
    HOLDS(std::string(fetched.bytes.begin(), fetched.bytes.end()) == "\1\2\3\4\5\6\7\b3456");
    HOLDS(fetched.letter.label == 0xB1B2B3B4 && fetched.letter.bytes == 12);
    Space space(shape);
    space.open();
    auto from = space.cell(0), to = space.cell(1);
    from->alloc(2, 1);
    post(*from);
    from->save(from->image().mark);
    for (int i = 0; i < 3; i++) {
        HOLDS(from->send(1) && to->receive(0));
    }
    accept(*to);
    HOLDS(to->fetch(5, 7, 0, 0) == 1);
}

// A cycle frees what no program holds.
void cycle()
{
    Node zero(2, 4, 16, 0), one(2, 4, 16, 1);
    zero.alloc(0, 0);
    zero.drop(0);
    one.alloc(0, 0);
    HOLDS(zero.begin() == 1);
    REFUSED(MARKRING_CYCLE_RUNNING, zero.begin());
    flush(zero, 0, one);
    HOLDS(is(one.scan(), 1, 0, 1));
    std::uint8_t colour = 9;
    std::int64_t sum = 9;
    const markring_answer passed_on = one.pass();
    HOLDS(markring_answer_token(&passed_on, &colour, &sum) && colour == MARKRING_BLACK && sum == 0);
    flush(one, 1, zero);
    HOLDS(zero.pass().kind == MARKRING_ANSWER_PROBE_AGAIN);
    flush(zero, 0, one);
    one.pass();
    flush(one, 1, zero);
    const markring_answer ended = zero.pass();
    HOLDS(ended.kind == MARKRING_ANSWER_ENDED && ended.number == 1);
    const markring::Freed freed = zero.sweep(16);
    HOLDS(freed.count == 1 && freed.done && zero.state().live == 0);
    REFUSED(MARKRING_NOTHING_TO_DO, zero.sweep(16));
    REFUSED(MARKRING_NOTHING_TO_DO, zero.scan());
}

void bytes()
{
    const markring_shape shape = {16, 10, 2, 2, 1, 1};
    Node node(shape, 0);
    node.alloc(0, 1);
    HOLDS(node.bytes(0).empty() && node.bytes_length(0) == 0);
    node.set_bytes(0, "0123456789", 10);
    node.patch(0, 3, "ab", 2);
    const Bytes all = node.bytes(0), some = node.bytes_at(0, 3, 2);
    HOLDS(std::string(all.begin(), all.end()) == "012ab56789");
    HOLDS(std::string(some.begin(), some.end()) == "ab" && node.bytes(0, 3, 2) == some);
    REFUSED(MARKRING_NO_BYTES, node.bytes(0, 9, 2));
    REFUSED(MARKRING_NO_BYTES, node.bytes_at(0, 0, UINT32_MAX));
    REFUSED(MARKRING_NOTHING, node.bytes_at(1, 0, 0));
    REFUSED(MARKRING_TOO_MANY_BYTES, node.set_bytes(0, "01234567890", 11));
    node.set_bytes(0, nullptr, 0);
    HOLDS(node.bytes(0).empty() && node.reclaim() == 0);
    node.alloc(1, 0);
    node.drop(1);
    HOLDS(node.reclaim_young() == 1);
    const markring_ref kept = node.alloc(1, 0);
    node.set_word(1, 5);
    node.drop(1);
    node.resolve(1, kept);
    HOLDS(node.word(1) == 5);
    REFUSED(MARKRING_NO_FIELD, node.resolve(1, {0, 9, 1}));
}

void images()
{
    Node node(2, 4, 16, 0);
    REFUSED(MARKRING_NO_LOG, node.batch());
    node.log();
    const markring::Image image = node.image();
    HOLDS(image.mark == 1 && image.bytes.size() == node.image_size());
    node.kept(image.mark);
    node.alloc(0, 0);
    node.set_word(0, 5);
    const markring::Image batch = node.batch();
    HOLDS(batch.mark == 2);
    REFUSED(MARKRING_WRONG_MARK, node.kept(1));
    node.kept(2);
    Node again = Node::from_batches(image.bytes.data(), image.bytes.size(), batch.bytes.data(),
        batch.bytes.size());
    HOLDS(again.word(0) == 5 && again.batch_size() == 8);
    REFUSED(MARKRING_BAD_IMAGE, Node::from_image(image.bytes.data(), image.bytes.size()));
    node.log(false);
    const Bytes plain = node.image().bytes;
    Node third = Node::from_image(plain.data(), plain.size(), 1);
    HOLDS(third.word(0) == 5 && third.give(1, 0, 0) == 1);
    REFUSED(MARKRING_CONGESTED, third.give(1, 0, 0));
}

void early()
{
    Node zero(2, 4, 16, 0), one(2, 4, 16, 1);
    zero.give(1, 1, 0);
    zero.give(1, 2, 0);
    zero.release();
    const auto frames = zero.frames(1);
    HOLDS(frames.size() == 2 && zero.frames(1, 1).size() == 1 && !one.waiting(0));
    HOLDS(one.take(frames[1].bytes.data(), frames[1].bytes.size()) == MARKRING_ANSWER_EARLY);
    HOLDS(one.take(frames[0].bytes.data(), frames[0].bytes.size()) == MARKRING_ANSWER_RECEIVED);
    HOLDS(one.waiting(0) && *one.waiting(0) == 2);
    one.next(0);
    HOLDS(one.take(frames[1].bytes.data(), frames[1].bytes.size()) == MARKRING_ANSWER_REPEAT);
    REFUSED(MARKRING_BAD_FRAME, one.take(nullptr, 0));
}

// The frame of a letter from node 0 to node 1, without a reference.
Bytes letter_frame(std::uint8_t number, std::uint8_t stamp)
{
    return {0x45, 0, 1, 0, 0, 0, 0, 0, 0, 0, number, 0, 0, 0, 0, 0, 0, 0, stamp, 4, 0, 0, 0, 7, 0};
}

// What a turn of work did, also if a message ends it early.
void work()
{
    Node zero(2, 4, 16, 0), one(2, 4, 16, 1);
    zero.alloc(0, 0);
    zero.alloc(1, 0);
    zero.begin();
    const markring_work first = zero.work(1, 16), rest = zero.work(9, 16);
    HOLDS(first.scanned == 1 && first.more == 1 && rest.scanned == 1 && rest.more == 0);
    HOLDS(!rest.passed && !rest.swept && rest.received == 0);
    for (std::uint8_t number = 3; number > 0; number--) {
        const Bytes frame = letter_frame(number, number == 3 ? 9 : 0);
        HOLDS(one.take(frame.data(), frame.size())
            == (number == 1 ? MARKRING_ANSWER_RECEIVED : MARKRING_ANSWER_EARLY));
    }
    try {
        one.work(1, 1);
        HOLDS(false);
    } catch (const markring::WorkError &error) {
        HOLDS(error.status() == MARKRING_WRONG_NODE && error.done().received == 1);
    }
    HOLDS(one.work(1, 1).received == 0);
    Node none;
    REFUSED(MARKRING_NO_HANDLE, none.work(1, 1));
}

// What was freed, of a node and of the cells of a space that collects.
void lists()
{
    const markring_shape shape = {100, 0, 2, 2, 1, 1};
    Node node(shape, 0);
    node.track_freed();
    for (std::uint64_t number = 0; number < 90; number++) {
        node.alloc(0, 0);
        node.set_word(0, number);
    }
    HOLDS(node.reclaim() == 89 && node.freed().empty());
    node.release();
    const auto freed = node.freed();
    HOLDS(freed.size() == 89 && freed[88].word == 88 && is(freed[88].reference, 0, 88, 1));
    HOLDS(node.freed().empty());
    Space space(shape);
    space.open();
    std::vector<Cell> cells;
    cells.push_back(std::move(*space.cell(0)));
    cells.push_back(std::move(*space.cell(1)));
    cells[1].track_freed();
    const markring_ref lost = cells[1].alloc(0, 0);
    cells[1].drop(0);
    std::size_t stored[2] = {0, 0};
    const auto store = [&](std::uint8_t own, const Bytes &image) { stored[own] = image.size(); };
    markring::collect(cells, store);
    const auto gone = cells[1].freed();
    HOLDS(gone.size() == 1 && gone[0].reference.slot == lost.slot && gone[0].word == 0);
    HOLDS(cells[0].state().swept == 1 && stored[0] == cells[0].image_size());
    cells[1].track_freed(false);
    cells.pop_back();
    REFUSED(MARKRING_BAD_ARGUMENT, markring::collect(cells, [](std::uint8_t, const Bytes &) {}));
}

void moves()
{
    Node first(2, 4, 16, 0);
    first.alloc(0, 0);
    Node second = std::move(first);
    HOLDS(!first && second && second.state().live == 1);
    REFUSED(MARKRING_NO_HANDLE, first.state());
    first = Node(2, 4, 16, 1);
    HOLDS(first && first.state().own == 1);
    second = std::move(first);
    HOLDS(second.state().own == 1 && second.state().live == 0);
    second.close();
    second.close();
    REFUSED(MARKRING_NO_HANDLE, second.image());
    REFUSED(MARKRING_BAD_ARGUMENT, Node(1, 4, 16, 0));
    REFUSED(MARKRING_NO_NODE, Node(2, 4, 16, 2));
    HOLDS(markring_node_new(second.get(), 2, 4, 16, 0, 0) == MARKRING_OK && second);
}

void cells()
{
    Space space(3, 4, 16, 1);
    HOLDS(!space.cell(0) && !space.watch());
    space.open();
    REFUSED(MARKRING_IN_USE, space.open());
    REFUSED(MARKRING_NO_NODE, space.cell(3));
    auto zero = space.cell(0), one = space.cell(1), two = space.cell(2);
    auto watch = space.watch();
    HOLDS(zero && one && two && watch && !space.cell(0) && !space.watch());
    space.close();
    Bytes old[3] = {zero->image().bytes, one->image().bytes, two->image().bytes};
    one->alloc(0, 0);
    one->give(2, 7, 0);
    REFUSED(MARKRING_WRONG_MARK, one->save(1));
    one->save(one->image().mark);
    HOLDS(one->send(2) && !one->send(2) && !two->receive(0));
    const auto received = two->receive(1);
    HOLDS(received && *received == MARKRING_ANSWER_RECEIVED && two->accept(1).label == 7);
    HOLDS(zero->raise() == 0 && watch->look() == 0);
    REFUSED(MARKRING_NOT_DIRECTOR, two->raise());
    one->set_word(0, 5);
    one->reopen();
    HOLDS(one->word(0) == 0 && !one->unsaved());

    // Node 2 has received a letter of node 1 that the image of node 1 hasn't sent.
    const markring_shape shape = {16, 0, 4, 3, 8, 0};
    Space later(shape);
    later.disk(0, old[0]);
    later.disk(1, old[1]);
    later.disk(2, two->image().bytes);
    try {
        later.open();
        HOLDS(false);
    } catch (const markring::AgesError &error) {
        HOLDS(error.sender == 1 && error.receiver == 2 && error.status() == MARKRING_AGES);
    }
    later.disk(2, Bytes());
    REFUSED(MARKRING_BAD_IMAGE, later.open());
    later.disk(2, old[2]);
    later.open();
    HOLDS(later.cell(2)->state().own == 2);
}

} // namespace

int main()
{
    letters();
    wide_letters();
    cycle();
    bytes();
    images();
    early();
    work();
    lists();
    moves();
    cells();
    std::printf("%lu passed, %lu failed\n", passed, failed);
    return failed != 0 || passed == 0;
}
