// markring in C++: nodes, spaces, cells and watches that free themselves. C++17, in the header alone.
// It uses the calls of markring.h; what these do and which statuses they return is said there.
//
// # Errors
//
// A call that is refused throws a markring::Error, which has the status. It changed nothing, unless
// markring.h says otherwise. MARKRING_NOTHING isn't thrown if a call returns a std::optional: that
// is empty then. What the standard library throws without memory, std::bad_alloc, comes through.
//
// # Handles
//
// An object owns what its handle holds. It can be moved and not copied; one that was moved from is
// empty, and its calls throw MARKRING_NO_HANDLE. get() lends the handle to calls of markring.h. One
// thread at a time uses an object, as markring.h says under "What a caller owes", which also holds
// here.
#ifndef MARKRING_HPP
#define MARKRING_HPP

#include <markring.h>

#include <cstddef>
#include <cstdint>
#include <exception>
#include <optional>
#include <utility>
#include <vector>

namespace markring {

using Bytes = std::vector<std::uint8_t>;

// Why a call was refused.
class Error : public std::exception {
public:
    explicit Error(int status) noexcept : status_(status) {}

    // An enum markring_status.
    int status() const noexcept { return status_; }
    const char *what() const noexcept override { return markring_status_text(status_); }

private:
    int status_;
};

// Why the collector's share of a turn ended early, and what it had done.
class WorkError : public Error {
public:
    WorkError(int status, const markring_work &done) noexcept : Error(status), done_(done) {}

    const markring_work &done() const noexcept { return done_; }

private:
    markring_work done_;
};

// An image or a batch: what to store, and the mark to pass to kept() or save() once it is stored.
struct Image {
    Bytes bytes;
    std::uint64_t mark;
};

// A released message: its number on its link, and what to send.
struct Frame {
    std::uint64_t number;
    Bytes bytes;
};

// A letter that was accepted, and its bytes.
struct Accepted {
    markring_letter letter;
    Bytes bytes;
};

// What a sweep did: how many objects were freed, and whether all slots are swept.
struct Freed {
    std::uint32_t count;
    bool done;
};

// What the classes below share. A program doesn't use it by name.
namespace inside {

inline void check(int status)
{
    if (status != MARKRING_OK) {
        throw Error(status);
    }
}

// As check, but returns whether there is anything.
inline bool found(int status)
{
    if (status == MARKRING_NOTHING) {
        return false;
    }
    check(status);
    return true;
}

inline std::optional<markring_ref> optional(const markring_ref &reference)
{
    return reference.generation != 0 ? std::optional<markring_ref>(reference) : std::nullopt;
}

// A handle that is freed once.
template <class Raw, int (*Free)(Raw *)> class Handle {
public:
    Handle() = default;
    Handle(Handle &&other) noexcept : raw_(std::exchange(other.raw_, Raw{})) {}
    Handle &operator=(Handle &&other) noexcept
    {
        Handle(std::move(other)).swap(*this);
        return *this;
    }
    Handle(const Handle &) = delete;
    Handle &operator=(const Handle &) = delete;
    ~Handle() { Free(&raw_); }

    // The handle, for calls of markring.h.
    Raw *get() noexcept { return &raw_; }
    explicit operator bool() const noexcept { return raw_.at != nullptr; }
    // Frees what it holds. What isn't saved is lost.
    void close() noexcept { Free(&raw_); }

private:
    void swap(Handle &other) noexcept { std::swap(raw_, other.raw_); }

    Raw raw_{};
};

// The calls of nodes or of cells, under common names.
#define MARKRING_CALLS(Name, kind) \
    struct Name { \
        using Raw = markring_##kind; \
        static constexpr auto free = markring_##kind##_free; \
        static constexpr auto alloc = markring_##kind##_alloc; \
        static constexpr auto copy = markring_##kind##_copy; \
        static constexpr auto drop = markring_##kind##_drop; \
        static constexpr auto load = markring_##kind##_load; \
        static constexpr auto store = markring_##kind##_store; \
        static constexpr auto clear = markring_##kind##_clear; \
        static constexpr auto word = markring_##kind##_word; \
        static constexpr auto set_word = markring_##kind##_set_word; \
        static constexpr auto set_bytes = markring_##kind##_set_bytes; \
        static constexpr auto patch = markring_##kind##_patch; \
        static constexpr auto give = markring_##kind##_give; \
        static constexpr auto post = markring_##kind##_post; \
        static constexpr auto accept = markring_##kind##_accept; \
        static constexpr auto letter = markring_##kind##_letter; \
        static constexpr auto letter_bytes = markring_##kind##_letter_bytes; \
        static constexpr auto accept_into = markring_##kind##_accept_into; \
        static constexpr auto put = markring_##kind##_put; \
        static constexpr auto get = markring_##kind##_get; \
        static constexpr auto fetch = markring_##kind##_fetch; \
        static constexpr auto resolve = markring_##kind##_resolve; \
        static constexpr auto reclaim = markring_##kind##_reclaim; \
        static constexpr auto reclaim_young = markring_##kind##_reclaim_young; \
        static constexpr auto begin = markring_##kind##_begin; \
        static constexpr auto scan = markring_##kind##_scan; \
        static constexpr auto pass = markring_##kind##_pass; \
        static constexpr auto sweep = markring_##kind##_sweep; \
        static constexpr auto next = markring_##kind##_next; \
        static constexpr auto work = markring_##kind##_work; \
        static constexpr auto act = markring_##kind##_act; \
        static constexpr auto image_size = markring_##kind##_image_size; \
        static constexpr auto image = markring_##kind##_image; \
        static constexpr auto state = markring_##kind##_state; \
        static constexpr auto link = markring_##kind##_link; \
        static constexpr auto reference = markring_##kind##_register; \
        static constexpr auto bytes = markring_##kind##_bytes; \
        static constexpr auto bytes_length = markring_##kind##_bytes_length; \
        static constexpr auto slots = markring_##kind##_slots; \
        static constexpr auto object = markring_##kind##_object; \
        static constexpr auto place = markring_##kind##_place; \
        static constexpr auto bytes_at = markring_##kind##_bytes_at; \
        static constexpr auto unsaved = markring_##kind##_unsaved; \
        static constexpr auto track_freed = markring_##kind##_track_freed; \
        static constexpr auto freed = markring_##kind##_freed; \
    }
MARKRING_CALLS(NodeCalls, node);
MARKRING_CALLS(CellCalls, cell);
#undef MARKRING_CALLS

// What nodes and cells have in common: the calls of markring.h of the same names.
template <class Calls>
class Events : public Handle<typename Calls::Raw, Calls::free> {
public:
    markring_ref alloc(std::uint16_t reg, std::uint8_t places)
    {
        return ask(Calls::alloc, reg, places).reference;
    }
    void copy(std::uint16_t reg, std::uint16_t source) { ask(Calls::copy, reg, source); }
    void drop(std::uint16_t reg) { ask(Calls::drop, reg); }
    // The content of the place, which the register gets.
    std::optional<markring_ref> load(std::uint16_t reg, std::uint16_t object, std::uint8_t place)
    {
        return optional(ask(Calls::load, reg, object, place).reference);
    }
    void store(std::uint16_t object, std::uint8_t place, std::uint16_t reg)
    {
        ask(Calls::store, object, place, reg);
    }
    void clear(std::uint16_t object, std::uint8_t place) { ask(Calls::clear, object, place); }
    std::uint64_t word(std::uint16_t object) { return ask(Calls::word, object).number; }
    void set_word(std::uint16_t object, std::uint64_t word) { ask(Calls::set_word, object, word); }
    void set_bytes(std::uint16_t object, const void *bytes, std::size_t length)
    {
        ask(Calls::set_bytes, object, at(bytes), length);
    }
    void patch(std::uint16_t object, std::uint32_t offset, const void *bytes, std::size_t length)
    {
        ask(Calls::patch, object, offset, at(bytes), length);
    }
    // These return the number of the message.
    std::uint64_t give(std::uint8_t to, std::uint32_t label, std::uint16_t reg)
    {
        return ask(Calls::give, to, label, reg).number;
    }
    std::uint64_t put(std::uint16_t object, std::uint8_t place, std::uint16_t reg)
    {
        return ask(Calls::put, object, place, reg).number;
    }
    std::uint64_t get_place(std::uint16_t object, std::uint8_t place, std::uint32_t label)
    {
        return ask(Calls::get, object, place, label).number;
    }
    std::uint64_t fetch(std::uint16_t object, std::uint32_t label, std::uint32_t offset,
        std::uint32_t count)
    {
        return ask(Calls::fetch, object, label, offset, count).number;
    }
    std::uint64_t post(std::uint8_t to, std::uint32_t label, std::uint16_t first,
        std::uint8_t count, const void *bytes = nullptr, std::size_t length = 0)
    {
        return ask(Calls::post, to, label, first, count, at(bytes), length).number;
    }
    // The letter's bytes are gone then.
    markring_letter accept(std::uint16_t reg) { return told(ask(Calls::accept, reg)); }
    Accepted accept_with_bytes(std::uint16_t reg)
    {
        Bytes bytes(letter_length());
        std::size_t needed = 0;
        markring_answer answer{};
        check(Calls::accept_into(this->get(), reg, buffer(bytes), bytes.size(), &needed, &answer));
        return {told(answer), std::move(bytes)};
    }
    // The oldest letter that waits, as accept() would return it. Its references are in no register
    // yet.
    markring_letter letter() { return told(ask(Calls::letter)); }
    Bytes letter_bytes()
    {
        Bytes bytes(letter_length());
        std::size_t needed = 0;
        check(Calls::letter_bytes(this->get(), buffer(bytes), bytes.size(), &needed));
        return bytes;
    }
    void track_freed(bool on = true) { check(Calls::track_freed(this->get(), on)); }
    // The objects that were freed and that no image has which may still be opened.
    std::vector<markring_freed> freed()
    {
        std::vector<markring_freed> all;
        constexpr std::size_t room = 64;
        std::size_t count = 0;
        do {
            const std::size_t had = all.size();
            all.resize(had + room);
            const int status = Calls::freed(this->get(), all.data() + had, room, &count);
            all.resize(had + (status == MARKRING_OK ? count : 0));
            check(status);
        } while (count == room);
        return all;
    }
    void resolve(std::uint16_t reg, const markring_ref &reference)
    {
        ask(Calls::resolve, reg, &reference);
    }
    // How many objects were freed.
    std::uint32_t reclaim() { return ask(Calls::reclaim).count; }
    std::uint32_t reclaim_young() { return ask(Calls::reclaim_young).count; }
    // The cycle that begins.
    std::uint64_t begin() { return ask(Calls::begin).number; }
    // The object whose places were shaded.
    markring_ref scan() { return ask(Calls::scan).reference; }
    // PASSED, PROBE_AGAIN or ENDED: markring_answer_token and markring_answer_ended read it.
    markring_answer pass() { return ask(Calls::pass); }
    Freed sweep(std::uint32_t count)
    {
        const markring_answer answer = ask(Calls::sweep, count);
        return {answer.count, answer.done != 0};
    }
    void next(std::uint8_t from) { ask(Calls::next, from); }
    // It throws a WorkError.
    markring_work work(std::uint32_t scans, std::uint32_t slots)
    {
        markring_work done{};
        const int status = Calls::work(this->get(), scans, slots, &done);
        if (status != MARKRING_OK) {
            throw WorkError(status, done);
        }
        return done;
    }
    markring_answer act(const markring_event &event) { return ask(Calls::act, &event); }

    std::size_t image_size() { return read<std::size_t>(Calls::image_size); }
    Image image()
    {
        Image image{Bytes(image_size()), 0};
        std::size_t needed = 0;
        Bytes &bytes = image.bytes;
        check(Calls::image(this->get(), buffer(bytes), bytes.size(), &needed, &image.mark));
        return image;
    }

    markring_state state() { return read<markring_state>(Calls::state); }
    markring_link link(std::uint8_t peer) { return read<markring_link>(Calls::link, peer); }
    // The reference in a register.
    std::optional<markring_ref> reference(std::uint16_t reg)
    {
        return look<markring_ref>(Calls::reference, reg);
    }
    std::uint32_t bytes_length(std::uint16_t object)
    {
        return read<std::uint32_t>(Calls::bytes_length, object);
    }
    Bytes bytes(std::uint16_t object, std::uint32_t offset, std::uint32_t count)
    {
        return written(Calls::bytes, object, bytes_length(object), offset, count);
    }
    // All bytes of the object.
    Bytes bytes(std::uint16_t object)
    {
        const std::uint32_t length = bytes_length(object);
        return written(Calls::bytes, object, length, 0, length);
    }
    std::uint32_t slots() { return read<std::uint32_t>(Calls::slots); }
    std::optional<markring_object> object(std::uint32_t slot)
    {
        return look<markring_object>(Calls::object, slot);
    }
    // What a place of the object in a slot holds. It throws MARKRING_NOTHING if there is no object.
    std::optional<markring_ref> place(std::uint32_t slot, std::uint8_t place)
    {
        return optional(read<markring_ref>(Calls::place, slot, place));
    }
    // Bytes of the object in a slot. It throws MARKRING_NOTHING if there is no object.
    Bytes bytes_at(std::uint32_t slot, std::uint32_t offset, std::uint32_t count)
    {
        const markring_object it = read<markring_object>(Calls::object, slot);
        return written(Calls::bytes_at, slot, it.bytes, offset, count);
    }
    bool unsaved() { return read<std::uint8_t>(Calls::unsaved) != 0; }

protected:
    Events() = default;

    static const std::uint8_t *at(const void *bytes)
    {
        static const std::uint8_t none = 0;
        return bytes != nullptr ? static_cast<const std::uint8_t *>(bytes) : &none;
    }
    // The buffer of bytes, which is no null pointer if there are none.
    static std::uint8_t *buffer(Bytes &bytes)
    {
        static std::uint8_t none = 0;
        return bytes.empty() ? &none : bytes.data();
    }
    // The answer of a call.
    template <class Call, class... Words> markring_answer ask(Call call, Words... words)
    {
        return read<markring_answer>(call, words...);
    }
    // What a call writes.
    template <class Value, class Call, class... Words> Value read(Call call, Words... words)
    {
        Value value{};
        check(call(this->get(), words..., &value));
        return value;
    }
    template <class Value, class Call, class... Words>
    std::optional<Value> look(Call call, Words... words)
    {
        Value value{};
        return found(call(this->get(), words..., &value)) ? std::optional<Value>(value)
                                                          : std::nullopt;
    }

private:
    static markring_letter told(const markring_answer &answer)
    {
        return {answer.node, answer.label, answer.reference, answer.count, answer.number};
    }
    std::size_t letter_length() { return static_cast<std::size_t>(letter().bytes); }
    // Some of this many bytes of an object: if more are asked for, the call is refused anyway.
    template <class Call, class Number>
    Bytes written(Call call, Number of, std::uint32_t length, std::uint32_t offset,
        std::uint32_t count)
    {
        Bytes bytes(count < length ? count : length);
        std::size_t needed = 0;
        check(call(this->get(), of, offset, count, buffer(bytes), bytes.size(), &needed));
        return bytes;
    }
};

} // namespace inside

// One node of a space, for a caller that moves its frames and stores its images.
class Node : public inside::Events<inside::NodeCalls> {
public:
    // An empty one.
    Node() = default;
    Node(std::uint8_t nodes, std::uint16_t registers, std::uint32_t slots, std::uint8_t own,
        std::uint64_t limit = 0)
    {
        inside::check(markring_node_new(get(), nodes, registers, slots, own, limit));
    }
    Node(const markring_shape &shape, std::uint8_t own, std::uint64_t limit = 0)
    {
        inside::check(markring_node_make(get(), &shape, own, limit));
    }
    static Node from_image(const void *bytes, std::size_t length, std::uint64_t limit = 0)
    {
        Node node;
        inside::check(markring_node_from_image(node.get(), at(bytes), length, limit));
        return node;
    }
    static Node from_batches(const void *image, std::size_t image_length, const void *batches,
        std::size_t batches_length, std::uint64_t limit = 0)
    {
        Node node;
        inside::check(markring_node_from_batches(node.get(), at(image), image_length, at(batches),
            batches_length, limit));
        return node;
    }

    // RECEIVED, REPEAT or EARLY for a message, DONE for an acknowledgement.
    markring_answer_kind take(const void *bytes, std::size_t length)
    {
        const markring_answer answer = ask(markring_node_take, at(bytes), length);
        return static_cast<markring_answer_kind>(answer.kind);
    }
    std::optional<Bytes> frame_at(std::uint8_t to, std::uint8_t place)
    {
        Bytes bytes(MARKRING_FRAME_BYTES);
        std::size_t needed = 0;
        int status = frame(to, place, bytes, needed);
        if (status == MARKRING_SHORT_BUFFER) {
            // A letter with references or bytes.
            bytes.resize(needed);
            status = frame(to, place, bytes, needed);
        }
        if (!inside::found(status)) {
            return std::nullopt;
        }
        bytes.resize(needed);
        return bytes;
    }
    // The frames in the window whose numbers are above `after`, in order.
    std::vector<Frame> frames(std::uint8_t to, std::uint64_t after = 0)
    {
        std::uint8_t window[MARKRING_WINDOW_BYTES];
        Bytes longer;
        const std::uint8_t *from = window;
        std::size_t count = 0, needed = 0;
        int status = markring_node_frames(get(), to, after, window, sizeof window, &count, &needed);
        if (needed > sizeof window) {
            // Letters with references or bytes.
            longer.resize(needed);
            from = longer.data();
            status = markring_node_frames(get(), to, after, longer.data(), longer.size(), &count,
                &needed);
        }
        std::vector<Frame> frames;
        while (inside::found(status) && frames.size() < count) {
            const std::size_t length = static_cast<std::size_t>(number(from, 4));
            frames.push_back({number(from + 4, 8), Bytes(from + 12, from + 12 + length)});
            from += 12 + length;
        }
        return frames;
    }
    Bytes ack_for(std::uint8_t from)
    {
        Bytes bytes(MARKRING_ACK_BYTES);
        std::size_t needed = 0;
        inside::check(markring_node_ack_for(get(), from, bytes.data(), bytes.size(), &needed));
        return bytes;
    }
    // The number of the message that next() receives now.
    std::optional<std::uint64_t> waiting(std::uint8_t from)
    {
        return look<std::uint64_t>(markring_node_waiting, from);
    }

    void kept(std::uint64_t mark) { inside::check(markring_node_kept(get(), mark)); }
    void release() { inside::check(markring_node_release(get())); }
    void log(bool on = true) { inside::check(markring_node_log(get(), on)); }
    std::size_t batch_size() { return read<std::size_t>(markring_node_batch_size); }
    Image batch()
    {
        Image batch{Bytes(batch_size()), 0};
        std::size_t needed = 0;
        inside::check(markring_node_batch(get(), buffer(batch.bytes), batch.bytes.size(), &needed,
            &batch.mark));
        return batch;
    }

private:
    int frame(std::uint8_t to, std::uint8_t place, Bytes &bytes, std::size_t &needed)
    {
        return markring_node_frame_at(get(), to, place, bytes.data(), bytes.size(), &needed);
    }
    // A big-endian number of this many bytes.
    static std::uint64_t number(const std::uint8_t *from, int length)
    {
        std::uint64_t number = 0;
        for (int i = 0; i < length; i++) {
            number = number << 8 | from[i];
        }
        return number;
    }
};

// A node with its place on the wire between the nodes of a space.
class Cell : public inside::Events<inside::CellCalls> {
public:
    // The kind of the answer, as of Node::take. Empty if no frame waits.
    std::optional<markring_answer_kind> receive(std::uint8_t from)
    {
        const auto answer = look<markring_answer>(markring_cell_receive, from);
        return answer ? std::optional(static_cast<markring_answer_kind>(answer->kind))
                      : std::nullopt;
    }
    // Whether the mailbox was empty, and a frame was put there.
    bool send(std::uint8_t to) { return read<std::uint8_t>(markring_cell_send, to) != 0; }
    void save(std::uint64_t mark) { inside::check(markring_cell_save(get(), mark)); }
    void reopen() { inside::check(markring_cell_reopen(get())); }
    std::uint64_t raise() { return read<std::uint64_t>(markring_cell_raise); }
};

// A view of the last cycle whose marking has ended.
class Watch : public inside::Handle<markring_watch, markring_watch_free> {
public:
    std::uint64_t look()
    {
        std::uint64_t cycle = 0;
        inside::check(markring_watch_look(get(), &cycle));
        return cycle;
    }
};

// The images of two nodes aren't of one moment: the status is MARKRING_AGES. The receiver has
// received messages that the sender hasn't sent, or lacks some that the sender has dropped.
class AgesError : public Error {
public:
    AgesError(std::uint8_t from, std::uint8_t to) noexcept
        : Error(MARKRING_AGES), sender(from), receiver(to)
    {
    }

    std::uint8_t sender, receiver;
};

// A space whose nodes are in threads of one process. It makes cells and watches.
class Space : public inside::Handle<markring_space, markring_space_free> {
public:
    Space() = default;
    Space(std::uint8_t nodes, std::uint16_t registers, std::uint32_t slots,
        std::uint8_t watches = 0)
    {
        inside::check(markring_space_new(get(), nodes, registers, slots, watches));
    }
    explicit Space(const markring_shape &shape, std::uint8_t watches = 0)
    {
        inside::check(markring_space_make(get(), &shape, watches));
    }

    void disk(std::uint8_t node, const Bytes &image)
    {
        const std::uint8_t none = 0;
        const std::uint8_t *bytes = image.empty() ? &none : image.data();
        inside::check(markring_space_disk(get(), node, bytes, image.size()));
    }
    // It throws an AgesError if the images aren't of one moment.
    void open()
    {
        std::uint8_t sender = 0, receiver = 0;
        const int status = markring_space_open(get(), &sender, &receiver);
        if (status == MARKRING_AGES) {
            throw AgesError(sender, receiver);
        }
        inside::check(status);
    }
    // The cell of a node; empty if the space isn't open or the cell was moved out before.
    std::optional<Cell> cell(std::uint8_t node)
    {
        Cell cell;
        const bool found = inside::found(markring_space_cell(get(), node, cell.get()));
        return found ? std::optional<Cell>(std::move(cell)) : std::nullopt;
    }
    // A watch; empty if the space isn't open or all its watches were moved out.
    std::optional<Watch> watch()
    {
        Watch watch;
        const bool found = inside::found(markring_space_watch(get(), watch.get()));
        return found ? std::optional<Watch>(std::move(watch)) : std::nullopt;
    }
};

// Collects what is garbage in a space whose programs are all stopped; `cells` are those of all
// nodes, in order. It ends the cycle that is under way and the next one, and saves each cell. What
// was garbage before, saved or not, is gone then, rings of objects across nodes included.
// `store(node, image)` stores a node's Bytes safely before they count as saved. If it throws, or a
// call is refused, what was done before remains done, and the call may be repeated.
template <class Store> void collect(std::vector<Cell> &cells, Store store)
{
    std::vector<markring_cell> handles(cells.size());
    const std::uint64_t cycle = cells.empty() ? 0 : cells[0].state().cycle + 1;
    for (std::uint8_t done = 0; !done;) {
        for (std::size_t node = 0; node < cells.size(); node++) {
            handles[node] = *cells[node].get();
        }
        const int status = markring_space_collect(handles.data(), handles.size(), cycle, &done);
        for (std::size_t node = 0; node < cells.size(); node++) {
            *cells[node].get() = handles[node];
        }
        inside::check(status);
        for (std::size_t node = 0; node < cells.size(); node++) {
            if (cells[node].unsaved()) {
                const Image image = cells[node].image();
                store(static_cast<std::uint8_t>(node), image.bytes);
                cells[node].save(image.mark);
            }
        }
    }
}

} // namespace markring

#endif
