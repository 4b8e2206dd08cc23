// Message ports, queues of many senders and broadcasts for C++17, over varukoni_ports.h, whose
// rules these types keep by themselves: a port can't be copied, closes itself, and what nobody took
// is destroyed with it.
//
//     auto [left, right] = varukoni::open_channel();
//     left.post(varukoni::text("hello"));
//     varukoni::Message message = *right.wait();
//
// One thread at a time uses a port; the two ports of a channel may be used by two threads, and so
// may a fan and its lines, and the members of a group. A port goes to another thread by a move that
// is ordered (the start or the join of a thread, a lock), or in a message. Nothing here throws but
// std::bad_alloc.
#ifndef VARUKONI_PORTS_HPP
#define VARUKONI_PORTS_HPP

#include "varukoni_ports.h"

#include <atomic>
#include <chrono>
#include <condition_variable>
#include <functional>
#include <memory>
#include <mutex>
#include <new>
#include <optional>
#include <string>
#include <string_view>
#include <thread>
#include <utility>
#include <vector>

namespace varukoni {

// What a message carries beside its ports. A program derives its own; a body that nobody reads is
// destroyed.
struct Body {
    Body() = default;
    Body(const Body &) = delete;
    Body &operator=(const Body &) = delete;
    virtual ~Body() = default;
};

// A body of bytes.
struct Bytes final : Body {
    std::string bytes;
    explicit Bytes(std::string given) : bytes(std::move(given)) {}
};

class Port;

// A body and the ports that go with it.
struct Message {
    std::unique_ptr<Body> body;
    std::vector<Port> ports;

    Message();
    explicit Message(std::unique_ptr<Body> given);
    Message(std::unique_ptr<Body> given, std::vector<Port> sent);
    Message(Message &&) noexcept;
    Message &operator=(Message &&) noexcept;
    ~Message();

    // The bytes of a body of bytes; none of another one.
    std::optional<std::string_view> bytes() const;
};

// A message of bytes.
Message text(std::string bytes);

// What is called once, from whichever thread posts or closes.
using Waker = std::function<void()>;

// Why a message was not posted, or that it was.
enum class Posted {
    done,
    closed,        // the other port is closed, which it stays
    no_memory,
    too_many,      // more than 16 ports
    holds_itself,  // the port is in its own list
    holds_target,  // the list has the port at which the message would arrive
};

namespace detail {

// A token is the address of a waker; the library hands each token out once.
inline Waker *waker_of(std::uint64_t token) {
    return reinterpret_cast<Waker *>(static_cast<std::uintptr_t>(token));
}

inline void forget(std::uint64_t token) { delete waker_of(token); }

inline void wake(std::uint64_t token) {
    std::unique_ptr<Waker> waker(waker_of(token));
    if (waker) (*waker)();
}

// What each kind of handle has, all zero at first: a closed one.
inline void drop(varukoni_port &port) { varukoni_port_drop(&port); }
inline void drop(varukoni_fan &fan) { varukoni_fan_drop(&fan); }
inline std::uint8_t drain(varukoni_port &port, varukoni_message &words) {
    return varukoni_port_drain(&port, &words);
}
inline std::uint8_t drain(varukoni_fan &fan, varukoni_message &words) {
    std::uint32_t line;
    return varukoni_fan_drain(&fan, &words, &line);
}

template <class Handle> Handle taken(Handle &handle) {
    Handle was = handle;
    handle = {nullptr, false};
    return was;
}

// The message of words that the library has given, which is made of them once.
Message message_of(const varukoni_message &words);

// The same, whose ports are another owner's from now on: disabled, and nobody's to wake.
Message arrived(const varukoni_message &words);

// Posts a message by a call of the library. At any other answer than DONE it is as it was.
template <class Post> std::uint8_t posted(Message &message, Post post);

// Destroys messages with all that they hold, however deep, without a call within a call.
void destroy(std::vector<Message> found);

// A closed handle that isn't at its end: who still posts there drains it after its own last call.
template <class Handle> class Grave {
  public:
    Grave() = default;
    Grave(const Grave &) = delete;
    Grave &operator=(const Grave &) = delete;
    ~Grave() { drop(handle); }

    // Leaves a closed handle, and gives what comes out of it now.
    std::vector<Message> leave(Handle closed) {
        std::vector<Message> found;
        // Who posts there may have made its last call before this is locked.
        std::lock_guard<std::mutex> held(lock);
        handle = closed;
        go_on(found);
        return found;
    }

    // Goes on with a handle that was left, and destroys what comes out of it.
    void go_on() {
        std::vector<Message> found;
        {
            std::lock_guard<std::mutex> held(lock);
            if (handle.is_open) go_on(found);
        }
        destroy(std::move(found));
    }

  private:
    std::mutex lock;
    Handle handle = {nullptr, false};

    void go_on(std::vector<Message> &found) {
        varukoni_message words;
        std::uint8_t status;
        while ((status = drain(handle, words)) == VARUKONI_PORT_DONE)
            found.push_back(message_of(words));
        if (status == VARUKONI_PORT_ENDED) drop(handle);
    }
};

// What waits for messages. `Self` has `take`, `ended`, `start` and `arm_by`, which arms by a token.
template <class Self, class Item> class Receiver {
  public:
    // Leaves a waker. True: nothing can be taken now, and it is called once something can. False:
    // something is there, or this is closed, and the waker is gone.
    bool arm(Waker waker) {
        self().start();
        auto boxed = std::make_unique<Waker>(std::move(waker));
        std::uint64_t old = 0;
        auto token = static_cast<std::uint64_t>(reinterpret_cast<std::uintptr_t>(boxed.release()));
        std::uint8_t status = self().arm_by(token, old);
        forget(old);
        if (status == VARUKONI_PORT_EMPTY) return true;
        if (status == VARUKONI_PORT_WRONG_STATE) forget(token);
        disarm();
        return false;
    }

    // Nobody is to be woken any more.
    void disarm() {
        std::uint64_t old = 0;
        self().arm_by(0, old);
        forget(old);
    }

    // The next message, for which the thread sleeps where none is there; none once it has ended.
    std::optional<Item> wait() { return wait_until(std::nullopt); }

    // The same, for so long at most.
    std::optional<Item> wait_for(std::chrono::nanoseconds time) {
        return wait_until(std::chrono::steady_clock::now() + time);
    }

  private:
    struct Bell {
        std::mutex lock;
        std::condition_variable rung;
        bool is_rung = false;
    };

    Self &self() { return static_cast<Self &>(*this); }

    std::optional<Item> wait_until(std::optional<std::chrono::steady_clock::time_point> end) {
        for (unsigned looks = 0; looks < VARUKONI_LOOKS; looks++) {
            if (auto item = self().take()) return item;
            if (self().ended()) return std::nullopt;
            std::this_thread::yield();
        }
        auto bell = std::make_shared<Bell>();
        for (;;) {
            if (arm([bell] { ring(*bell); }) && !sleep(*bell, end)) {
                disarm();
                return self().take();
            }
            if (auto item = self().take()) return item;
            if (self().ended()) return std::nullopt;
        }
    }

    static void ring(Bell &bell) {
        std::lock_guard<std::mutex> held(bell.lock);
        bell.is_rung = true;
        bell.rung.notify_one();
    }

    // Whether it was rung in time.
    static bool sleep(Bell &bell, std::optional<std::chrono::steady_clock::time_point> end) {
        std::unique_lock<std::mutex> held(bell.lock);
        auto is_rung = [&bell] { return bell.is_rung; };
        bool in_time = true;
        if (end)
            in_time = bell.rung.wait_until(held, *end, is_rung);
        else
            bell.rung.wait(held, is_rung);
        bell.is_rung = false;
        return in_time;
    }
};

// What is left of the two ports of a channel.
struct Channel {
    Grave<varukoni_port> graves[2];
};

}  // namespace detail

// One of the two ports of a channel.
class Port : public detail::Receiver<Port, Message> {
  public:
    // A closed port.
    Port() = default;
    Port(Port &&other) noexcept { take_over(other); }
    Port &operator=(Port &&other) noexcept {
        if (this != &other) {
            detail::destroy(shut());
            take_over(other);
        }
        return *this;
    }
    ~Port() { detail::destroy(shut()); }

    bool is_open() const { return handle.is_open; }

    // Allows messages to be taken, as the first call that takes does.
    void start() {
        if (!is_started) varukoni_port_start(&handle);
        is_started = true;
    }

    // Posts a message. At any other answer than `done` it is as it was, with its ports.
    Posted post(Message &message) {
        Posted refused = refusal_of(message.ports);
        if (refused != Posted::done) return refused;
        std::uint8_t status = detail::posted(message, [this](auto words, auto token) {
            return varukoni_port_post(&handle, words, token);
        });
        if (status == VARUKONI_PORT_DONE) return Posted::done;
        if (status == VARUKONI_PORT_NO_MEMORY) return Posted::no_memory;
        if (channel) peer_grave().go_on();
        return Posted::closed;
    }
    Posted post(Message &&message) { return post(message); }

    // Takes the next message, if one is there.
    std::optional<Message> take() {
        start();
        varukoni_message words;
        switch (varukoni_port_take(&handle, &words)) {
        case VARUKONI_PORT_DONE: return detail::arrived(words);
        case VARUKONI_PORT_ENDED: has_ended = true; peer_grave().go_on(); return std::nullopt;
        default: return std::nullopt;
        }
    }

    // Whether nothing more will come: a take has found so, or the port is closed.
    bool ended() const { return has_ended || !handle.is_open; }

    // Closes the port, and gives what nobody took, in order.
    std::vector<Message> close() { return shut(); }

    friend std::pair<Port, Port> open_channel();

  private:
    friend class detail::Receiver<Port, Message>;
    friend Message detail::arrived(const varukoni_message &words);

    varukoni_port handle = VARUKONI_PORT_INIT;
    std::shared_ptr<detail::Channel> channel;
    int side = 0;
    bool is_started = false, has_ended = false;

    void take_over(Port &other) noexcept {
        handle = detail::taken(other.handle);
        channel = std::move(other.channel);
        side = other.side;
        is_started = other.is_started;
        has_ended = other.has_ended;
    }

    std::uint8_t arm_by(std::uint64_t token, std::uint64_t &old) {
        return varukoni_port_arm(&handle, token, &old);
    }

    // What is left of the peer, once this port has ended its line.
    detail::Grave<varukoni_port> &peer_grave() { return channel->graves[1 - side]; }

    Posted refusal_of(const std::vector<Port> &ports) const {
        if (ports.size() > VARUKONI_MOST_PORTS) return Posted::too_many;
        for (const Port &port : ports) {
            if (port.channel == channel)
                return port.side == side ? Posted::holds_itself : Posted::holds_target;
        }
        return Posted::done;
    }

    // Closes the handle, and gives what comes out of it. What is still to come is left to the peer.
    std::vector<Message> shut() {
        if (!handle.is_open) return {};
        std::uint64_t own = 0, woken = 0;
        varukoni_port_close(&handle, &own, &woken);
        detail::forget(own);
        detail::wake(woken);
        peer_grave().go_on();
        auto found = channel->graves[side].leave(detail::taken(handle));
        channel.reset();
        return found;
    }
};

inline std::pair<Port, Port> open_channel() {
    std::pair<Port, Port> ports;
    ports.first.channel = std::make_shared<detail::Channel>();
    ports.second.channel = ports.first.channel;
    ports.second.side = 1;
    if (varukoni_channel_open(&ports.first.handle, &ports.second.handle, 0) != VARUKONI_PORT_DONE)
        throw std::bad_alloc();
    return ports;
}

// A line of a fan: what one sender posts over, whose messages come in the order of its posts.
// Destroyed, it gives its place back.
class Line {
  public:
    // A line that is closed.
    Line() = default;
    Line(Line &&other) noexcept
        : handle(detail::taken(other.handle)), grave(std::move(other.grave)) {}
    Line &operator=(Line &&other) noexcept {
        if (this != &other) {
            shut();
            handle = detail::taken(other.handle);
            grave = std::move(other.grave);
        }
        return *this;
    }
    ~Line() { shut(); }

    bool is_open() const { return handle.is_open; }

    // Posts a message. At any other answer than `done` it is as it was, with its ports.
    Posted post(Message &message) {
        if (message.ports.size() > VARUKONI_MOST_PORTS) return Posted::too_many;
        std::uint8_t status = detail::posted(message, [this](auto words, auto token) {
            return varukoni_poster_post(&handle, words, token);
        });
        if (status == VARUKONI_PORT_DONE) return Posted::done;
        if (status == VARUKONI_PORT_NO_MEMORY) return Posted::no_memory;
        if (grave) grave->go_on();
        return Posted::closed;
    }
    Posted post(Message &&message) { return post(message); }

  private:
    friend class Fan;

    varukoni_poster handle = {nullptr, false};
    std::shared_ptr<detail::Grave<varukoni_fan>> grave;

    void shut() {
        if (!handle.is_open) return;
        std::uint64_t woken = 0;
        varukoni_poster_close(&handle, &woken);
        detail::wake(woken);
        grave->go_on();
        grave.reset();
    }
};

// The queue of one taker with up to 32 lines, as a worker or a client has.
class Fan : public detail::Receiver<Fan, Message> {
  public:
    Fan() : grave(std::make_shared<detail::Grave<varukoni_fan>>()) {
        if (varukoni_fan_open(&handle) != VARUKONI_PORT_DONE) throw std::bad_alloc();
    }
    Fan(Fan &&other) noexcept { take_over(other); }
    Fan &operator=(Fan &&other) noexcept {
        if (this != &other) {
            detail::destroy(shut());
            take_over(other);
        }
        return *this;
    }
    ~Fan() { detail::destroy(shut()); }

    // A line for one more sender; none where 32 are there.
    std::optional<Line> line() {
        Line opened;
        std::uint32_t number;
        switch (varukoni_fan_line(&handle, &opened.handle, &number)) {
        case VARUKONI_PORT_DONE: break;
        case VARUKONI_PORT_NO_MEMORY: throw std::bad_alloc();
        default: return std::nullopt;
        }
        lines++;
        opened.grave = grave;
        return opened;
    }

    // Allows messages to be taken, as the first call that takes does.
    void start() {
        if (!is_started) varukoni_fan_start(&handle);
        is_started = true;
    }

    // Takes the next message, if one is there. The lines are asked in turn, from behind the one
    // that gave the last.
    std::optional<Message> take() {
        start();
        varukoni_message words;
        std::uint32_t line;
        for (;;) {
            switch (varukoni_fan_take(&handle, &words, &line)) {
            case VARUKONI_PORT_DONE: return detail::arrived(words);
            case VARUKONI_PORT_ENDED: lines--; break;
            default: return std::nullopt;
            }
        }
    }

    // Whether no line is left, and all that was posted was taken.
    bool ended() const { return lines == 0; }

    // Closes the fan, and gives what nobody took: each line's messages in order.
    std::vector<Message> close() { return shut(); }

  private:
    friend class detail::Receiver<Fan, Message>;

    varukoni_fan handle = {nullptr, false};
    std::shared_ptr<detail::Grave<varukoni_fan>> grave;
    unsigned lines = 0;
    bool is_started = false;

    void take_over(Fan &other) noexcept {
        handle = detail::taken(other.handle);
        grave = std::move(other.grave);
        lines = std::exchange(other.lines, 0);
        is_started = other.is_started;
    }

    std::uint8_t arm_by(std::uint64_t token, std::uint64_t &old) {
        return varukoni_fan_arm(&handle, token, &old);
    }

    // Closes the handle, and gives what comes out of it. What is still to come is left to the
    // lines.
    std::vector<Message> shut() {
        if (!handle.is_open) return {};
        std::uint64_t own = 0;
        varukoni_fan_close(&handle, &own);
        detail::forget(own);
        return grave->leave(detail::taken(handle));
    }
};

// What a broadcast carries: one body that all who get it read.
using Shared = std::shared_ptr<const Body>;

namespace detail {

// The members of a group. The lock is held for as long as a call goes through them.
struct Members {
    std::mutex lock;
    varukoni_group handle = {nullptr, false};
    Members() {
        if (varukoni_group_open(&handle) != VARUKONI_PORT_DONE) throw std::bad_alloc();
    }
    ~Members() { varukoni_group_drop(&handle); }
};

// What the words of a broadcast name: its body, and how many of them there are.
struct Parcel {
    Shared body;
    std::atomic<std::size_t> owners;
};

inline void release(Parcel *parcel, std::size_t owners) {
    if (parcel->owners.fetch_sub(owners) == owners) delete parcel;
}

// The body of a broadcast, of which each member's words are read once.
inline Shared shared_of(const varukoni_message &words) {
    auto parcel = static_cast<Parcel *>(words.body);
    Shared body = parcel->body;
    release(parcel, 1);
    return body;
}

}  // namespace detail

// One member of a group: what the others post comes here, in one order for all. Destroyed, it
// leaves the group, and what nobody took is let go.
class Member : public detail::Receiver<Member, Shared> {
  public:
    Member(Member &&other) noexcept { take_over(other); }
    Member &operator=(Member &&other) noexcept {
        if (this != &other) {
            leave();
            take_over(other);
        }
        return *this;
    }
    ~Member() { leave(); }

    // Posts at all other members, and answers how many got it: all, unless memory ran out.
    std::size_t post(const Shared &body) {
        std::size_t posted = 0;
        for (const varukoni_answer &answer : cast(body)) {
            detail::wake(answer.wake);
            posted += answer.status == VARUKONI_PORT_DONE;
        }
        return posted;
    }

    // Takes the next broadcast, if one is there.
    std::optional<Shared> take() {
        varukoni_message words;
        std::uint32_t line;
        if (varukoni_fan_take(&handle, &words, &line) != VARUKONI_PORT_DONE) return std::nullopt;
        return detail::shared_of(words);
    }

    // There may always come more while it is a member.
    bool ended() const { return !handle.is_open; }

  private:
    friend class detail::Receiver<Member, Shared>;
    friend class Group;

    varukoni_fan handle = {nullptr, false};
    std::shared_ptr<detail::Members> members;
    std::uint64_t number = 0;

    explicit Member(std::shared_ptr<detail::Members> given) : members(std::move(given)) {
        varukoni_poster poster = {nullptr, false};
        std::uint32_t line;
        std::lock_guard<std::mutex> held(members->lock);
        bool is_done = varukoni_fan_open(&handle) == VARUKONI_PORT_DONE
                       && varukoni_fan_line(&handle, &poster, &line) == VARUKONI_PORT_DONE
                       && varukoni_fan_start(&handle) == VARUKONI_PORT_DONE
                       && varukoni_group_join(&members->handle, &poster, &number)
                              == VARUKONI_PORT_DONE;
        if (is_done) return;
        std::uint64_t woken;
        varukoni_poster_close(&poster, &woken);
        detail::drop(handle);
        throw std::bad_alloc();
    }

    void start() {}

    // What each member answered.
    std::vector<varukoni_answer> cast(const Shared &body) {
        std::lock_guard<std::mutex> held(members->lock);
        std::size_t count = 0, unsent = 1;
        varukoni_group_count(&members->handle, &count);
        std::vector<varukoni_answer> answers(count);
        auto parcel = new detail::Parcel{body, {count + 1}};
        varukoni_message words = {parcel, 0, nullptr};
        varukoni_group_cast(&members->handle, number, &words, answers.data(), count);
        for (const varukoni_answer &answer : answers) unsent += answer.status != VARUKONI_PORT_DONE;
        detail::release(parcel, unsent);
        return answers;
    }

    void take_over(Member &other) noexcept {
        handle = detail::taken(other.handle);
        members = std::move(other.members);
        number = other.number;
    }

    std::uint8_t arm_by(std::uint64_t token, std::uint64_t &old) {
        return varukoni_fan_arm(&handle, token, &old);
    }

    void leave() {
        if (!handle.is_open) return;
        std::uint64_t own = 0, woken = 0;
        {
            std::lock_guard<std::mutex> held(members->lock);
            varukoni_group_leave(&members->handle, number, &woken);
        }
        detail::forget(woken);
        varukoni_fan_close(&handle, &own);
        detail::forget(own);
        varukoni_message words;
        // The only line has ended, so all comes out now.
        while (detail::drain(handle, words) == VARUKONI_PORT_DONE) detail::shared_of(words);
        detail::drop(handle);
    }
};

// Members that post to each other, as the broadcast channels of one name do. It may go before them.
class Group {
  public:
    Group() : members(std::make_shared<detail::Members>()) {}
    Group(Group &&) noexcept = default;
    Group &operator=(Group &&) noexcept = default;

    // One more member, behind those that are there. Threads may call this at once.
    Member join() const { return Member(members); }

  private:
    std::shared_ptr<detail::Members> members;
};

namespace detail {

inline Message message_of(const varukoni_message &words) {
    Message message{std::unique_ptr<Body>(static_cast<Body *>(words.body))};
    std::unique_ptr<std::vector<Port>> sent(static_cast<std::vector<Port> *>(words.ports));
    if (sent) message.ports = std::move(*sent);
    return message;
}

inline Message arrived(const varukoni_message &words) {
    Message message = message_of(words);
    for (Port &port : message.ports) {
        std::uint64_t old = 0;
        varukoni_port_adopt(&port.handle, 0, &old);
        forget(old);
        port.is_started = false;
    }
    return message;
}

template <class Post> std::uint8_t posted(Message &message, Post post) {
    std::unique_ptr<std::vector<Port>> sent;
    if (!message.ports.empty())
        sent = std::make_unique<std::vector<Port>>(std::move(message.ports));
    varukoni_message words = {message.body.get(), 0, sent.get()};
    std::uint64_t woken = 0;
    std::uint8_t status = post(&words, &woken);
    if (status == VARUKONI_PORT_DONE) {
        (void)message.body.release();
        (void)sent.release();
        message.ports.clear();
        wake(woken);
    } else if (sent) {
        message.ports = std::move(*sent);
    }
    return status;
}

inline void destroy(std::vector<Message> found) {
    thread_local std::vector<Message> *later = nullptr;
    if (later != nullptr) {
        for (Message &message : found) later->push_back(std::move(message));
        return;
    }
    later = &found;
    while (!found.empty()) {
        Message last = std::move(found.back());
        found.pop_back();
    }
    later = nullptr;
}

}  // namespace detail

inline Message::Message() = default;
inline Message::Message(std::unique_ptr<Body> given) : body(std::move(given)) {}
inline Message::Message(std::unique_ptr<Body> given, std::vector<Port> sent)
    : body(std::move(given)), ports(std::move(sent)) {}
inline Message::Message(Message &&) noexcept = default;
inline Message &Message::operator=(Message &&) noexcept = default;
inline Message::~Message() = default;

inline std::optional<std::string_view> Message::bytes() const {
    if (auto found = dynamic_cast<const Bytes *>(body.get())) return found->bytes;
    return std::nullopt;
}

inline Message text(std::string bytes) {
    return Message(std::make_unique<Bytes>(std::move(bytes)));
}

}  // namespace varukoni
#endif
