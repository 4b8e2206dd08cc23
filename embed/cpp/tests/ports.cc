// What the types of varukoni_ports.hpp do: what comes, what is destroyed, and who is woken. It
// prints how much it did; the exit status is 99 where something is wrong.
#include "needing.hpp"

#include <type_traits>

static_assert(!std::is_copy_constructible_v<Port> && !std::is_copy_assignable_v<Port>);
static_assert(std::is_nothrow_move_constructible_v<Port>);
static_assert(!std::is_copy_constructible_v<Message> && !std::is_copy_constructible_v<Fan>);
static_assert(!std::is_copy_constructible_v<Line> && !std::is_copy_constructible_v<Group>);
static_assert(!std::is_copy_constructible_v<Member>);

static void what_waits_travels_along() {
    auto [near, far] = open_channel();
    auto [road, there] = open_channel();
    NEED(near.post(counted(1)) == Posted::done && near.post(counted(2)) == Posted::done);
    Message moving = text("a port");
    moving.ports.push_back(std::move(far));
    NEED(road.post(moving) == Posted::done && moving.ports.empty() && !moving.body);
    NEED(near.post(counted(3)) == Posted::done);
    std::thread taker([there = std::move(there)]() mutable {
        auto message = there.wait();
        NEED(message && message->bytes() == "a port" && message->ports.size() == 1);
        Port &port = message->ports[0];
        for (unsigned long next = 1; next <= 4; next++) {
            auto got = port.wait();
            NEED(got && number(*got) == next);
            if (next == 2) NEED(port.post(text("two")) == Posted::done);
        }
        NEED(!port.wait() && port.ended());
    });
    auto reply = near.wait();
    NEED(reply && reply->bytes() == "two");
    NEED(near.post(counted(4)) == Posted::done);
    near = Port();
    taker.join();
    NEED(living == 0);
}

static void what_is_refused_comes_back() {
    auto [left, right] = open_channel();
    auto [other, other_far] = open_channel();
    Message many = counted();
    for (int n = 0; n < 17; n++) many.ports.push_back(open_channel().first);
    NEED(left.post(many) == Posted::too_many && many.ports.size() == 17 && many.body);
    Message doomed = counted();
    doomed.ports.push_back(std::move(other));
    doomed.ports.push_back(std::move(right));
    NEED(left.post(doomed) == Posted::holds_target && doomed.ports.size() == 2);
    NEED(doomed.ports[0].post(counted(7)) == Posted::done);
    NEED(number(*other_far.wait()) == 7);
    doomed.ports.pop_back();
    NEED(left.post(doomed) == Posted::closed && doomed.ports.size() == 1 && doomed.body);
}

static void close_gives_what_nobody_took() {
    auto [left, right] = open_channel();
    for (unsigned long n = 0; n < 5; n++) NEED(left.post(counted(n)) == Posted::done);
    NEED(number(*right.take()) == 0);
    auto found = right.close();
    NEED(found.size() == 4 && number(found[3]) == 4 && living == 4);
    found.clear();
    NEED(living == 0 && left.post(counted()) == Posted::closed);
}

static void a_closed_port_keeps_nothing() {
    Port closed;
    Message refused = counted(4);
    NEED(closed.post(refused) == Posted::closed && number(refused) == 4);
    auto waker = std::make_shared<int>();
    NEED(!closed.arm([waker] {}) && waker.use_count() == 1 && !closed.wait());
}

static void posts_beside_a_close_are_destroyed_once(int rounds) {
    for (int round = 0; round < rounds; round++) {
        auto [left, right] = open_channel();
        std::thread poster([left = std::move(left)]() mutable {
            while (left.post(counted()) == Posted::done) {}
        });
        for (int n = 0; n < round % 7; n++) std::this_thread::yield();
        right = Port();
        poster.join();
        NEED(living == 0);
    }
}

static void nested_ports_are_closed(int depth) {
    auto [first, last] = open_channel();
    for (int n = 0; n < depth; n++) {
        auto [next, end] = open_channel();
        Message message = counted();
        message.ports.push_back(std::move(last));
        NEED(next.post(message) == Posted::done);
        last = std::move(end);
    }
    last = Port();
    NEED(living == 0 && first.post(counted()) == Posted::closed);
}

static void who_waits_is_woken_once() {
    auto [left, right] = open_channel();
    auto rung = std::make_shared<std::atomic<int>>(0);
    NEED(right.arm([rung] { ++*rung; }));
    NEED(right.arm([rung] { ++*rung; }) && rung.use_count() == 2);
    NEED(left.post(counted()) == Posted::done && left.post(counted()) == Posted::done);
    NEED(*rung == 1 && rung.use_count() == 1);
    NEED(!right.arm([rung] { ++*rung; }) && rung.use_count() == 1);
    NEED(right.take() && right.take() && !right.take());
    auto begun = std::chrono::steady_clock::now();
    NEED(!right.wait_for(20ms) && std::chrono::steady_clock::now() - begun >= 20ms);
    left = Port();
    NEED(!right.wait() && right.ended());
}

static void sleepers(unsigned long count) {
    auto [left, right] = open_channel();
    std::thread taker([right = std::move(right), count]() mutable {
        for (unsigned long next = 0; next < count; next++) {
            auto message = right.wait();
            NEED(message && number(*message) == next);
        }
        NEED(!right.wait());
    });
    for (unsigned long n = 0; n < count; n++) {
        NEED(left.post(counted(n)) == Posted::done);
        if (n % 5 == 0) std::this_thread::yield();
    }
    left = Port();
    taker.join();
    NEED(living == 0);
}

int main() {
    what_waits_travels_along();
    what_is_refused_comes_back();
    close_gives_what_nobody_took();
    a_closed_port_keeps_nothing();
    posts_beside_a_close_are_destroyed_once(300);
    nested_ports_are_closed(100000);
    who_waits_is_woken_once();
    sleepers(30000);
    std::printf("needed: %d\n", needed.load());
    return living == 0 ? 0 : 99;
}
