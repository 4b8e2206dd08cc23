// How other threads reach an agent: what they tell it, and how they wake and end it.
#ifndef VARUKONI_RUNTIME_INBOX_HPP
#define VARUKONI_RUNTIME_INBOX_HPP

#include <js/Interrupt.h>
#include <jsapi.h>

#include <algorithm>
#include <atomic>
#include <cerrno>
#include <chrono>
#include <cstdint>
#include <mutex>
#include <optional>
#include <poll.h>
#include <sys/eventfd.h>
#include <system_error>
#include <unistd.h>
#include <vector>

namespace runtime {
using Clock = std::chrono::steady_clock;

// What an agent is told: a port of its own has something, or a worker's thread is at its end.
struct Notice {
    enum class Kind { port, worker_ended } kind;
    std::uint64_t id;
};

// What other threads have of an agent, for as long as one of them holds it.
class Inbox {
  public:
    Inbox() : event(eventfd(0, EFD_NONBLOCK | EFD_CLOEXEC)) {
        if (event < 0) throw std::system_error(errno, std::generic_category(), "eventfd");
    }
    ~Inbox() { close(event); }
    // The lock is free again before an agent that looks sees that there is something.
    void put(Notice notice) {
        std::unique_lock<std::mutex> held(lock);
        notices.push_back(notice);
        held.unlock();
        wake();
    }
    void take(std::vector<Notice> &into) {
        if (!is_filled.load(std::memory_order_relaxed)) return;
        std::lock_guard<std::mutex> held(lock);
        is_filled.store(false);
        into.swap(notices);
    }
    bool is_ending() const { return ends.load(std::memory_order_relaxed); }
    // Ends the agent, whatever its script is doing.
    void end() {
        std::lock_guard<std::mutex> held(lock);
        ends.store(true);
        if (context != nullptr) JS_RequestInterruptCallback(context);
        wake();
    }
    // The context that may be interrupted; none once it is going to be destroyed.
    void attach(JSContext *given) {
        std::lock_guard<std::mutex> held(lock);
        context = given;
    }
    // Sleeps until something is told, or until this time. Before that it looks for some
    // microseconds, but in none of the next waits where it has looked in vain.
    void sleep(std::optional<Clock::time_point> until) {
        const auto end = Clock::now() + look_time;
        for (unsigned look = 1; blind_waits == 0; look++) {
            if (is_filled.load(std::memory_order_relaxed)) return;
            __builtin_ia32_pause();
            if (look % looks_a_time == 0 && Clock::now() > end) blind_waits = most_blind_waits;
        }
        blind_waits--;
        pollfd waited = {event, POLLIN, 0};
        const auto left = until ? std::max<std::int64_t>((*until - Clock::now()).count(), 0) : 0;
        const timespec time = {left / 1'000'000'000, left % 1'000'000'000};
        is_asleep.store(true);
        if (!is_filled.load()) ppoll(&waited, 1, until ? &time : nullptr, nullptr);
        is_asleep.store(false);
        for (std::uint64_t count; read(event, &count, sizeof count) > 0;) continue;
    }

  private:
    static constexpr unsigned looks_a_time = 20, most_blind_waits = 32;
    static constexpr std::chrono::microseconds look_time{50};
    const int event;
    unsigned blind_waits = 0;
    std::mutex lock;
    std::vector<Notice> notices;
    JSContext *context = nullptr;
    std::atomic<bool> is_filled{false}, is_asleep{false}, ends{false};
    void wake() {
        const std::uint64_t one = 1;
        is_filled.store(true);
        while (is_asleep && write(event, &one, sizeof one) < 0 && errno == EINTR) continue;
    }
};
}  // namespace runtime
#endif
