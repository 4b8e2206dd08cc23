// What the programs of this folder share: counted bodies, and facts that end them with status 99
// where one doesn't hold.
#ifndef NEEDING_HPP
#define NEEDING_HPP

#include "varukoni_ports.hpp"

#include <atomic>
#include <cstdio>
#include <cstdlib>

using namespace varukoni;
using namespace std::chrono_literals;

static std::atomic<int> living, needed;

static void need(bool holds, int line) {
    needed++;
    if (holds) return;
    std::fprintf(stderr, "line %d\n", line);
    std::exit(99);
}
#define NEED(what) need(what, __LINE__)

struct Counted final : Body {
    unsigned long number;
    explicit Counted(unsigned long given = 0) : number(given) { living++; }
    ~Counted() override { living--; }
};

static Message counted(unsigned long number = 0) {
    return Message(std::make_unique<Counted>(number));
}

static unsigned long number(const Message &message) {
    return static_cast<const Counted &>(*message.body).number;
}

#endif
