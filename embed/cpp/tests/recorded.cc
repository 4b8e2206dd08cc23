// Threads that send each other messages and ports, and record what they put and got:
//
//     recorded FOLDER AGENTS ROUNDS SEED
//
// Each agent is a thread with a log in the folder and a fan, at which each other agent has a line,
// and two ports to share. It posts and takes at what it has, sends ports on over lines, closes
// some, and in the end all. tools/report judges the logs. The last line tells how much was done.
#include "../../../record/hublog.h"
#include "varukoni_ports.hpp"

#include <atomic>
#include <cstdio>
#include <cstdlib>

using namespace varukoni;

constexpr std::size_t MOST_SENT = 3, MOST_PORTS = 24;

// What is known of a port, which goes with it.
struct Known {
    std::uint32_t end, peer, moves;
    std::uint64_t posted;
};

struct Held {
    Port port;
    Known known;
};

// A line to another agent's fan.
struct Way {
    Line line;
    std::uint32_t end, number;
    std::uint64_t posted;
};

struct Note final : Body {
    std::uint32_t line = 0;
    std::uint64_t number = 0;
    std::vector<Known> ports;
};

static void logged(hublog_answer answer) {
    if (answer == HUBLOG_DONE) return;
    std::fprintf(stderr, "recorded.cc: a log answers %d\n", static_cast<int>(answer));
    std::abort();
}

static std::vector<std::uint32_t> ends_of(const std::vector<Known> &ports) {
    std::vector<std::uint32_t> ends;
    for (const Known &known : ports) ends.push_back(known.end);
    return ends;
}

struct Agent {
    hublog log;
    std::uint32_t end = 0;
    Fan fan;
    std::vector<Way> ways;
    std::vector<Held> ports;
    std::uint64_t random = 0, put = 0, got = 0, adopted = 0, closed = 0, refused = 0;

    std::size_t draw(std::size_t below) {
        random = random * 6364136223846793005u + 1442695040888963407u;
        return static_cast<std::size_t>(random >> 33) % below;
    }

    void log_put(std::uint32_t at, const Note &note) {
        auto ends = ends_of(note.ports);
        logged(hublog_put(&log, at, note.line, 0, note.number, ends.data(), ends.size(),
                          &note.number, sizeof note.number));
    }

    void log_got(std::uint32_t at, const Note &note) {
        auto ends = ends_of(note.ports);
        logged(hublog_got(&log, at, note.line, 0, note.number, ends.data(), ends.size(),
                          &note.number, sizeof note.number));
        got++;
    }

    // Posts over a line, and sends some ports along.
    void post_over_line() {
        std::size_t at = draw(ways.size());
        Way &way = ways[at];
        auto note = std::make_unique<Note>();
        note->line = way.number;
        note->number = way.posted;
        Message message;
        for (std::size_t left = draw(MOST_SENT + 1); left > 0 && !ports.empty(); left--) {
            note->ports.push_back(ports.back().known);
            message.ports.push_back(std::move(ports.back().port));
            ports.pop_back();
        }
        log_put(way.end, *note);
        message.body = std::move(note);
        if (way.line.post(message) == Posted::done) {
            way.posted++;
            put++;
            return;
        }
        logged(hublog_take_back(&log));
        refused++;
        const auto &known = static_cast<const Note &>(*message.body).ports;
        for (std::size_t n = 0; n < known.size(); n++)
            ports.push_back({std::move(message.ports[n]), known[n]});
        ways.erase(ways.begin() + static_cast<std::ptrdiff_t>(at));
    }

    void post_over_port(std::size_t at) {
        Held &held = ports[at];
        auto note = std::make_unique<Note>();
        note->number = held.known.posted;
        log_put(held.known.peer, *note);
        if (held.port.post(Message(std::move(note))) == Posted::done) {
            held.known.posted++;
            put++;
            return;
        }
        logged(hublog_take_back(&log));
        refused++;
        close(at);
    }

    void close(std::size_t at) {
        logged(hublog_closed(&log, ports[at].known.end));
        closed++;
        std::swap(ports[at], ports.back());
        ports.pop_back();
    }

    void take_from_fan() {
        auto message = fan.take();
        if (!message) return;
        const auto &note = static_cast<const Note &>(*message->body);
        log_got(end, note);
        for (std::size_t n = 0; n < note.ports.size(); n++) {
            Known known = note.ports[n];
            logged(hublog_adopted(&log, known.end, ++known.moves));
            adopted++;
            ports.push_back({std::move(message->ports[n]), known});
        }
        while (ports.size() > MOST_PORTS) close(0);
    }

    void take_from_port(std::size_t at) {
        auto message = ports[at].port.take();
        if (message)
            log_got(ports[at].known.end, static_cast<const Note &>(*message->body));
        else if (ports[at].port.ended())
            close(at);
    }

    void step() {
        std::size_t choice = draw(8);
        if (choice < 2 && !ways.empty())
            post_over_line();
        else if (choice >= 2 && choice < 6 && !ports.empty()) {
            std::size_t at = draw(ports.size());
            choice < 4 ? post_over_port(at) : take_from_port(at);
        } else
            take_from_fan();
    }

    void run(unsigned long rounds) {
        for (unsigned long n = 0; n < rounds; n++) step();
        while (!ports.empty()) close(0);
        logged(hublog_closed(&log, end));
        closed++;
        fan.close();
        logged(hublog_finish(&log));
    }
};

static void give(Agent &agent, Port port, std::uint32_t end, std::uint32_t peer) {
    agent.ports.push_back({std::move(port), {end, peer, 0, 0}});
}

int main(int count, char **words) {
    if (count != 5) return 2;
    auto number = static_cast<std::uint32_t>(std::strtoul(words[2], nullptr, 10));
    std::vector<Agent> agents(number);
    for (std::uint32_t n = 0; n < number; n++) {
        std::string path = words[1] + std::string("/agent-") + std::to_string(n) + ".log";
        agents[n].end = n;
        agents[n].random = std::strtoul(words[4], nullptr, 10) + n;
        logged(hublog_open(&agents[n].log, path.c_str(), n));
    }
    for (std::uint32_t to = 0; to < number; to++) {
        for (std::uint32_t from = 0, line = 0; from < number; from++)
            if (from != to) agents[from].ways.push_back({*agents[to].fan.line(), to, line++, 0});
    }
    for (std::uint32_t n = 0, end = number; n < number; n++, end += 2) {
        auto [one, other] = open_channel();
        give(agents[n], std::move(one), end, end + 1);
        give(agents[(n + 1) % number], std::move(other), end + 1, end);
    }
    std::atomic<std::uint32_t> waiting{number};
    std::vector<std::thread> threads;
    for (Agent &agent : agents) {
        threads.emplace_back([&agent, &waiting, rounds = std::strtoul(words[3], nullptr, 10)] {
            for (waiting--; waiting > 0;) std::this_thread::yield();
            agent.run(rounds);
        });
    }
    unsigned long put = 0, got = 0, adopted = 0, closed = 0, refused = 0;
    for (std::uint32_t n = 0; n < number; n++) {
        threads[n].join();
        put += agents[n].put, got += agents[n].got, adopted += agents[n].adopted;
        closed += agents[n].closed, refused += agents[n].refused;
    }
    std::printf("%lu put, %lu got, %lu adopted, %lu closed, %lu refused\n", put, got, adopted,
                closed, refused);
}
