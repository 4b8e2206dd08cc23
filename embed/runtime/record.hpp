// The logs of a run, by the recorder for C.
#ifndef VARUKONI_RUNTIME_RECORD_HPP
#define VARUKONI_RUNTIME_RECORD_HPP

#include "hublog.h"

#include <atomic>
#include <cstdlib>
#include <memory>
#include <string>
#include <thread>
#include <vector>

namespace runtime {
// What a recording knows of a port, which goes with it.
struct RecordedEnd {
    std::uint32_t end = 0, peer = 0, moves = 0;
    std::uint64_t posted = 0;
};
using Ends = std::vector<std::uint32_t>;

// The log of one agent. Where it can't be written the program ends: what is there is no recording.
class AgentLog {
  public:
    const unsigned number;
    AgentLog(const std::string &folder, unsigned given) : number(given) {
        std::string path = folder + "/agent-" + std::to_string(number) + ".log";
        wrote(hublog_open(&log, path.c_str(), number));
    }
    ~AgentLog() { wrote(hublog_finish(&log)); }
    // Writes of a message by hublog_put or hublog_got.
    void write(decltype(hublog_put) &entry, std::uint32_t end, unsigned line, std::uint64_t count,
               const Ends &ends, const std::string &body) {
        wrote(entry(&log, end, line, 0, count, ends.data(), ends.size(), body.data(), body.size()));
    }
    void take_back() { wrote(hublog_take_back(&log)); }
    void adopted(const RecordedEnd &port) { wrote(hublog_adopted(&log, port.end, port.moves)); }
    void closed(std::uint32_t end) { wrote(hublog_closed(&log, end)); }
  private:
    hublog log;
    static void wrote(hublog_answer answer) {
        if (answer == HUBLOG_DONE) return;
        std::fprintf(stderr, "varukoni-js: --record: %s\n",
                     answer == HUBLOG_IO ? std::strerror(errno) : "a limit of logs is passed");
        std::_Exit(4);
    }
};

// Numbers the agents and ends of a recording, where there is one.
struct Recorder {
    std::string folder;
    std::atomic<std::uint32_t> agents{0}, ends{0};
    // A log for the next agent. False where there are too many.
    bool next(std::unique_ptr<AgentLog> &log) {
        const unsigned number = folder.empty() ? 0 : agents.fetch_add(1);
        if (number >= 16) return false;
        if (!folder.empty()) log = std::make_unique<AgentLog>(folder, number);
        return true;
    }
    // The first of so many ends. False where that are too many.
    bool next(std::uint32_t count, std::uint32_t &first) {
        if (!folder.empty()) first = ends.fetch_add(count);
        return first + count <= HUBLOG_ENDS;
    }
};
}  // namespace runtime
#endif
