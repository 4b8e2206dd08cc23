// What the files of varukoni-js share: agents, and the ports and channels of their scripts.
#ifndef VARUKONI_RUNTIME_AGENT_HPP
#define VARUKONI_RUNTIME_AGENT_HPP

#include "inbox.hpp"
#include "record.hpp"
#include "varukoni_ports.hpp"

#include <js/Array.h>
#include <js/CompilationAndEvaluation.h>
#include <js/ForOfIterator.h>
#include <js/PropertyDescriptor.h>
#include <js/SourceText.h>
#include <js/StructuredClone.h>
#include <jsfriendapi.h>

#include <deque>
#include <map>
#include <unordered_map>

namespace runtime {
using JS::HandleObject, JS::HandleValue, JS::HandleValueArray, JS::MutableHandleValue;
using JS::RootedObject, JS::RootedValue, JS::RootedValueArray;
class Agent;

// The classes of objects that aren't plain ones. None of them can be cloned.
extern const JSClass platform_class, port_class, broadcast_class;
inline constexpr std::size_t native_slot = 0;
inline constexpr std::uint32_t slot_and_finalizer =
    JSCLASS_HAS_RESERVED_SLOTS(1) | JSCLASS_FOREGROUND_FINALIZE;

// What stands behind an object: a ScriptPort, which may have been sent away, or a BroadcastMember.
template <typename Native> Native *behind(JSObject *object) {
    return JS::GetMaybePtrFromReservedSlot<Native>(object, native_slot);
}
template <typename Native> std::size_t moved(JSObject *object, JSObject *) {
    if (auto *native = behind<Native>(object)) native->object.unbarrieredSet(object);
    return 0;
}
// One port of a channel as a script has it: a MessagePort, a Worker, or the scope of a worker; or
// the road over which an agent hears all of its broadcast channels.
struct ScriptPort {
    enum class Kind { port, worker, scope, road };
    ScriptPort(Kind given, varukoni::Port opened, std::uint64_t number, RecordedEnd end = {})
        : kind(given), port(std::move(opened)), channel(number), recorded(end) {}
    const Kind kind;
    varukoni::Port port;
    const std::uint64_t channel;
    RecordedEnd recorded;
    // Whose it is; nobody's on its way.
    Agent *agent = nullptr;
    std::uint64_t id = 0;
    // Where its events are fired. A started port keeps that alive, and the program with it.
    JS::Heap<JSObject *> object;
    bool is_started = false, is_queued = false;
    // The next message, once it was looked for.
    std::optional<varukoni::Message> ahead;
    bool keeps_program() const { return is_started && kind <= Kind::worker; }
};
void set_port(JSObject *object, ScriptPort *port);
// Closes a port if there is one, and all ports in what nobody read, without a call within a call.
void discard(ScriptPort *port);
// What a message carries: the engine's clone of a value, and the ports that nobody has read. The
// bytes of a small clone stand behind this in its block, since a queue may have many.
struct Parcel final : varukoni::Body {
    // The bytes behind this; none where the clone is a large one.
    const std::size_t size;
    std::unique_ptr<const JSStructuredCloneData> large;
    mutable std::vector<ScriptPort *> ports;
    // In a recording: its number on its line.
    std::uint64_t number = 0;
    // It tells of an error that nobody has handled in the worker that posts it.
    bool is_error = false;
    static std::unique_ptr<Parcel> of(JSStructuredCloneData &&clone, bool is_small);
    ~Parcel() { for (ScriptPort *port : ports) discard(port); }
    const char *bytes() const { return reinterpret_cast<const char *>(this + 1); }
    std::string text() const;
    Ends ends() const;
    void operator delete(void *at);

  private:
    explicit Parcel(std::size_t given) : size(given) {}
    static void *operator new(std::size_t own, std::size_t room);
    static void operator delete(void *at, std::size_t) { operator delete(at); }
};
// A message to the broadcast channels of one agent that have its name.
struct Broadcast final : varukoni::Body {
    std::shared_ptr<const Parcel> parcel;
    unsigned sender = 0;
    // The channels, and in a recording the number of the message at each.
    std::vector<std::pair<std::uint64_t, std::uint64_t>> targets;
};
// A BroadcastChannel of an agent.
struct BroadcastMember {
    Agent *agent = nullptr;
    std::uint64_t id = 0;
    std::u16string name;
    std::uint32_t end = 0;
    JS::Heap<JSObject *> object;
    bool is_listened = false;
    // How many messages each agent has posted there.
    std::map<unsigned, std::uint64_t> posted;
};
// All broadcast channels of the program by their names, the eldest first. The lock is for these,
// and for the ports at which messages for the channels of an agent are posted.
struct BroadcastGroups {
    std::mutex lock;
    std::map<std::u16string, std::vector<BroadcastMember *>> members;

    // Posts to all channels of the name but the sender. False where memory ran out.
    bool post(const BroadcastMember &from, std::shared_ptr<const Parcel> parcel);
};
// What all agents of the program share.
struct Program {
    std::string root;
    Recorder recorder;
    BroadcastGroups broadcasts;
    JSRuntime *parent = nullptr;
    std::atomic<bool> has_failed{false};
};
// What an agent is made of: a window, or a worker, which has a URL and a port to its creator.
struct AgentStart {
    std::vector<std::string> paths;
    std::string url, name;
    std::unique_ptr<AgentLog> log;
    std::unique_ptr<ScriptPort> inside;
    std::shared_ptr<Inbox> creator;
    std::uint64_t id_at_creator = 0;
};
// A script and its event loop, on a thread of its own.
class Agent {
  public:
    Agent(Program &shared, AgentStart given, std::shared_ptr<Inbox> own)
        : program(shared), start_of(std::move(given)), inbox(std::move(own)),
          log(start_of.log.get()), inside(start_of.inside.get()) {}
    ~Agent();
    static Agent &of(JSContext *from) { return *static_cast<Agent *>(JS_GetContextPrivate(from)); }
    // Runs the script and then its tasks.
    void run();
    // Calls a function that the prelude has given back; the second form does so as a task, for an
    // object where there is one. False where it throws, or the agent is ending.
    bool call(const char *hook, const HandleValueArray &words, MutableHandleValue result);
    void call(const char *hook, JSObject *object, HandleValue more = JS::UndefinedHandleValue);
    // False, as an error is thrown: a TypeError, or else a DOMException.
    bool throw_named(const char *name, const char *message);
    void report_pending();
    void checkpoint();
    bool take_ends(std::uint32_t count, std::uint32_t &first);
    bool load(const std::string &path, const std::string &url, bool &is_there);
    // Runs tasks until one is a message, which the prelude fires, and gives its target, or an array
    // of that and what isn't as usual; none once nothing is left that could make a task.
    void next(MutableHandleValue target);
    ScriptPort *port_of(JSObject *object) const {
        return object == global ? inside : behind<ScriptPort>(object);
    }
    JSObject *object_of(ScriptPort *port, HandleObject prototype);
    using Channel = std::pair<std::unique_ptr<ScriptPort>, std::unique_ptr<ScriptPort>>;
    Channel open_channel(ScriptPort::Kind left, ScriptPort::Kind right);
    void adopt(ScriptPort &port);
    void release(ScriptPort &port);
    void start(ScriptPort &port);
    void close(ScriptPort &port);

    std::unique_ptr<Parcel> write(HandleValue value, class Transfer *listed = nullptr);
    bool read(const Parcel &parcel, AgentLog *moves, MutableHandleValue value,
              MutableHandleValue ports);
    bool list_of(HandleValue given, JS::MutableHandleValueVector list);
    bool post(HandleObject object, HandleValue value, const HandleValueArray &list);
    bool clone(HandleValue value, const HandleValueArray &list, MutableHandleValue result);
    JSObject *join(HandleObject prototype, std::u16string name);
    void leave(BroadcastMember &member);
    void listen(BroadcastMember &member, bool is_listened);
    JSObject *start_worker(HandleObject prototype, AgentStart begin);
    void terminate(ScriptPort &worker);
    Program &program;
    const AgentStart start_of;
    const std::shared_ptr<Inbox> inbox;
    AgentLog *const log;
    ScriptPort *const inside;
    JSContext *context = nullptr;
    bool is_closing = false, is_scope_listened = false, has_rejections = false;
    // Whether the last clone has shared memory, and when the first timer ends.
    bool has_shared_memory = false;
    std::optional<Clock::time_point> timer;
    const Clock::time_point began = Clock::now();
    varukoni::Port broadcasts_to;
    JS::PersistentRootedObject global, hooks, port_prototype;
    // An object of the prototype whose private field is there.
    JS::PersistentRootedObject stamped_port;
    // What the message carries that is to be fired.
    JS::PersistentRootedValue arrived;

  private:
    struct Worker {
        std::shared_ptr<Inbox> inbox;
        std::thread thread;
    };
    std::uint64_t last_id = 0;
    std::unordered_map<std::uint64_t, ScriptPort *> ports;
    std::deque<std::uint64_t> ready;
    std::size_t kept_ports = 0, listened_channels = 0;
    std::unordered_map<std::uint64_t, BroadcastMember *> members;
    std::unordered_map<std::uint64_t, Worker> workers;
    std::unique_ptr<ScriptPort> road;
    // The broadcast that is under way, and which channel is next.
    std::unique_ptr<Broadcast> broadcast;
    std::size_t next_target = 0;
    std::vector<Notice> notices;
    // Memory for one more post, which the hub may refuse once the ports are taken.
    std::unique_ptr<char[]> reserve;

    bool begin();
    bool begin_realm();
    void end();
    bool is_over() const { return is_closing || inbox->is_ending(); }
    bool has_work() const;
    void take_notices();
    // Whether that was a task. Where it is a message to be fired, that gives its target.
    bool run_task(MutableHandleValue target);
    bool look_at(ScriptPort &port, MutableHandleValue target);
    void queue(ScriptPort &port);
    void deliver(ScriptPort &port, varukoni::Message &message, MutableHandleValue target);
    bool deliver_broadcast(MutableHandleValue target);
    void arrive(const Parcel &parcel, bool is_broadcast, MutableHandleValue target);
    varukoni::Posted hand_over(ScriptPort &port, varukoni::Message &message);
};
}  // namespace runtime
#endif
