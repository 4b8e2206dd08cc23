// The ports of scripts: whose they are, when they are looked at, and the events that come of it.
#include "agent.hpp"

#include <js/MemoryFunctions.h>

namespace runtime {
namespace {
// What a channel takes of memory that the collector doesn't see, by half.
constexpr std::size_t port_bytes = 2'500;
void finalize_port(JS::GCContext *, JSObject *object) {
    auto *port = behind<ScriptPort>(object);
    if (port == nullptr) return;
    set_port(object, nullptr);
    port->agent->close(*port);
    port->agent->release(*port);
    discard(port);
}
const JSClassOps port_ops = {nullptr, nullptr, nullptr, nullptr, nullptr, nullptr, finalize_port,
                             nullptr, nullptr, nullptr};
const js::ClassExtension port_extension = {moved<ScriptPort>};
}  // namespace
const JSClass platform_class = {"Object", JSCLASS_HAS_RESERVED_SLOTS(1), nullptr, nullptr, nullptr,
                                nullptr};
const JSClass port_class = {"MessagePort", slot_and_finalizer, &port_ops, nullptr, &port_extension,
                            nullptr};
void discard(ScriptPort *port) {
    if (port == nullptr) return;
    thread_local std::vector<ScriptPort *> *later = nullptr;
    if (later != nullptr) return later->push_back(port);
    std::vector<ScriptPort *> found = {port};
    later = &found;
    while (!found.empty()) {
        ScriptPort *last = found.back();
        found.pop_back();
        delete last;
    }
    later = nullptr;
}
// The collector is told of the memory behind an object, to be as eager as that wants.
void set_port(JSObject *object, ScriptPort *port) {
    if (behind<ScriptPort>(object) != nullptr)
        JS::RemoveAssociatedMemory(object, port_bytes, JS::MemoryUse::Embedding1);
    JS::SetReservedSlot(object, native_slot,
                        port != nullptr ? JS::PrivateValue(port) : JS::UndefinedValue());
    if (port != nullptr) JS::AddAssociatedMemory(object, port_bytes, JS::MemoryUse::Embedding1);
}
// A new object for a port, which is this agent's then. None where memory ran out.
JSObject *Agent::object_of(ScriptPort *port, HandleObject prototype) {
    RootedObject object(context, JS_NewObjectWithGivenProto(context, &port_class, prototype));
    if (object && prototype == port_prototype
        && !JS_InitializePropertiesFromCompatibleNativeObject(context, object, stamped_port))
        return nullptr;
    if (!object || port == nullptr) return object;
    set_port(object, port);
    port->object = object;
    port->is_started = false;
    adopt(*port);
    return object;
}

bool Agent::take_ends(std::uint32_t count, std::uint32_t &first) {
    if (program.recorder.next(count, first)) return true;
    return throw_named("QuotaExceededError", "a recording has at most 65,536 ends"), false;
}
// A channel for a script. None where no end of a recording is left for it.
Agent::Channel Agent::open_channel(ScriptPort::Kind left, ScriptPort::Kind right) {
    static std::atomic<std::uint64_t> channels{0};
    std::uint32_t end = 0;
    if (!take_ends(2, end)) return {};
    auto [one, other] = varukoni::open_channel();
    const std::uint64_t number = ++channels;
    const RecordedEnd first = {end, end + 1, 0, 0}, second = {end + 1, end, 0, 0};
    return {std::make_unique<ScriptPort>(left, std::move(one), number, first),
            std::make_unique<ScriptPort>(right, std::move(other), number, second)};
}
void Agent::adopt(ScriptPort &port) {
    port.agent = this;
    port.id = ++last_id;
    ports.emplace(port.id, &port);
    kept_ports += port.keeps_program();
    queue(port);
}
// The port leaves the agent, and nobody is woken for it.
void Agent::release(ScriptPort &port) {
    kept_ports -= port.keeps_program();
    if (port.port.is_open()) port.port.disarm();
    ports.erase(port.id);
    port.object = nullptr;
    port.agent = nullptr;
    port.is_queued = false;
}
void Agent::start(ScriptPort &port) {
    if (port.is_started || !port.port.is_open()) return;
    port.is_started = true;
    kept_ports += port.keeps_program();
    queue(port);
}
void Agent::close(ScriptPort &port) {
    if (!port.port.is_open()) return;
    if (log != nullptr && port.kind != ScriptPort::Kind::road) log->closed(port.recorded.end);
    kept_ports -= port.keeps_program();
    port.is_started = false;
    port.ahead.reset();
    port.port = varukoni::Port();
}
void Agent::queue(ScriptPort &port) {
    if (!port.is_queued) ready.push_back(port.id);
    port.is_queued = true;
}
// Looks at a port, and delivers what is there. Whether that was a task. Where nothing is there the
// agent is woken later. A port that isn't started tells its close where no message is before that.
bool Agent::look_at(ScriptPort &port, MutableHandleValue target) {
    if (!port.port.is_open()) return false;
    auto message = port.ahead ? std::exchange(port.ahead, std::nullopt) : port.port.take();
    if (message && !port.is_started) return port.ahead = std::move(message), false;
    if (message) {
        queue(port);
        deliver(port, *message, target);
        return true;
    }
    if (port.port.ended()) {
        // The peer is closed, and all that it had posted was delivered.
        RootedObject object(context, port.object);
        const bool has_event = port.kind == ScriptPort::Kind::port && object;
        close(port);
        if (has_event) call("closed", object);
        return true;
    }
    const bool sleeps = port.port.arm([to = inbox, id = port.id] {
        to->put({Notice::Kind::port, id});
    });
    if (!sleeps) queue(port);
    return false;
}

void Agent::deliver(ScriptPort &port, varukoni::Message &message, MutableHandleValue target) {
    if (port.kind == ScriptPort::Kind::road) {
        broadcast.reset(static_cast<Broadcast *>(message.body.release()));
        next_target = 0;
        deliver_broadcast(target);
        return;
    }
    auto &parcel = static_cast<Parcel &>(*message.body);
    if (log != nullptr && !parcel.is_error)
        log->write(hublog_got, port.recorded.end, 0, parcel.number, parcel.ends(), parcel.text());
    target.setObjectOrNull(port.object);
    if (!parcel.is_error) return arrive(parcel, false, target);
    RootedValue error(context), ports(context);
    RootedObject object(context, &target.toObject());
    target.setUndefined();
    if (read(parcel, log, &error, &ports)) call("workerError", object, error);
}
// Reads a message for its target. Where that fails, or it has ports, or is a broadcast, an array
// tells so beside the target.
void Agent::arrive(const Parcel &parcel, bool is_broadcast, MutableHandleValue target) {
    RootedValueArray<4> words(context);
    const bool is_read = read(parcel, is_broadcast ? nullptr : log, &arrived, words[1]);
    if (is_read && !is_broadcast && words[1].isUndefined()) return;
    if (!is_read) {
        JS_ClearPendingException(context);
        arrived.setNull();
    }
    words[0].set(target);
    words[2].setBoolean(is_read);
    words[3].setBoolean(is_broadcast);
    target.setObjectOrNull(JS::NewArrayObject(context, words));
    if (target.isNull()) report_pending();
}
}  // namespace runtime
