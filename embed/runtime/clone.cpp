// What is posted: values as the engine clones them, with the ports that go along (HTML, 2.7).
#include "agent.hpp"

namespace runtime {
constexpr char untransferable[] = "something listed can't be transferred";
constexpr char listed_twice[] = "something is listed twice";
// What is listed with one clone: ports, and others that the engine transfers.
class Transfer {
  public:
    JS::RootedValueVector others;
    Transfer(JSContext *context, const ScriptPort *posting)
        : others(context), from(posting), objects(context) {}
    // Adds what is listed, or throws: all that may refuse a port, before anything is written.
    bool add(Agent &agent, const HandleValueArray &list) {
        for (std::size_t at = 0; at < list.length(); at++) {
            const bool is_port = JS::GetClass(&list[at].toObject()) == &port_class;
            const char *why = is_port ? refusal(&list[at].toObject()) : nullptr;
            if (why != nullptr) return agent.throw_named("DataCloneError", why);
            if (!(is_port ? objects : others).append(list[at])) return false;
        }
        return true;
    }
    std::optional<std::uint32_t> find(const JSObject *object) const {
        for (std::uint32_t at = 0; at < objects.length(); at++)
            if (&objects[at].toObject() == object) return at;
        return std::nullopt;
    }
    // Takes the ports from their objects, as this agent's no more, which move so many times. One
    // that a getter has sent away since then arrives closed.
    void leave(Agent &agent, Parcel &parcel, std::uint32_t moves) {
        for (const JS::Value &object : objects) {
            ScriptPort *port = behind<ScriptPort>(&object.toObject());
            parcel.ports.push_back(port);
            if (port == nullptr) continue;
            set_port(&object.toObject(), nullptr);
            agent.release(*port);
            port->recorded.moves += moves;
        }
    }
    // The ports are this agent's again, as the hub has not taken them.
    void come_back(Agent &agent, Parcel &parcel) {
        for (std::size_t at = 0; at < parcel.ports.size(); at++) {
            ScriptPort *port = std::exchange(parcel.ports[at], nullptr);
            if (port == nullptr) continue;
            port->recorded.moves--;
            port->object = &objects[at].toObject();
            set_port(port->object, port);
            agent.adopt(*port);
        }
    }
  private:
    const ScriptPort *const from;
    JS::RootedValueVector objects;
    const char *refusal(JSObject *object) const {
        const auto *port = behind<ScriptPort>(object);
        return port != nullptr && port->kind != ScriptPort::Kind::port ? untransferable
            : port == nullptr || !port->port.is_open() ? "a port was sent away or closed before"
            : port == from                             ? "a port can't be sent over itself"
            : find(object)                             ? listed_twice
            : objects.length() == VARUKONI_MOST_PORTS  ? "a message has at most 16 ports" : nullptr;
    }
};

namespace {
constexpr std::uint32_t port_tag = JS_SCTAG_USER_MIN + 1, error_tag = JS_SCTAG_USER_MIN + 2;
constexpr auto scope = JS::StructuredCloneScope::SameProcess;
// The size of a small clone at most; what a post of the hub takes of memory, and more.
constexpr std::size_t small_bytes = 2'048, reserve_bytes = 64 << 10;
// An object that the engine doesn't clone: a listed port, as its place in the list, or an error, as
// the text that the prelude has for it.
bool write_object(JSContext *context, JSStructuredCloneWriter *writer, HandleObject object, bool *,
                  void *listed) {
    const auto *ports = static_cast<const Transfer *>(listed);
    const auto place = ports != nullptr ? ports->find(object) : std::nullopt;
    if (place) return JS_WriteUint32Pair(writer, port_tag, *place);
    auto &agent = Agent::of(context);
    js::ESClass kind;
    if (!JS::GetBuiltinClass(context, object, &kind)) return false;
    RootedValueArray<2> words(context);
    words[0].setObject(*object);
    words[1].setBoolean(kind == js::ESClass::Error);
    RootedValue made(context);
    if (!agent.call("serialized", words, &made)) return false;
    JS::RootedString text(context, made.isString() ? made.toString() : nullptr);
    if (!text) agent.throw_named("DataCloneError", "an object can't be cloned");
    return text && JS_WriteUint32Pair(writer, error_tag, 0) && JS_WriteString(writer, text);
}
JSObject *read_object(JSContext *context, JSStructuredCloneReader *reader,
                      const JS::CloneDataPolicy &, std::uint32_t tag, std::uint32_t place,
                      void *ports) {
    if (tag == port_tag)
        return &(*static_cast<JS::RootedValueVector *>(ports))[place].toObject();
    JS::RootedString text(context);
    if (!JS_ReadString(reader, &text)) return nullptr;
    RootedValue word(context, JS::StringValue(text)), made(context);
    const bool is_made = Agent::of(context).call("deserialized", HandleValueArray(word), &made);
    return is_made ? &made.toObject() : nullptr;
}
void tell_error(JSContext *context, std::uint32_t error, void *, const char *message) {
    if (error == JS_SCERR_DUP_TRANSFERABLE) message = listed_twice;
    if (error == JS_SCERR_TRANSFERABLE) message = untransferable;
    Agent::of(context).throw_named("DataCloneError", message);
}

bool note_shared_memory(JSContext *context, bool, void *) {
    return Agent::of(context).has_shared_memory = true;
}
const JSStructuredCloneCallbacks callbacks = {
    read_object, write_object, tell_error, nullptr, nullptr, nullptr, nullptr, note_shared_memory,
};
// Memory for parcels, which the thread that posts takes in turn; whoever reads the last one frees
// it. Where each parcel is a call of the allocator, two threads meet there for each message.
struct Block {
    static constexpr std::size_t most = 1 << 20;
    std::atomic<std::size_t> owners{most};
    char room[16 << 10];
    void leave(std::size_t count) {
        if (owners.fetch_sub(count, std::memory_order_acq_rel) == count) delete this;
    }
};
struct FilledBlock {
    Block *block = new Block;
    std::size_t used = 0, parcels = 0;
    ~FilledBlock() { block->leave(Block::most - parcels); }
    // So many bytes behind the address of their block.
    void *take(std::size_t size) {
        size = (size + 2 * sizeof block - 1) / sizeof block * sizeof block;
        if (used + size > sizeof block->room) {
            std::exchange(block, new Block)->leave(Block::most - parcels);
            used = parcels = 0;
        }
        parcels++;
        return new (block->room + std::exchange(used, used + size)) Block *(block) + 1;
    }
};
thread_local FilledBlock filled;

// All agents are of one cluster, which may share memory.
JS::CloneDataPolicy policy() {
    JS::CloneDataPolicy allowed;
    allowed.allowIntraClusterClonableSharedObjects();
    allowed.allowSharedMemoryObjects();
    return allowed;
}
}  // namespace
void *Parcel::operator new(std::size_t own, std::size_t room) { return filled.take(own + room); }
void Parcel::operator delete(void *at) { static_cast<Block **>(at)[-1]->leave(1); }
std::unique_ptr<Parcel> Parcel::of(JSStructuredCloneData &&clone, bool is_small) {
    const std::size_t size = is_small ? clone.Size() : 0;
    std::unique_ptr<Parcel> parcel(new (size) Parcel(size));
    if (is_small) {
        auto at = clone.Start();
        (void)clone.ReadBytes(at, reinterpret_cast<char *>(parcel.get() + 1), size);
    } else {
        parcel->large = std::make_unique<JSStructuredCloneData>(std::move(clone));
    }
    return parcel;
}
std::string Parcel::text() const {
    if (!large) return {bytes(), size};
    std::string all(large->Size(), '\0');
    auto at = large->Start();
    (void)large->ReadBytes(at, all.data(), all.size());
    return all;
}

Ends Parcel::ends() const {
    Ends found;
    for (const ScriptPort *port : ports)
        if (port != nullptr) found.push_back(port->recorded.end);
    return found;
}
// Clones a value, with what is listed. The engine takes 4 KiB for a small clone, so that is copied
// to a block of its own size, unless it holds shared or transferred memory.
std::unique_ptr<Parcel> Agent::write(HandleValue value, Transfer *listed) {
    JSStructuredCloneData data(scope);
    RootedValue others(context);
    if (listed != nullptr && !listed->others.empty())
        others.setObjectOrNull(JS::NewArrayObject(context, listed->others));
    has_shared_memory = false;
    if (others.isNull() || !JS_WriteStructuredClone(context, value, &data, scope, policy(),
                                                    &callbacks, listed, others))
        return nullptr;
    const bool is_bytes = !has_shared_memory && others.isUndefined();
    return Parcel::of(std::move(data), is_bytes && data.Size() <= small_bytes);
}
// Reads a clone, and its ports as an array where it has some.
bool Agent::read(const Parcel &parcel, AgentLog *moves, MutableHandleValue value,
                 MutableHandleValue ports) {
    JS::RootedValueVector objects(context);
    for (ScriptPort *&port : parcel.ports) {
        JSObject *object = object_of(port, port_prototype);
        if (object == nullptr) return false;
        if (port != nullptr && moves != nullptr) moves->adopted(port->recorded);
        port = nullptr;
        if (!objects.append(JS::ObjectValue(*object))) return false;
    }
    if (!objects.empty()) ports.setObjectOrNull(JS::NewArrayObject(context, objects));
    if (ports.isNull()) return false;
    JSStructuredCloneData::BufferList copy(0, 0, parcel.size);
    if (!parcel.large && !copy.WriteBytes(parcel.bytes(), parcel.size)) return false;
    const JSStructuredCloneData small(std::move(copy), scope);
    return JS_ReadStructuredClone(context, parcel.large ? *parcel.large : small,
                                  JS_STRUCTURED_CLONE_VERSION, scope, value, policy(), &callbacks,
                                  &objects);
}
// Posts a message that is written. Where the hub has no memory for it, that of the reserve is given
// back and it is posted once more.
varukoni::Posted Agent::hand_over(ScriptPort &port, varukoni::Message &message) {
    auto &[end, peer, moves, posted] = port.recorded;
    auto &parcel = static_cast<Parcel &>(*message.body);
    parcel.number = posted;
    if (log != nullptr) log->write(hublog_put, peer, 0, posted, parcel.ends(), parcel.text());
    varukoni::Posted answer = port.port.post(message);
    if (answer == varukoni::Posted::no_memory) {
        reserve.reset();
        answer = port.port.post(message);
    }
    if (answer == varukoni::Posted::done) posted++;
    else if (log != nullptr) log->take_back();
    return answer;
}
// Posts at the peer of the port of this object, with the ports of a list. What is posted at nobody,
// or at a port that it carries, is lost with them.
bool Agent::post(HandleObject object, HandleValue value, const HandleValueArray &list) {
    Transfer transfer(context, port_of(object));
    if (!transfer.add(*this, list)) return false;
    if (!reserve) reserve.reset(new (std::nothrow) char[reserve_bytes]);
    if (!reserve) return JS_ReportOutOfMemory(context), false;
    varukoni::Message message(write(value, &transfer));
    if (!message.body) return false;
    auto &parcel = static_cast<Parcel &>(*message.body);
    transfer.leave(*this, parcel, 1);
    // A getter may have closed the port, or sent it away.
    ScriptPort *port = port_of(object);
    const bool is_lost = port == nullptr || !port->port.is_open()
        || std::any_of(parcel.ports.begin(), parcel.ports.end(), [port](const ScriptPort *sent) {
               return sent != nullptr && sent->channel == port->channel;
           });
    const auto answer = is_lost ? varukoni::Posted::closed : hand_over(*port, message);
    if (answer == varukoni::Posted::no_memory) {
        transfer.come_back(*this, parcel);
        return JS_ReportOutOfMemory(context), false;
    }
    if (answer == varukoni::Posted::closed && log != nullptr)
        for (std::uint32_t end : parcel.ends()) log->closed(end);
    return true;
}
// Clones a value for this agent. The ports of the list come to new objects.
bool Agent::clone(HandleValue value, const HandleValueArray &list, MutableHandleValue result) {
    Transfer transfer(context, nullptr);
    const auto parcel = transfer.add(*this, list) ? write(value, &transfer) : nullptr;
    if (!parcel) return false;
    transfer.leave(*this, *parcel, 0);
    RootedValue ports(context);
    return read(*parcel, nullptr, result, &ports);
}
}  // namespace runtime
