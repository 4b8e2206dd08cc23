// What the prelude is given: the functions behind its classes, and the realm that it is run in.
#include "agent.hpp"

#include <fstream>
#include <sstream>

extern "C" const char prelude_begin[], prelude_end[];
asm(".section .rodata\n.global prelude_begin, prelude_end\n"
    "prelude_begin: .incbin \"" PRELUDE "\"\nprelude_end: .byte 0\n.previous\n");
namespace runtime {
namespace {
using Milliseconds = std::chrono::duration<double, std::milli>;

// A function that scripts or the prelude call. It gives a value back, or undefined.
struct Function {
    const char *name;
    unsigned words;
    bool (*run)(Agent &, JSContext *, const JS::CallArgs &);
};
template <const Function *functions, std::size_t at>
bool native(JSContext *context, unsigned count, JS::Value *words) {
    JS::CallArgs call = JS::CallArgsFromVp(count, words);
    call.rval().setUndefined();
    try {
        return functions[at].run(Agent::of(context), context, call);
    } catch (const std::system_error &error) {
        return Agent::of(context).throw_named("QuotaExceededError", error.what()), false;
    } catch (const std::bad_alloc &) {
        return JS_ReportOutOfMemory(context), false;
    }
}
template <const Function *functions, std::size_t... at>
bool define(JSContext *context, HandleObject object, std::index_sequence<at...>) {
    return (... && JS_DefineFunction(context, object, functions[at].name, native<functions, at>,
                                     functions[at].words, JSPROP_ENUMERATE));
}
bool gives(const JS::CallArgs &call, JSObject *object) {
    if (object != nullptr) call.rval().setObject(*object);
    return object != nullptr;
}
std::string text_of(JSContext *context, HandleValue value) {
    JS::RootedString text(context, value.toString());
    JS::UniqueChars chars = JS_EncodeStringToUTF8(context, text);
    JS_ClearPendingException(context);
    return chars ? chars.get() : "";
}
bool set_text(JSContext *context, MutableHandleValue to, const std::string &text) {
    JSString *made = JS_NewStringCopyUTF8N(context, JS::UTF8Chars(text.data(), text.size()));
    if (made != nullptr) to.setString(made);
    return made != nullptr;
}
BroadcastMember &member_of(HandleValue it) { return *behind<BroadcastMember>(&it.toObject()); }
// The object whose port a method is called on, or a TypeError.
bool port_object(Agent &agent, const JS::CallArgs &call, JS::MutableHandleObject found) {
    found.set(call.thisv().isObject() ? &call.thisv().toObject() : nullptr);
    if (agent.inside != nullptr && call.thisv().isNullOrUndefined()) found.set(agent.global);
    if (found && (JS::GetClass(found) == &port_class || (agent.inside && found == agent.global)))
        return true;
    return agent.throw_named("TypeError", "this is no port");
}
template <void (Agent::*act)(ScriptPort &)>
bool with_port(Agent &agent, JSContext *context, const JS::CallArgs &call) {
    RootedObject object(context);
    if (!port_object(agent, call, &object)) return false;
    if (ScriptPort *port = agent.port_of(object)) (agent.*act)(*port);
    return true;
}
// The second word of postMessage: a list of objects, or options that have one.
bool transfer_list(Agent &agent, JSContext *context, HandleValue word,
                   JS::MutableHandleValueVector list) {
    RootedObject object(context, word.isObject() ? &word.toObject() : nullptr);
    if (!object) return word.isNullOrUndefined() || agent.throw_named("TypeError", "no options");
    JS::RootedId key(context, JS::GetWellKnownSymbolKey(context, JS::SymbolCode::iterator));
    RootedValue given(context);
    if (!JS_GetPropertyById(context, object, key, &given)) return false;
    if (!given.isNullOrUndefined()) return agent.list_of(word, list);
    return JS_GetProperty(context, object, "transfer", &given) && agent.list_of(given, list);
}
bool post_message(Agent &agent, JSContext *context, const JS::CallArgs &call) {
    RootedObject object(context);
    JS::RootedValueVector list(context);
    return port_object(agent, call, &object) && call.requireAtLeast(context, "postMessage", 1)
           && transfer_list(agent, context, call.get(1), &list)
           && agent.post(object, call[0], list);
}
bool open_channel(Agent &agent, JSContext *context, const JS::CallArgs &call) {
    auto [left, right] = agent.open_channel(ScriptPort::Kind::port, ScriptPort::Kind::port);
    RootedValueArray<2> ports(context);
    std::size_t at = 0;
    for (auto *made : {&left, &right}) {
        JSObject *object = *made ? agent.object_of(made->get(), agent.port_prototype) : nullptr;
        if (object == nullptr) return false;
        (void)made->release();
        ports[at++].setObject(*object);
    }
    return gives(call, JS::NewArrayObject(context, ports));
}

bool join_channel(Agent &agent, JSContext *context, const JS::CallArgs &call) {
    RootedObject prototype(context, &call[0].toObject());
    JS::RootedString text(context, call[1].toString());
    std::u16string name(JS_GetStringLength(text), u'\0');
    return JS_CopyStringChars(context, {name.data(), name.size()}, text)
           && gives(call, agent.join(prototype, std::move(name)));
}
bool post_channel(Agent &agent, JSContext *context, const JS::CallArgs &call) {
    auto parcel = agent.write(call[1]);
    if (!parcel) return false;
    if (agent.program.broadcasts.post(member_of(call[0]), std::move(parcel))) return true;
    return JS_ReportOutOfMemory(context), false;
}
bool start_worker(Agent &agent, JSContext *context, const JS::CallArgs &call) {
    RootedObject prototype(context, &call[0].toObject());
    AgentStart begin;
    begin.paths = {text_of(context, call[1])};
    begin.url = text_of(context, call[2]);
    begin.name = text_of(context, call[3]);
    return gives(call, agent.start_worker(prototype, std::move(begin)));
}
// Posts an error that nobody has handled to the creator of this worker.
bool tell_creator(Agent &agent, JSContext *, const JS::CallArgs &call) {
    auto parcel = agent.write(call[0]);
    if (!parcel) return false;
    parcel->is_error = true;
    varukoni::Port &port = agent.inside->port;
    if (port.is_open()) port.post(varukoni::Message(std::move(parcel)));
    return true;
}
bool print(Agent &, JSContext *context, const JS::CallArgs &call) {
    const std::string line = text_of(context, call[1]) + "\n";
    std::fwrite(line.data(), 1, line.size(), call[0].toBoolean() ? stderr : stdout);
    return true;
}
// Evaluates the file of a path, and tells whether it is there.
bool load(Agent &agent, JSContext *context, const JS::CallArgs &call) {
    bool is_there = false;
    if (!agent.load(text_of(context, call[0]), text_of(context, call[1]), is_there)) return false;
    call.rval().setBoolean(is_there);
    return true;
}
// What a MessagePort has, and in part a Worker and the scope of a worker.
constexpr Function port_functions[] = {
    {"postMessage", 1, post_message},
    {"start", 0, with_port<&Agent::start>}, {"close", 0, with_port<&Agent::close>},
};
constexpr Function script_functions[] = {
    {"openChannel", 0, open_channel}, {"startWorker", 4, start_worker},
    {"joinChannel", 2, join_channel}, {"postChannel", 2, post_channel},
    {"tellCreator", 1, tell_creator}, {"print", 2, print}, {"load", 2, load},
    {"listenChannel", 2, [](auto &agent, auto *, auto &call) {
        return agent.listen(member_of(call[0]), call[1].toBoolean()), true;
    }},
    {"leaveChannel", 1, [](auto &agent, auto *, auto &call) {
        return agent.leave(member_of(call[0])), true;
    }},
    {"terminate", 0, with_port<&Agent::terminate>},
    {"fail", 0, [](auto &agent, auto *, auto &) { return agent.program.has_failed = true; }},
    // An object of a prototype, with the state of an event, or a port's.
    {"create", 1, [](auto &, auto *context, auto &call) {
        RootedObject prototype(context, &call[0].toObject());
        const JSClass &made_class = call.get(2).isUndefined() ? platform_class : port_class;
        JSObject *made = JS_NewObjectWithGivenProto(context, &made_class, prototype);
        if (made != nullptr) JS::SetReservedSlot(made, native_slot, call.get(1));
        return gives(call, made);
    }},
    {"now", 0, [](auto &agent, auto *, auto &call) {
        const Milliseconds time = Clock::now() - agent.began;
        return call.rval().setNumber(time.count()), true;
    }},
    {"clone", 2, [](auto &agent, auto *context, auto &call) {
        JS::RootedValueVector list(context);
        return agent.list_of(call[1], &list) && agent.clone(call[0], list, call.rval());
    }},
    // The state of an event.
    {"stateOf", 1, [](auto &agent, auto *, auto &call) {
        JSObject *object = call[0].isObject() ? &call[0].toObject() : nullptr;
        if (object != nullptr && JS::GetClass(object) == &platform_class)
            call.rval().set(JS::GetReservedSlot(object, native_slot));
        return call.rval().isObject() || agent.throw_named("TypeError", "this is no event");
    }},
    {"next", 0, [](auto &agent, auto *, auto &call) { return agent.next(call.rval()), true; }},
    {"data", 0, [](auto &agent, auto *, auto &call) {
        return call.rval().set(agent.arrived), true;
    }},
    {"checkpoint", 0, [](auto &agent, auto *, auto &) { return agent.checkpoint(), true; }},
    // When the first timer ends; undefined where there is none.
    {"wake", 1, [](auto &agent, auto *, auto &call) {
        agent.timer.reset();
        if (call[0].isNumber())
            agent.timer = agent.began + std::chrono::duration_cast<Clock::duration>(
                                            Milliseconds(call[0].toNumber()));
        return true;
    }},
    {"closeScope", 0, [](auto &agent, auto *, auto &) { return agent.is_closing = true; }},
    {"listenScope", 1, [](auto &agent, auto *, auto &call) {
        return agent.is_scope_listened = call[0].toBoolean(), true;
    }},
};
}  // namespace

bool Agent::throw_named(const char *name, const char *message) {
    RootedValueArray<2> words(context);
    RootedValue made(context);
    if (set_text(context, words[0], name) && set_text(context, words[1], message)
        && call("exception", words, &made))
        JS_SetPendingException(context, made);
    return false;
}
// The objects of a value that has an iterator; undefined has none.
bool Agent::list_of(HandleValue given, JS::MutableHandleValueVector list) {
    RootedValue next(context);
    JS::ForOfIterator all(context);
    if (given.isUndefined()) return true;
    if (!given.isObject()) return throw_named("TypeError", "a list can't be iterated");
    if (!all.init(given)) return false;
    for (bool is_done = false;;) {
        if (!all.next(&next, &is_done)) return false;
        if (is_done) return true;
        if (!next.isObject()) return throw_named("TypeError", "something in a list is no object");
        if (!list.append(next)) return false;
    }
}
bool Agent::load(const std::string &path, const std::string &url, bool &is_there) {
    std::ifstream file(program.root + path, std::ios::binary);
    std::ostringstream content;
    if (file.peek() != std::ifstream::traits_type::eof()) content << file.rdbuf();
    is_there = file.is_open() && !file.bad();
    if (!is_there) return true;
    std::string bytes = content.str();
    if (bytes.rfind("\xEF\xBB\xBF", 0) == 0) bytes.erase(0, 3);
    const JS::UTF8Chars utf8(bytes.data(), bytes.size());
    std::size_t length = 0;
    JS::UniqueTwoByteChars chars(
        JS::LossyUTF8CharsToNewTwoByteCharsZ(context, utf8, &length, js::MallocArena).get());
    JS::SourceText<char16_t> source;
    if (!chars || !source.init(context, std::move(chars), length)) return false;
    JS::CompileOptions options(context);
    options.setFileAndLine(url.c_str(), 1);
    RootedValue result(context);
    return JS::Evaluate(context, options, source, &result);
}
bool Agent::begin_realm() {
    RootedObject given(context, JS_NewPlainObject(context));
    RootedObject port(context, JS_NewPlainObject(context));
    RootedValue value(context), prelude(context);
    JS::RootedValueVector paths(context);
    RootedValueArray<5> words(context);
    constexpr auto ports = std::make_index_sequence<std::size(port_functions)>();
    constexpr auto others = std::make_index_sequence<std::size(script_functions)>();
    for (const std::string &path : start_of.paths)
        if (!set_text(context, &value, path) || !paths.append(value)) return false;
    if (!given || !port || !define<port_functions>(context, port, ports)
        || !define<script_functions>(context, given, others)
        || !JS_DefineProperty(context, given, "port", port, 0)
        || !set_text(context, words[3], start_of.url)
        || !set_text(context, words[4], start_of.name))
        return false;
    words[0].setObject(*given);
    words[1].setBoolean(inside != nullptr);
    words[2].setObjectOrNull(JS::NewArrayObject(context, paths));
    JS::CompileOptions options(context);
    options.setFileAndLine("varukoni:prelude", 1);
    JS::SourceText<mozilla::Utf8Unit> source;
    const auto own = JS::SourceOwnership::Borrowed;
    if (!source.init(context, prelude_begin, prelude_end - prelude_begin, own)
        || !JS::Evaluate(context, options, source, &prelude)
        || !JS::Call(context, JS::UndefinedHandleValue, prelude, words, &value))
        return false;
    hooks.init(context, &value.toObject());
    const auto keep = [&](const char *name, JS::PersistentRootedObject &kept) {
        if (!JS_GetProperty(context, hooks, name, &value) || !value.isObject()) return false;
        kept.init(context, &value.toObject());
        return true;
    };
    arrived.init(context);
    return keep("portPrototype", port_prototype) && keep("port", stamped_port);
}
}  // namespace runtime
