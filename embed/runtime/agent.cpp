// An agent: its engine, its event loop, its workers, and how it ends.
#include "agent.hpp"

#include <js/GCAPI.h>
#include <js/Initialization.h>
#include <js/Promise.h>
#include <js/Realm.h>

namespace runtime {
namespace {
// What the engine may use of a thread's stack, which has 2 MiB at least, and of memory.
constexpr std::size_t stack_bytes = 1 << 20;
constexpr std::uint32_t heap_bytes = 0xffffffff;
const JSClass global_class = {"global", JSCLASS_GLOBAL_FLAGS, &JS::DefaultGlobalClassOps,
                              nullptr, nullptr, nullptr};

// Promises that were rejected with nobody to handle it, and those that somebody handles later.
void track_rejection(JSContext *context, bool, HandleObject promise,
                     JS::PromiseRejectionHandlingState state, void *) {
    RootedValueArray<3> words(context);
    words[0].setObject(*promise);
    words[1].set(JS::GetPromiseResult(promise));
    words[2].setBoolean(state == JS::PromiseRejectionHandlingState::Handled);
    RootedValue result(context);
    Agent::of(context).has_rejections = true;
    if (!Agent::of(context).call("track", words, &result)) JS_ClearPendingException(context);
}
// Ends the script where another thread has asked for it, and whatever would run then.
bool is_going_on(JSContext *context) {
    if (!Agent::of(context).inbox->is_ending()) return true;
    js::StopDrainingJobQueue(context);
    JS_RequestInterruptCallback(context);
    return false;
}
}  // namespace
void Agent::run() {
    context = JS_NewContext(heap_bytes, program.parent);
    if (context != nullptr && begin()) {
        JSAutoRealm realm(context, global);
        call("begin", nullptr);
        if (inside != nullptr) start(*inside);
        RootedValue result(context);
        while (!call("run", JS::HandleValueArray::empty(), &result) && !is_over())
            report_pending();
    } else if (!inbox->is_ending()) {
        std::fputs("varukoni-js: the engine can't be started\n", stderr);
        program.has_failed = true;
    }
    end();
}

bool Agent::begin() {
    if (program.parent == nullptr) program.parent = JS_GetRuntime(context);
    JS_SetContextPrivate(context, this);
    JS_SetNativeStackQuota(context, stack_bytes);
    JS_SetGCParameter(context, JSGC_MAX_BYTES, heap_bytes);
    if (!js::UseInternalJobQueues(context) || !JS::InitSelfHostedCode(context)) return false;
    if (inside != nullptr) JS_SetFutexCanWait(context);
    JS_AddInterruptCallback(context, is_going_on);
    JS::SetPromiseRejectionTrackerCallback(context, track_rejection);
    // None of these objects is in the nursery, so a minor collection passes by.
    const auto trace = [](JSTracer *tracer, void *of) {
        if (JS::RuntimeHeapIsMinorCollecting()) return;
        for (auto &[id, port] : static_cast<Agent *>(of)->ports)
            if (port->is_started && port->object) JS::TraceEdge(tracer, &port->object, "port");
        for (auto &[id, member] : static_cast<Agent *>(of)->members)
            if (member->is_listened) JS::TraceEdge(tracer, &member->object, "channel");
    };
    JS_AddExtraGCRootsTracer(context, trace, this);
    inbox->attach(context);
    JS::RealmOptions options;
    options.creationOptions().setSharedMemoryAndAtomicsEnabled(true);
    global.init(context, JS_NewGlobalObject(context, &global_class, nullptr,
                                            JS::FireOnNewGlobalHook, options));
    if (!global) return false;
    JSAutoRealm realm(context, global);
    if (inside != nullptr) {
        inside->object = global;
        adopt(*inside);
    }
    return begin_realm();
}

void Agent::end() {
    for (auto &[id, worker] : workers) worker.inbox->end();
    for (auto &[id, worker] : workers) worker.thread.join();
    inbox->attach(nullptr);
    broadcast.reset();
    for (ScriptPort *own : {inside, road.get()}) {
        if (own == nullptr) continue;
        close(*own);
        release(*own);
    }
    std::lock_guard<std::mutex> held(program.broadcasts.lock);
    broadcasts_to = varukoni::Port();
    for (auto *kept : {&global, &hooks, &port_prototype, &stamped_port}) kept->reset();
    arrived.reset();
}

Agent::~Agent() {
    // Objects that are finalized close their ports. The parent of all contexts is destroyed last.
    if (context != nullptr) JS_DestroyContext(context);
    if (start_of.creator)
        start_of.creator->put({Notice::Kind::worker_ended, start_of.id_at_creator});
}
bool Agent::call(const char *hook, const HandleValueArray &words, MutableHandleValue result) {
    return !inbox->is_ending() && JS::Call(context, hooks, hook, words, result);
}
void Agent::call(const char *hook, JSObject *object, HandleValue more) {
    RootedValueArray<2> words(context);
    RootedValue result(context);
    words[0].setObjectOrNull(object);
    words[1].set(more);
    if (!call(hook, words, &result)) report_pending();
    checkpoint();
}
void Agent::report_pending() {
    RootedValueArray<1> words(context);
    RootedValue result(context);
    if (!JS_GetPendingException(context, words[0])) return;
    JS_ClearPendingException(context);
    if (!call("report", words, &result)) JS_ClearPendingException(context);
}
void Agent::checkpoint() {
    if (!inbox->is_ending()) js::RunJobs(context);
    if (has_rejections && !inbox->is_ending()) {
        has_rejections = false;
        call("rejections", nullptr);
    }
}
// Tasks: a timer that is due, and a message of the port that has waited longest, in turn.
void Agent::next(MutableHandleValue target) {
    arrived.setUndefined();
    checkpoint();
    while (!is_over()) {
        take_notices();
        const bool is_due = timer && *timer <= Clock::now();
        if (is_due) call("timers", nullptr);
        if (is_over()) return;
        const bool is_task = run_task(target);
        if (target.isObject()) return;
        if (is_task || is_due) continue;
        if (!has_work()) return;
        inbox->sleep(timer);
    }
}
bool Agent::has_work() const {
    return timer || !workers.empty() || kept_ports > 0 || listened_channels > 0
           || (is_scope_listened && inside->port.is_open());
}
void Agent::take_notices() {
    inbox->take(notices);
    for (const auto &[kind, id] : notices) {
        if (kind == Notice::Kind::worker_ended) {
            workers[id].thread.join();
            workers.erase(id);
        } else if (auto found = ports.find(id); found != ports.end()) {
            queue(*found->second);
        }
    }
    notices.clear();
}

bool Agent::run_task(MutableHandleValue target) {
    if (broadcast && deliver_broadcast(target)) return true;
    while (!ready.empty()) {
        auto found = ports.find(ready.front());
        ready.pop_front();
        if (found == ports.end()) continue;
        found->second->is_queued = false;
        if (look_at(*found->second, target)) return true;
    }
    return false;
}
// Workers (HTML, 10.2): agents on threads of their own, which the agent that made them waits for.
JSObject *Agent::start_worker(HandleObject prototype, AgentStart begin) {
    if (!program.recorder.next(begin.log))
        return throw_named("QuotaExceededError", "a recording has at most 16 agents"), nullptr;
    auto [left, right] = open_channel(ScriptPort::Kind::worker, ScriptPort::Kind::scope);
    RootedObject object(context, left ? object_of(left.get(), prototype) : nullptr);
    if (!object) return nullptr;
    ScriptPort &outside = *left.release();
    start(outside);
    begin.inside = std::move(right);
    begin.creator = inbox;
    begin.id_at_creator = outside.id;
    auto own = std::make_shared<Inbox>();
    auto run = [&shared = program, own, given = std::move(begin)]() mutable {
        Agent(shared, std::move(given), std::move(own)).run();
    };
    workers[outside.id] = {own, std::thread(std::move(run))};
    return object;
}

void Agent::terminate(ScriptPort &outside) {
    auto found = workers.find(outside.id);
    if (found != workers.end()) found->second.inbox->end();
    close(outside);
}
}  // namespace runtime
