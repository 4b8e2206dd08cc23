// Broadcast channels (HTML, 9.5), over a channel of the hub to each agent that has some. A lock
// orders who posts and who joins, so that all agents hear the messages of a name in one order.
#include "agent.hpp"

namespace runtime {
namespace {
void finalize_member(JS::GCContext *, JSObject *object) {
    auto *member = behind<BroadcastMember>(object);
    if (member != nullptr) member->agent->leave(*member);
    delete member;
}
const JSClassOps member_ops = {nullptr, nullptr, nullptr, nullptr, nullptr, nullptr,
                               finalize_member, nullptr, nullptr, nullptr};
const js::ClassExtension member_extension = {moved<BroadcastMember>};
}  // namespace
const JSClass broadcast_class = {"BroadcastChannel", slot_and_finalizer, &member_ops, nullptr,
                                 &member_extension, nullptr};

// One message of the hub goes to each agent, for all channels of the name there, the eldest first.
bool BroadcastGroups::post(const BroadcastMember &from, std::shared_ptr<const Parcel> parcel) {
    AgentLog *log = from.agent->log;
    const unsigned sender = log != nullptr ? log->number : 0;
    std::lock_guard<std::mutex> held(lock);
    std::map<Agent *, std::unique_ptr<Broadcast>> messages;
    for (BroadcastMember *to : members[from.name]) {
        if (to == &from) continue;
        auto &message = messages[to->agent];
        if (!message) message = std::make_unique<Broadcast>();
        message->parcel = parcel;
        message->sender = sender;
        const std::uint64_t number = to->posted[sender]++;
        message->targets.push_back({to->id, number});
        if (log != nullptr) log->write(hublog_put, to->end, sender, number, {}, parcel->text());
    }
    bool has_memory = true;
    for (auto &[agent, message] : messages) {
        if (!agent->broadcasts_to.is_open()) continue;
        const auto answer = agent->broadcasts_to.post(varukoni::Message(std::move(message)));
        has_memory = has_memory && answer != varukoni::Posted::no_memory;
    }
    return has_memory;
}
JSObject *Agent::join(HandleObject prototype, std::u16string group) {
    auto member = std::make_unique<BroadcastMember>();
    if (!take_ends(1, member->end)) return nullptr;
    RootedObject object(context, JS_NewObjectWithGivenProto(context, &broadcast_class, prototype));
    if (!object) return nullptr;
    member->agent = this;
    member->id = ++last_id;
    member->name = std::move(group);
    member->object = object;
    members[member->id] = member.get();
    std::lock_guard<std::mutex> held(program.broadcasts.lock);
    if (!road) {
        auto [near, far] = varukoni::open_channel();
        broadcasts_to = std::move(near);
        road = std::make_unique<ScriptPort>(ScriptPort::Kind::road, std::move(far), 0);
        adopt(*road);
        start(*road);
    }
    program.broadcasts.members[member->name].push_back(member.get());
    JS::SetReservedSlot(object, native_slot, JS::PrivateValue(member.release()));
    return object;
}
// The channel is closed: it hears nothing more, not even what is under way.
void Agent::leave(BroadcastMember &member) {
    if (members.erase(member.id) == 0) return;
    listen(member, false);
    if (log != nullptr) log->closed(member.end);
    std::lock_guard<std::mutex> held(program.broadcasts.lock);
    auto group = program.broadcasts.members.find(member.name);
    auto &all = group->second;
    all.erase(std::find(all.begin(), all.end(), &member));
    if (all.empty()) program.broadcasts.members.erase(group);
}
// A channel that somebody listens to is kept, and the program with it, until it is closed.
void Agent::listen(BroadcastMember &member, bool is_listened) {
    listened_channels -= member.is_listened;
    member.is_listened = is_listened && members.count(member.id) > 0;
    listened_channels += member.is_listened;
}
bool Agent::deliver_broadcast(MutableHandleValue target) {
    const Broadcast &message = *broadcast;
    if (next_target == message.targets.size()) {
        broadcast.reset();
        return false;
    }
    const auto &[channel, number] = message.targets[next_target++];
    auto found = members.find(channel);
    if (found == members.end()) return true;
    const BroadcastMember &to = *found->second;
    if (log != nullptr)
        log->write(hublog_got, to.end, message.sender, number, {}, message.parcel->text());
    target.setObjectOrNull(to.object);
    arrive(*message.parcel, true, target);
    return true;
}
}  // namespace runtime
