// What fans and groups of varukoni_ports.hpp do: what comes in which order, what is destroyed, and
// who is woken. It prints how much it did; the exit status is 99 where something is wrong.
#include "needing.hpp"

static void lines_are_asked_in_turn() {
    Fan fan;
    std::vector<Line> lines;
    for (unsigned long n = 0; n < 3; n++) {
        lines.push_back(*fan.line());
        NEED(lines[n].post(counted(n)) == Posted::done);
        NEED(lines[n].post(counted(n + 10)) == Posted::done);
    }
    for (unsigned long next : {0, 1, 2, 10, 11, 12}) NEED(number(*fan.take()) == next);
    NEED(!fan.take() && !fan.ended());
    lines.clear();
    NEED(!fan.take() && fan.ended() && !fan.wait() && living == 0);
}

static void a_place_is_free_again_once_all_was_taken() {
    Fan fan;
    std::vector<Line> lines;
    for (int n = 0; n < VARUKONI_FAN_LINES; n++) lines.push_back(*fan.line());
    NEED(!fan.line() && lines.back().post(counted(7)) == Posted::done);
    lines.pop_back();
    NEED(!fan.line() && number(*fan.take()) == 7 && !fan.take());
    auto again = fan.line();
    NEED(again && again->post(counted(8)) == Posted::done && number(*fan.wait()) == 8);
}

static void what_is_refused_comes_back() {
    Fan fan;
    Line line = *fan.line();
    Message many = counted();
    for (int n = 0; n < 17; n++) many.ports.push_back(open_channel().first);
    NEED(line.post(many) == Posted::too_many && many.ports.size() == 17 && many.body);
    many.ports.resize(1);
    NEED(line.post(many) == Posted::done && many.ports.empty() && !many.body);
    auto left = fan.close();
    NEED(left.size() == 1 && left[0].ports.size() == 1);
    Message late = counted(3);
    late.ports.push_back(std::move(left[0].ports[0]));
    NEED(line.post(late) == Posted::closed && number(late) == 3 && late.ports.size() == 1);
}

static void each_line_comes_whole(unsigned long senders, unsigned long each) {
    Fan fan;
    std::vector<std::thread> threads;
    for (unsigned long sender = 0; sender < senders; sender++) {
        threads.emplace_back([line = *fan.line(), first = sender * each, each]() mutable {
            for (unsigned long n = 0; n < each; n++) {
                NEED(line.post(counted(first + n)) == Posted::done);
                if (n % 50 == 0) std::this_thread::sleep_for(10us);
            }
        });
    }
    std::vector<unsigned long> next(senders);
    while (auto message = fan.wait()) {
        unsigned long found = number(*message);
        NEED(found % each == next[found / each]++);
    }
    for (unsigned long count : next) NEED(count == each);
    for (auto &thread : threads) thread.join();
    NEED(living == 0);
}

static void posts_beside_a_close_are_destroyed_once(int rounds) {
    for (int round = 0; round < rounds; round++) {
        Fan fan;
        std::vector<std::thread> threads;
        for (int n = 0; n < 4; n++) {
            threads.emplace_back([line = *fan.line()]() mutable {
                while (line.post(counted()) == Posted::done) {}
            });
        }
        for (int n = 0; n < round % 7; n++) std::this_thread::yield();
        fan = Fan();
        for (auto &thread : threads) thread.join();
        NEED(living == 0);
    }
}

static unsigned long number_of(const Shared &shared) {
    return static_cast<const Counted &>(*shared).number;
}

static void all_get_one_order(unsigned long members, unsigned long each) {
    Group group;
    Member watch = group.join();
    std::vector<Member> joined;
    std::vector<std::vector<unsigned long>> found(members);
    std::vector<std::thread> threads;
    for (unsigned long own = 0; own < members; own++) joined.push_back(group.join());
    for (unsigned long own = 0; own < members; own++) {
        threads.emplace_back([&member = joined[own], &seen = found[own], own, members, each] {
            for (unsigned long n = 0; n < each; n++)
                NEED(member.post(std::make_shared<Counted>(own * each + n)) == members);
            while (seen.size() < (members - 1) * each) seen.push_back(number_of(*member.wait()));
        });
    }
    for (unsigned long n = 0; n < members * each; n++) watch.wait();
    for (auto &thread : threads) thread.join();
    // Whatever two members have both got came to both in one order.
    for (unsigned long a = 0; a < members; a++) {
        for (unsigned long b = 0; b < a; b++) {
            auto others = [&](const std::vector<unsigned long> &seen) {
                std::vector<unsigned long> both;
                for (unsigned long n : seen)
                    if (n / each != a && n / each != b) both.push_back(n);
                return both;
            };
            NEED(others(found[a]) == others(found[b]));
        }
    }
    joined.clear();
    NEED(living == 0);
}

static void who_has_left_gets_nothing() {
    Group group;
    Member near = group.join(), far = group.join();
    {
        Member third = group.join();
        NEED(near.post(std::make_shared<Counted>(1)) == 2 && living == 1);
        NEED(number_of(*third.take()) == 1);
    }
    NEED(near.post(std::make_shared<Counted>(2)) == 1 && living == 2);
    NEED(number_of(*far.take()) == 1);
    NEED(living == 1);
    NEED(!near.take() && !near.wait_for(5ms));
    far = group.join();
    NEED(living == 0 && !far.take());
}

int main() {
    lines_are_asked_in_turn();
    a_place_is_free_again_once_all_was_taken();
    what_is_refused_comes_back();
    each_line_comes_whole(4, 10000);
    posts_beside_a_close_are_destroyed_once(60);
    all_get_one_order(4, 1000);
    who_has_left_gets_nothing();
    std::printf("needed: %d\n", needed.load());
    return living == 0 ? 0 : 99;
}
