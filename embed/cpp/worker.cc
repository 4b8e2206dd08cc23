// A page and its worker, each on a thread: a queue, a port with a message waiting in it, and a
// broadcast.
#include "varukoni_ports.hpp"

#include <iostream>

using namespace varukoni;

// Reads what waits in the port that comes first, and replies there.
static void work(Fan queue, Member news) {
    while (auto message = queue.wait()) {
        std::cout << "worker: " << *message->bytes() << std::endl;
        Port port = std::move(message->ports[0]);
        std::cout << "worker: " << *port.wait()->bytes() << std::endl;
        news.post(std::make_shared<Bytes>("the worker has read it"));
        port.post(text("a reply"));
    }
}

int main() {
    Fan queue;
    Line line = *queue.line();
    Group group;
    Member news = group.join();
    std::thread worker(work, std::move(queue), group.join());

    auto [port, sent] = open_channel();
    port.post(text("it waited"));
    Message moving = text("a port");
    moving.ports.push_back(std::move(sent));
    line.post(moving);
    while (auto message = port.wait()) std::cout << "page: " << *message->bytes() << std::endl;
    std::cout << "page: the port is closed" << std::endl;
    Shared heard = *news.wait();
    std::cout << "news: " << static_cast<const Bytes &>(*heard).bytes << std::endl;

    // A worker whose queue has no line left ends.
    line = Line();
    worker.join();
}
