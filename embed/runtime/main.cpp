// varukoni-js: runs a script whose ports are the hub's.
#include "agent.hpp"

#include <js/Initialization.h>

#include <cstdio>
#include <filesystem>

namespace {
namespace files = std::filesystem;
constexpr char usage[] =
    "usage: varukoni-js [--record FOLDER] [--root FOLDER] [--script FILE]... FILE\n";
constexpr char help[] = R"(
Runs a classic script, with the web's channels, ports and workers over Varukoni's hub, until no
worker lives and no timer, started port or listened channel is left.
  --record FOLDER  writes what the agents post and get there, for tools/report
  --root FOLDER    where paths begin that begin with a slash
  --script FILE    a script that runs in the window before FILE, in the same task
Exit status: 0; 1 where an error was handled by nobody; 2 where FILE or FOLDER can't be used; 4
where the logs can't be written.
)";
[[noreturn]] void refuse(const std::string &why) {
    std::fprintf(stderr, "varukoni-js: %s\n%s", why.c_str(), usage);
    std::exit(2);
}

std::string folder_of(const std::string &word) {
    if (!files::is_directory(word)) refuse(word + " is no folder");
    const std::string path = files::canonical(word).string();
    return path == "/" ? "" : path;
}
std::string path_of(const std::string &file, const std::string &root) {
    std::error_code error;
    const std::string path = files::absolute(file, error).lexically_normal().string();
    if (error || !files::is_regular_file(path, error)) refuse(file + " can't be read");
    if (path.rfind(root + "/", 0) != 0) refuse(file + " isn't below the root");
    return path.substr(root.size());
}

// The files of the words, of which the last is the window's own.
std::vector<std::string> read_words(int count, char **words, runtime::Program &program) {
    std::vector<std::string> scripts, rest;
    for (int at = 1; at < count; at++) {
        const std::string word = words[at];
        if (word == "--help" || word == "-h") {
            std::printf("%s%s", usage, help);
            std::exit(0);
        }
        const bool has_word = word == "--record" || word == "--root" || word == "--script";
        if (has_word && at + 1 == count) refuse(word + ": nothing behind it");
        if (!has_word && word.rfind("-", 0) == 0) refuse(word + ": what is that?");
        if (word == "--record") program.recorder.folder = folder_of(words[++at]);
        else if (word == "--root") program.root = folder_of(words[++at]);
        else (has_word ? scripts : rest).push_back(has_word ? words[++at] : word);
    }
    if (rest.size() != 1) refuse(rest.empty() ? "no FILE" : rest[1] + ": one FILE is enough");
    scripts.push_back(rest[0]);
    for (std::string &script : scripts) script = path_of(script, program.root);
    return scripts;
}
}  // namespace

int main(int count, char **words) {
    runtime::Program program;
    runtime::AgentStart window;
    window.paths = read_words(count, words, program);
    program.recorder.next(window.log);
    std::setvbuf(stdout, nullptr, _IOLBF, BUFSIZ);
    JS_Init();
    runtime::Agent(program, std::move(window), std::make_shared<runtime::Inbox>()).run();
    JS_ShutDown();
    return program.has_failed ? 1 : 0;
}
