// An owner of a linker in C++. It does what host.rs does, by the same words, and prints the same:
//
//     host METHOD PC FILE..
#include "linkd.h"
#include "names.h"
#include <cstdio>
#include <cstdlib>
#include <fstream>
#include <iterator>
#include <stdexcept>
#include <string>
#include <vector>

namespace {

struct Refused : std::runtime_error {
    Refused(std::uint32_t status, std::uint32_t fault) : std::runtime_error(refusal_name(status, fault)) {}
};

void done(std::uint32_t status, std::uint32_t fault = 0) {
    if (status != LINKD_DONE) throw Refused(status, fault);
}

const std::uint8_t *bytes(const std::string &text) { return reinterpret_cast<const std::uint8_t *>(text.data()); }

// An open linker: it isn't copied, since its block isn't moved.
class Linker {
  public:
    explicit Linker(std::uint32_t max_sites) : block(linkd_size() + linkd_align()) {
        auto address = reinterpret_cast<std::uintptr_t>(block.data());
        at = reinterpret_cast<linkd *>(block.data() + (linkd_align() - address % linkd_align()) % linkd_align());
        linkd_blank(at);
        done(linkd_open(at, max_sites));
    }
    Linker(const Linker &) = delete;
    Linker &operator=(const Linker &) = delete;
    ~Linker() { linkd_close(at); }

    std::uint32_t define(const std::string &file) {
        std::uint32_t status = linkd_define_up_to(at, 0, LINKD_NEWEST_KNOWN, bytes(file), file.size(), &told);
        done(status, told.fault);
        return told.number;
    }
    std::uint32_t request(std::uint32_t class_number, std::uint32_t method, std::uint32_t pc) {
        done(linkd_request(at, class_number, method, pc, &told));
        return told.number;
    }
    void install(std::uint32_t site) { done(linkd_install(at, &site, 1, &told)); }
    linkd_call_answer call(std::uint32_t site, std::uint32_t receiver) {
        linkd_call_answer answer;
        done(linkd_call(at, site, receiver, &answer));
        return answer;
    }
    std::string answer(const std::string &line) {
        std::size_t length = 0;
        done(linkd_answer(at, bytes(line), line.size(), &length));
        std::string text(length, ' ');
        done(linkd_take(at, reinterpret_cast<std::uint8_t *>(&text[0]), text.size(), &length));
        return text;
    }

  private:
    std::vector<unsigned char> block;
    linkd *at = nullptr;
    linkd_told told{};
};

// What a call comes to, in words.
std::string told(const linkd_call_answer &answer) {
    static const char *const throwables[] = {"", "NoSuchMethodError", "IllegalAccessError", "IncompatibleClassChangeError", "AbstractMethodError",
                                             "NullPointerException"};
    switch (answer.kind) {
    case LINKD_RUN: return "runs method " + std::to_string(answer.value) + " of class " + std::to_string(answer.class_number);
    case LINKD_THROWS: return std::string("throws ") + throwables[answer.value];
    case LINKD_BAD_RECEIVER: return "can't have such a receiver";
    default: return "is unlinked: " + std::to_string(answer.value);
    }
}

std::string read(const char *path) {
    std::ifstream from(path, std::ios::binary);
    if (!from) throw std::runtime_error("can't be read");
    return {std::istreambuf_iterator<char>(from), std::istreambuf_iterator<char>()};
}

std::uint32_t define(Linker &linker, const std::string &path) try {
    return linker.define(read(path.c_str()));
} catch (const std::exception &fault) {
    throw std::runtime_error(path + ": " + fault.what());
}

} // namespace

int main(int argc, char **argv) try {
    if (argc < 4) throw std::runtime_error("METHOD PC FILE..");
    Linker linker(1);
    std::uint32_t class_number = 0;
    for (int i = 3; i < argc; i++) class_number = define(linker, argv[i]);
    auto number = [](const char *word) { return static_cast<std::uint32_t>(std::strtoul(word, nullptr, 10)); };
    std::uint32_t site = linker.request(class_number, number(argv[1]), number(argv[2]));
    linker.install(site);
    std::printf("%s\n", linker.answer("{\"do\":\"links\"}").c_str());
    for (std::uint32_t i = 0; i <= class_number + 1; i++) {
        auto on = i == 0 ? std::string("null") : "class " + std::to_string(i - 1);
        std::printf("on %s it %s\n", on.c_str(), told(linker.call(site, i == 0 ? LINKD_NULL : i - 1)).c_str());
    }
    return 0;
} catch (const std::exception &fault) {
    std::fprintf(stderr, "host: %s\n", fault.what());
    return 1;
}
