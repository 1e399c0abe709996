// Futures over the front of threads: each request gives a std::future, which is ready once its last answer is on the disk.
// A tree of sums: each inner node fetches its two children, which others store, and stores their sum.
//
// usage: promises IMAGE      The image is made, so nothing may have its name.
#include "luntrebis_shared.h"

#include <cinttypes>
#include <cstdio>
#include <future>
#include <memory>
#include <stdexcept>
#include <vector>

namespace {

struct Refused : std::runtime_error {
    explicit Refused(int number) : std::runtime_error("refused " + std::to_string(number)) {}
};

class Shared {
public:
    explicit Shared(const char *path) {
        if (int answer = lts_create(path, 64, 16, 256, &held_)) throw Refused(answer);
    }
    ~Shared() { lts_close(held_); }
    Shared(const Shared &) = delete;
    Shared &operator=(const Shared &) = delete;

    std::uint16_t lease() {
        std::uint16_t element = 0;
        if (int answer = lts_lease(held_, &element)) throw Refused(answer);
        return element;
    }

    // What a request comes to. It may be long in coming, and no thread waits for it meanwhile.
    std::future<std::uint64_t> ask(std::uint8_t tag, std::uint16_t element, std::uint32_t address, std::uint64_t value = 0) {
        auto promise = std::make_unique<std::promise<std::uint64_t>>();
        auto future = promise->get_future();
        lt_command command = {tag, element, address, 0, value};
        if (int answer = lts_submit(held_, &command, 1, keep, promise.get())) throw Refused(answer);
        promise.release();
        return future;
    }

private:
    // On the thread that holds the file.
    static void keep(const lts_answer *answer) {
        if (answer->outcome.refusal == 0 && answer->outcome.tag == LT_WAITING) return; // It is called again.
        std::unique_ptr<std::promise<std::uint64_t>> promise(static_cast<std::promise<std::uint64_t> *>(answer->mark));
        if (answer->outcome.refusal)
            promise->set_exception(std::make_exception_ptr(Refused(answer->outcome.refusal)));
        else
            promise->set_value(answer->outcome.value);
    }

    lts *held_ = nullptr;
};

} // namespace

int main(int count, char **words) {
    constexpr std::uint32_t leaves = 8;
    if (count != 2) return 2;
    Shared shared(words[1]);
    std::uint16_t inner = shared.lease(), outer = shared.lease();
    shared.ask(LT_ALLOC_I, inner, 2 * leaves).get();
    // Node n has the children 2 n and 2 n + 1. All fetches are asked before anything is stored.
    std::vector<std::future<std::uint64_t>> children;
    for (std::uint32_t node = 2; node < 2 * leaves; node++) children.push_back(shared.ask(LT_FETCH, inner, node));
    for (std::uint32_t leaf = 0; leaf < leaves; leaf++) shared.ask(LT_STORE, outer, leaves + leaf, leaf + 1).get();
    for (std::uint32_t node = leaves - 1; node > 0; node--) {
        std::uint64_t left = children[2 * node - 2].get(), right = children[2 * node - 1].get();
        shared.ask(LT_STORE, outer, node, left + right).get();
    }
    std::printf("root %" PRIu64 "\n", shared.ask(LT_FETCH, inner, 1).get());
    return 0;
}
