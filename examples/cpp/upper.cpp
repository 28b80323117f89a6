#include <cctype>
#include <cstring>
#include <iostream>
#include <stdexcept>
#include <string>
#include <string_view>
#include <vector>
#include <witcall_call.h>

static const uint8_t *bytes(std::string_view text) { return reinterpret_cast<const uint8_t *>(text.data()); }

// The count of a status that is done.
static uint32_t done(witcall_status status) {
    char line[WITCALL_MAX_STATUS_LINE + 1];
    if (status.code != WITCALL_DONE)
        throw std::runtime_error(witcall_status_words(status, line));
    return status.count;
}

// A component's memory, and its allocator.
struct Memory {
    Memory() = default;
    Memory(const Memory &) = delete;

    std::vector<uint8_t> bytes = std::vector<uint8_t>(65536);
    witcall_array_memory blocks = {bytes.data(), bytes.size(), 16};
    witcall_guest guest = witcall_array_guest(&blocks);

    std::string_view text(uint32_t at) const {
        uint32_t pair[2];
        std::memcpy(pair, &bytes[at], sizeof pair);
        return {reinterpret_cast<const char *>(&bytes[pair[0]]), pair[1]};
    }
};

class Package {
public:
    explicit Package(std::string_view text) {
        witcall_status opened = witcall_open(bytes(text), text.size(), &handle);
        if (opened.code != WITCALL_DONE)
            witcall_close(&handle);
        done(opened);
    }
    Package(const Package &) = delete;
    ~Package() { witcall_close(&handle); }

    uint32_t find(std::string_view interface, std::string_view name) {
        return done(witcall_find(&handle, bytes(interface), interface.size(), bytes(name), name.size()));
    }

    witcall_package handle = WITCALL_NONE;
};

// The callee's core function. It answers at 8 where its text is.
static uint32_t upper(void *context, const witcall_value *handed, uint32_t, witcall_value *answer) {
    std::vector<uint8_t> &callee = static_cast<Memory *>(context)->bytes;
    uint32_t pair[] = {uint32_t(handed[0].bits), uint32_t(handed[1].bits)};
    for (uint32_t at = pair[0]; at < pair[0] + pair[1]; at++)
        callee[at] = uint8_t(std::toupper(callee[at]));
    std::memcpy(&callee[8], pair, sizeof pair);
    *answer = {0, 8};
    return 1;
}

int main() {
    Package package("package demo:text; interface letters { upper: func(s: string) -> string; }");
    Memory caller, callee;
    witcall_body body = {&callee, upper, nullptr};
    witcall_link link = {&package.handle, package.find("demo:text/letters", "upper"), &caller.guest, &callee.guest,
   &body};

    uint32_t text = witcall_array_put(&caller.blocks, "two memories", 12);
    witcall_value flats[] = {{0, text}, {0, 12}, {0, 8}};
    done(witcall_link_call(&link, flats, 3, nullptr));
    std::cout << caller.text(8) << '\n';
}
