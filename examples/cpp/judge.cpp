// Explains a trace from standard input: c++ judge.cpp $(pkg-config --cflags --libs zorthewin) -o judge

#include <iostream>
#include <iterator>
#include <string>
#include <utility>
#include <zorthewin.h>

/// The status and the text of an explanation.
static std::pair<uint32_t, std::string> explained(const std::string &trace) {
    const auto *bytes = reinterpret_cast<const uint8_t *>(trace.data());
    std::string text(4096, '\0');
    for (;;) {
        size_t length = 0;
        const uint32_t status = zw_explain(bytes, trace.size(), ZW_TEXT, reinterpret_cast<uint8_t *>(&text[0]),
                                           text.size(), &length);
        const bool is_whole = length <= text.size();
        text.resize(length);
        if (is_whole)
            return {status, text};
    }
}

int main() {
    const std::string trace(std::istreambuf_iterator<char>(std::cin), {});
    const auto [status, text] = explained(trace);
    std::cout << text;
    return static_cast<int>(status);
}
