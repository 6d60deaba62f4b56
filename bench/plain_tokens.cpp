// Matches a text token by token by RE2, from an input like that of `leaf_bench tokens`: its members are one regular expression,
// of which the longest match is taken. Says how many tokens there were, and how many bytes they have.
#include <cstdio>
#include <iostream>
#include <iterator>
#include <re2/re2.h>
#include <string>

int main() {
    std::ios::sync_with_stdio(false);
    std::string input((std::istreambuf_iterator<char>(std::cin)), std::istreambuf_iterator<char>());
    size_t at = input.find('\n') + 1;
    std::string all;
    while (input[at] != '\n') {
        size_t end = input.find('\n', at);
        std::string line = input.substr(at + 1, end - at - 1);
        if (!all.empty()) all += '|';
        all += "(?:" + (input[at] == 'l' ? RE2::QuoteMeta(line) : line) + ")";
        at = end + 1;
    }
    RE2::Options options;
    options.set_encoding(RE2::Options::EncodingLatin1);
    options.set_longest_match(true);
    options.set_dot_nl(true);
    options.set_max_mem(1 << 28);
    RE2 set(all, options);
    if (!set.ok()) {
        std::puts("no such set");
        return 0;
    }
    re2::StringPiece text(input);
    unsigned long long tokens = 0, bytes = 0;
    size_t place = at + 1;
    while (place < input.size()) {
        re2::StringPiece found;
        if (set.Match(text, place, input.size(), RE2::ANCHOR_START, &found, 1) && found.size() > 0) {
            tokens += 1;
            bytes += found.size();
            place += found.size();
        } else {
            place += 1;
        }
    }
    std::printf("%llu tokens of %llu bytes\n", tokens, bytes);
}
