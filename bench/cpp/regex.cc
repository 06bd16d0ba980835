// Lines on standard input by the pattern of samples/ec.card in RE2, with captures; prints what
// `reading` prints, without the weights, which RE2 does not have. bench/lines.sh runs it.
#include <re2/re2.h>
#include <iostream>
#include <string>

int main() {
    std::ios::sync_with_stdio(false);
    RE2::Options options;
    options.set_encoding(RE2::Options::EncodingLatin1);
    options.set_dot_nl(true);
    RE2 ec(".*EC=([.-9][.-9]*) (.S/cm) *(TC|nLF|@25C|).*", options);
    std::string line, out;
    for (int count = 1; std::getline(std::cin, line); count++) {
        re2::StringPiece parts[4];
        bool found = ec.Match(line, 0, line.size(), RE2::ANCHOR_BOTH, parts, 4);
        out += "line=" + std::to_string(count) + (found ? "\nanswer=found\n" : "\nanswer=none\n");
        for (int v = 1; found && v <= 3; v++) {
            size_t start = parts[v].data() - line.data() + 1;
            out += "v" + std::to_string(v) + "=" + std::to_string(start) + "," + std::to_string(start + parts[v].size()) + "\n";
        }
        if (out.size() > 1 << 16) {
            std::cout << out;
            out.clear();
        }
    }
    std::cout << out;
}
