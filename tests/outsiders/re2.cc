// RE2 on whole lines: an expression, then lines in hex; writes 1 or 0 for each line.
#include <re2/re2.h>
#include <iostream>
#include <string>

static std::string bytes(const std::string &hex) {
    std::string out;
    for (size_t i = 0; i + 1 < hex.size(); i += 2)
        out.push_back(static_cast<char>(std::stoi(hex.substr(i, 2), nullptr, 16)));
    return out;
}

int main() {
    RE2::Options options;
    options.set_encoding(RE2::Options::EncodingLatin1);
    options.set_dot_nl(true);
    std::string line;
    std::getline(std::cin, line);
    RE2 whole(line, options);
    if (!whole.ok())
        return 1;
    while (std::getline(std::cin, line))
        std::cout << RE2::FullMatch(bytes(line), whole) << "\n";
}
