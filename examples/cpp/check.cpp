// Checks certificates by the library for C, each in a thread of its own, and prints a line for each,
// which names the claim.
//
//     c++ -std=c++17 check.cpp $(pkg-config --cflags --libs vipr) -pthread -o check
//     ./check FILE..
//
// The exit status is the largest of the files': 0 verified, 1 refused, 3 no memory; 2 if one can't be read.
#include <algorithm>
#include <fstream>
#include <iostream>
#include <iterator>
#include <string>
#include <thread>
#include <vector>

#include "vipr.h"

namespace {

struct Result {
    int status = 2;
    std::string line;
};

// The lines of a verdict, as one.
std::string joined(std::string lines)
{
    if (!lines.empty())
        lines.pop_back();
    for (auto at = lines.find('\n'); at != std::string::npos; at = lines.find('\n', at))
        lines.replace(at, 1, ", ");
    return lines;
}

Result check(const std::string &name)
{
    std::string text;
    try {
        std::ifstream file;
        file.exceptions(std::ios::failbit | std::ios::badbit);
        file.open(name, std::ios::binary);
        text.assign(std::istreambuf_iterator<char>(file), {});
    } catch (const std::ios_base::failure &) {
        // a missing file, and a folder, which is opened and can't be read
        return {2, name + ": can't be read"};
    }
    std::string lines(VIPR_REPORT_ROOM, '\0');
    std::size_t length;
    vipr_answer answer;
    const int status = vipr_report(1, text.data(), text.size(), &lines[0], lines.size(), &length, &answer);
    lines.resize(length);
    return {status, name + ": " + (status == VIPR_NO_MEMORY ? "no memory" : joined(lines))};
}

} // namespace

int main(int count, char **words)
{
    const std::vector<std::string> names(words + 1, words + count);
    std::vector<Result> results(names.size());
    std::vector<std::thread> threads;
    for (std::size_t at = 0; at < names.size(); at++)
        threads.emplace_back([&results, &names, at] { results[at] = check(names[at]); });
    for (auto &thread : threads)
        thread.join();
    int largest = 0;
    for (const auto &result : results) {
        std::cout << result.line << '\n';
        largest = std::max(largest, result.status);
    }
    return largest;
}
