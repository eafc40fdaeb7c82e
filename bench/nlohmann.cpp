// Times the calls of nlohmann/json as bench/driver.rt.txt times those here: its arguments are
// `MODE COUNT`, its input is `[document,patch]`, and it prints the nanoseconds of one call, each made
// on a fresh copy whose making isn't counted. The modes are `patch`, which answers a new document,
// `inplace`, which leaves a refused patch part-way, and `merge`; and `texts` and `kept` of bench/c_calls.c. For `diff`
// and `same` the input is two documents: it prints what bench/differences.rt.txt prints.
#include <chrono>
#include <iostream>
#include <nlohmann/json.hpp>
#include <string>

using nlohmann::json;
using Clock = std::chrono::steady_clock;

// From the two texts to the new one; or a document that is kept, changed in place by the patch's text.
long long from_texts(const json& pair, const std::string& mode, long count) {
    const std::string document = pair[0].dump(), patch = pair[1].dump();
    json kept = pair[0];
    std::size_t written = 0;
    const auto start = Clock::now();
    for (long i = 0; i < count; ++i) {
        if (mode == "kept") kept.patch_inplace(json::parse(patch));
        else {
            json work = json::parse(document);
            work.patch_inplace(json::parse(patch));
            written += work.dump().size();
        }
    }
    const auto spent = std::chrono::nanoseconds(Clock::now() - start).count() / count;
    return mode == "kept" || written ? spent : 0;
}

// The patch from one document to another: the nanoseconds of one call, its operations and its bytes.
void differences(const json& from, const json& to, long count) {
    json changes;
    const auto start = Clock::now();
    for (long i = 0; i < count; ++i) changes = json::diff(from, to);
    const auto spent = std::chrono::nanoseconds(Clock::now() - start).count() / count;
    if (from.patch(changes) != to) return;
    std::cout << spent << ' ' << changes.size() << ' ' << changes.dump().size() << '\n';
}

// One comparison of two documents: the nanoseconds, and how often they were equal.
void comparisons(const json& from, const json& to, long count) {
    long equal = 0;
    const auto start = Clock::now();
    for (long i = 0; i < count; ++i) equal += from == to;
    const auto spent = std::chrono::nanoseconds(Clock::now() - start).count() / count;
    std::cout << spent << ' ' << equal << '\n';
}

int main(int, char** argv) {
    std::ios::sync_with_stdio(false);
    const std::string mode = argv[1];
    const long count = std::stol(argv[2]);
    const json pair = json::parse(std::cin);
    if (mode == "diff") {
        differences(pair[0], pair[1], count);
        return 0;
    }
    if (mode == "same") {
        comparisons(pair[0], pair[1], count);
        return 0;
    }
    if (mode == "texts" || mode == "kept") {
        std::cout << from_texts(pair, mode, count) << '\n';
        return 0;
    }
    const json &document = pair[0], &change = pair[1];
    Clock::duration spent{};
    for (long i = 0; i < count; ++i) {
        json work = document;
        const auto start = Clock::now();
        if (mode == "merge") work.merge_patch(change);
        else if (mode == "inplace") work.patch_inplace(change);
        else work = work.patch(change);
        spent += Clock::now() - start;
    }
    std::cout << std::chrono::nanoseconds(spent).count() / count << '\n';
}
