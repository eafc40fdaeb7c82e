// nlohmann/json as a peer: reads lines, each `[document,patch]`, and answers each with `ok DOCUMENT`,
// `refused NUMBER` or `unreadable`. One argument: patch or merge. The operations are made one by one,
// so that a refusal has its number; `raised NUMBER assertion` is a failed assertion of the library.
#include <iostream>
#include <string>

struct FailedAssertion {};
#define JSON_ASSERT(holds) do { if (!(holds)) throw FailedAssertion(); } while (false)
#include <nlohmann/json.hpp>

using nlohmann::json;

static std::string answer(const std::string& mode, const std::string& line) {
    json pair = json::parse(line, nullptr, false);
    if (pair.is_discarded() || !pair.is_array() || pair.size() != 2) return "unreadable";
    json document = pair[0];
    if (mode == "merge") {
        document.merge_patch(pair[1]);
        return "ok " + document.dump();
    }
    std::size_t number = 0;
    for (const json& operation : pair[1]) {
        try {
            document = document.patch(json::array({operation}));
        } catch (const json::exception&) {
            return "refused " + std::to_string(number);
        } catch (const FailedAssertion&) {
            return "raised " + std::to_string(number) + " assertion";
        }
        ++number;
    }
    return "ok " + document.dump();
}

int main(int argc, char** argv) {
    std::ios::sync_with_stdio(false);
    const std::string mode = argc > 1 ? argv[1] : "";
    std::string line;
    while (std::getline(std::cin, line)) std::cout << answer(mode, line) << '\n';
}
