// Times simdjson on the document of `[document,patch]`, as bench/c_calls.c times our calls: its arguments are
// `MODE COUNT`, and it prints the nanoseconds of one call. In mode `parse` a text is read into its DOM, with the
// room of the call before; in mode `minify` it is copied without whitespace, and not checked.
#include <chrono>
#include <iostream>
#include <iterator>
#include <memory>
#include <simdjson.h>
#include <string>

using Clock = std::chrono::steady_clock;

int main(int, char** argv) {
    const std::string mode = argv[1];
    const long count = std::stol(argv[2]);
    const std::string input{std::istreambuf_iterator<char>(std::cin), {}};
    simdjson::dom::parser reader;
    const simdjson::dom::array pair = reader.parse(input);
    const simdjson::padded_string document(simdjson::minify(pair.at(0).value()));
    simdjson::dom::parser parser;
    const std::unique_ptr<char[]> out(new char[document.size()]);
    std::size_t done = 0, length = 0;
    const auto start = Clock::now();
    for (long i = 0; i < count; ++i) {
        if (mode == "parse") done += parser.parse(document).error() == simdjson::SUCCESS;
        else done += simdjson::minify(document.data(), document.size(), out.get(), length) == simdjson::SUCCESS;
    }
    const auto spent = std::chrono::nanoseconds(Clock::now() - start).count() / count;
    std::cout << (done == static_cast<std::size_t>(count) ? spent : 0) << '\n';
}
