// Simulates one program at many processors, and writes `OPERATIONS,LINES,WAIT`: millions of operations a second, the lines of memory that
// moved from one processor to another for each update, and the nanoseconds that a wait for readers took.
#include "simulated.hpp"
#include "ways.hpp"
#include <cinttypes>
#include <cstdio>
#include <cstdlib>
#include <optional>
#include <string>

struct Options {
    std::string program = "before", waiter = "first";
    uint64_t gets = 90, keys = 200000;
    Cell cell;
};

[[noreturn]] void tell_usage(const char *name) {
    fprintf(stderr,
            "usage: %s [--processors N] [--threads N] [--gets OF_100] [--keys N]\n"
            "       [--program before|pairs|'pairs and kept'|queue|'queue and kept'|plain] [--waiter first|second|third]\n"
            "       [--looks N] [--spin NS] [--seed N] [--milliseconds N]\n",
            name);
    exit(2);
}

Options options_of(int count, char **words) {
    Options options;
    Cell &cell = options.cell;
    for (int i = 1; i + 1 < count; i += 2) {
        const std::string word = words[i], text = words[i + 1];
        const double number = strtod(text.c_str(), nullptr);
        if (word == "--processors") cell.processors = uint32_t(number);
        else if (word == "--threads") cell.threads = uint32_t(number);
        else if (word == "--gets") options.gets = uint64_t(number);
        else if (word == "--keys") options.keys = uint64_t(number);
        else if (word == "--program") options.program = text;
        else if (word == "--waiter") options.waiter = text;
        else if (word == "--looks") cell.costs.looks = uint32_t(number);
        else if (word == "--spin") cell.costs.spin = number;
        else if (word == "--seed") cell.seed = uint32_t(number);
        else if (word == "--milliseconds") cell.measured = 1e6 * number;
        else tell_usage(words[0]);
    }
    const bool is_whole = count % 2 == 1 && cell.threads > 0 && cell.costs.looks > 0 && cell.processors > 0;
    if (!is_whole || cell.processors > Machine::most_processors) tell_usage(words[0]);
    cell.warm = cell.measured / 2;
    // Few processors are on one chip.
    if (cell.processors <= 4) cell.costs.near = 30, cell.costs.far = 85;
    return options;
}

template <class W, class Mix> std::optional<Result> simulate_tree(const Mix &mix, const Options &options) {
    const Cell &cell = options.cell;
    if (options.program == "before") return simulate<TreeProgram<W, Before>>(mix, cell);
    if (options.program == "pairs") return simulate<TreeProgram<W, InPairs>>(mix, cell);
    if (options.program == "pairs and kept") return simulate<TreeProgram<W, Keeping<InPairs, true>>>(mix, cell);
    if (options.program == "queue") return simulate<TreeProgram<W, Keeping<Spinning, false>>>(mix, cell);
    if (options.program == "queue and kept") return simulate<TreeProgram<W, Spinning>>(mix, cell);
    return {};
}

template <class Mix> std::optional<Result> simulate_mix(const Mix &mix, const Options &options) {
    if (options.program == "plain") return simulate<PlainProgram>(mix, options.cell);
    if (options.waiter == "first") return simulate_tree<Eer<Spaced>>(mix, options);
    if (options.waiter == "second") return simulate_tree<Domain<Spaced>>(mix, options);
    if (options.waiter == "third") return simulate_tree<Deer<Spaced>>(mix, options);
    return {};
}

std::optional<Result> simulate_all(const Options &options) {
    if (options.gets == 98 && options.keys == 200000) return simulate_mix(Uniform<98, 200000>{}, options);
    if (options.gets == 90 && options.keys == 200000) return simulate_mix(Uniform<90, 200000>{}, options);
    if (options.gets == 90 && options.keys == 20000) return simulate_mix(Uniform<90, 20000>{}, options);
    if (options.gets == 50 && options.keys == 100000) return simulate_mix(Uniform<50, 100000>{}, options);
    return {};
}

int main(int count, char **words) {
    const Options options = options_of(count, words);
    const std::optional<Result> result = simulate_all(options);
    if (!result) tell_usage(words[0]);
    const auto each = [](double sum, uint64_t number) { return number == 0 ? 0 : sum / double(number); };
    printf("%.3f,%.1f,%.0f\n", 1e3 * double(result->operations) / options.cell.measured, each(double(result->lines_moved), result->updates),
           each(result->waited, result->waits));
}
