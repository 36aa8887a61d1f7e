// Writes a script text of so many operations in so many scripts, half of them gets, on 100000 keys: `made_text OPS SCRIPTS`.
// With `made_text OPS SCRIPTS KEYS` nine in ten are gets, on so many keys. With `made_text OPS SCRIPTS KEYS GETS` seven puts for ten
// keys come first, and of the others so many of 100 are gets.
#include <cstdint>
#include <cstdio>
#include <cstdlib>

int main(int count, char **words) {
    if (count < 3 || count > 5) return 2;
    const auto number = [&](int i, uint64_t otherwise) { return i < count ? strtoull(words[i], nullptr, 10) : otherwise; };
    const uint64_t ops = number(1, 0), scripts = number(2, 0), keys = number(3, 100000);
    const uint64_t gets = number(4, count == 4 ? 90 : 50), first_puts = count == 5 ? keys * 7 / 10 : 0;
    if (scripts == 0 || gets >= 100) return 2;
    // Four kinds in so many are updates.
    const uint64_t kinds = 400 / (100 - gets);
    uint64_t state = 1;
    const auto draw = [&state](uint64_t below) {
        state = state * 6364136223846793005u + 1442695040888963407u;
        return (state >> 33) % below;
    };
    for (uint64_t script = 0; script < scripts; script++) {
        puts("script");
        for (uint64_t i = script; i < ops; i += scripts) {
            const unsigned long long key = draw(keys);
            const unsigned long long value = draw(1000);
            switch (i < first_puts ? 0 : draw(kinds)) {
            case 0: case 1: printf("put %llu %llu\n", key, value); break;
            case 2: printf("del %llu\n", key); break;
            case 3: printf("set %llu %llu\n", key, value); break;
            default: printf("get %llu\n", key); break;
            }
        }
    }
}
