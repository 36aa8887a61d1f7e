// Writes the script text of a number: 2 to 64 scripts of up to 60 operations each, on 1 to 8 keys: `drawn_text NUMBER`.
#include <cstdint>
#include <cstdio>
#include <cstdlib>

int main(int count, char **words) {
    if (count != 2) return 2;
    uint64_t state = strtoull(words[1], nullptr, 10);
    const auto draw = [&state](uint64_t below) {
        state = state * 6364136223846793005u + 1442695040888963407u;
        return (state >> 33) % below;
    };
    draw(2);
    const uint64_t scripts = draw(4) == 0 ? 64 : 2 + draw(63);
    const uint64_t keys = 1 + draw(8);
    // Keys of one class, of classes next to each other, or at the upper end.
    const uint64_t ways[] = {1, 64, UINT64_MAX / 8};
    const uint64_t apart = ways[draw(3)];
    const uint64_t kinds = 4 + draw(6);
    for (uint64_t script = 0; script < scripts; script++) {
        puts("script");
        for (uint64_t i = draw(61); i > 0; i--) {
            const unsigned long long key = (draw(keys) + 1) * apart - 1, value = draw(5);
            switch (draw(kinds)) {
            case 0: printf("put %llu %llu\n", key, value); break;
            case 1: printf("del %llu\n", key); break;
            case 2: printf("set %llu %llu\n", key, value); break;
            case 3: printf("put %llu %llu\n", key, value); break;
            default: printf("get %llu\n", key); break;
            }
        }
    }
}
