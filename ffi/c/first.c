#include <citrus.h>
#include <stdio.h>

int main(void) {
    citrus_handle index = CITRUS_CLOSED_HANDLE;
    uint64_t value = 0;
    if (citrus_open(&index, 100000, 4, CITRUS_EER) != CITRUS_DONE || citrus_insert(&index, 5, 50) != CITRUS_DONE) return 1;
    if (citrus_get(&index, 5, &value) == CITRUS_DONE) printf("5 has %llu\n", (unsigned long long)value);
    citrus_close(&index);
}
