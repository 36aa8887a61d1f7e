/* A cache of strings by id, each for some seconds: it is held while it is read, and freed after a wait. Each thread calls by its handle. */
#include <citrus.h>
#include <stdio.h>
#include <stdlib.h>
#include <time.h>

struct entry { time_t end; char text[48]; };

/* Frees what an update of this thread took out, when nobody reads it any more. */
static void free_old(citrus_handle *mine, uint64_t id, uint64_t old) {
    if (citrus_wait(mine, id, id) == CITRUS_DONE) free((void *)(uintptr_t)old);
}

static void put(citrus_handle *mine, uint64_t id, const char *text, time_t seconds) {
    struct entry *entry = malloc(sizeof *entry);
    uint64_t old = 0;
    if (!entry) return;
    entry->end = time(NULL) + seconds;
    snprintf(entry->text, sizeof entry->text, "%s", text);
    const int32_t status = citrus_upsert(mine, id, (uintptr_t)entry, &old);
    if (status == CITRUS_DONE) free_old(mine, id, old);
    else if (status != CITRUS_NEW && status != CITRUS_LOST) free(entry);
}

static void drop(citrus_handle *mine, uint64_t id) {
    uint64_t old = 0;
    if (citrus_remove(mine, id, &old) == CITRUS_DONE) free_old(mine, id, old);
}

/* Drops the entry that was seen there, and not one that was put since. Where that one has its address by now, it goes too. */
static void expire(citrus_handle *mine, uint64_t id, uint64_t seen) {
    uint64_t other = 0;
    if (citrus_take(mine, id, seen, &other) == CITRUS_DONE) free_old(mine, id, seen);
}

/* Reads the text where it stands, and not after the release. */
static void print(citrus_handle *mine, uint64_t id) {
    uint64_t value = 0;
    if (citrus_hold(mine, id, &value) != CITRUS_DONE) return;
    const struct entry *entry = (const struct entry *)(uintptr_t)value;
    const int is_over = entry->end <= time(NULL);
    if (!is_over) printf("%d: %s\n", (int)id, entry->text);
    citrus_release(mine);
    if (is_over) expire(mine, id, value);
}

int main(void) {
    citrus_handle mine = CITRUS_CLOSED_HANDLE;
    if (citrus_open(&mine, 1000, 1, CITRUS_EER) != CITRUS_DONE) return 1;
    put(&mine, 5, "fife", 60);
    put(&mine, 5, "five", 60);
    put(&mine, 6, "six", 0);
    for (uint64_t id = 5; id <= 6; id++) print(&mine, id);
    drop(&mine, 5);
    citrus_close(&mine);
}
