/* Faults in front of the library, to show that a test tells of each. A program is linked with this and with --wrap for each call below, and
 * PLANTED in the environment names the call that is wrong. What it does instead is right where one thread calls, but for `busy`, `begin`, `poll`,
 * `keeper`, `early` and `owing`. */
#include <citrus.h>
#include <stdlib.h>
#include <string.h>

int32_t __real_citrus_get(citrus_handle *, uint64_t, uint64_t *);
int32_t __real_citrus_insert_once(citrus_handle *, uint64_t, uint64_t);
int32_t __real_citrus_compare_once(citrus_handle *, uint64_t, uint64_t, uint64_t, uint64_t *);
int32_t __real_citrus_upsert_once(citrus_handle *, uint64_t, uint64_t, uint64_t *);
int32_t __real_citrus_remove_once(citrus_handle *, uint64_t, uint64_t *);
int32_t __real_citrus_take_once(citrus_handle *, uint64_t, uint64_t, uint64_t *);
int32_t __real_citrus_list_once(citrus_handle *, uint64_t, uint64_t, citrus_pair *, size_t, size_t *, uint64_t *);
int32_t __real_citrus_first_once(citrus_handle *, uint64_t, uint64_t *, uint64_t *);
int32_t __real_citrus_last_once(citrus_handle *, uint64_t, uint64_t, uint64_t *, uint64_t *);
int32_t __real_citrus_begin(citrus_handle *, uint64_t, uint64_t, uint64_t *);
int32_t __real_citrus_poll(citrus_handle *, uint64_t);

/* So many keys are looked up one by one. */
enum { NEAR = 64 };

static const char *planted = "";

__attribute__((constructor)) static void begin(void) {
    const char *given = getenv("PLANTED");
    if (given) planted = given;
}

static int is_wrong(const char *call) { return strcmp(planted, call) == 0; }

/* Between two steps that should be one: so others come between more often. */
static void linger(void) {
    for (volatile int turn = 0; turn < 300; turn++) continue;
}

/* Of a key that the thread looked up before it tells the answer then, once in eight. */
int32_t __wrap_citrus_get(citrus_handle *handle, uint64_t key, uint64_t *value) {
    static __thread struct {
        const citrus_handle *by;
        uint64_t key, value, calls;
        int32_t status;
    } before;
    if (!is_wrong("get")) return __real_citrus_get(handle, key, value);
    if (before.by == handle && before.key == key && ++before.calls % 8 == 0) {
        if (before.status == CITRUS_DONE) *value = before.value;
        return before.status;
    }
    before.by = handle;
    before.key = key;
    before.status = __real_citrus_get(handle, key, value);
    before.value = *value;
    return before.status;
}

/* Once in eight it says that it was busy, and has added its pair. */
static int32_t insert_and_say_busy(citrus_handle *handle, uint64_t key, uint64_t value) {
    static __thread uint64_t calls;
    const int32_t status = __real_citrus_insert_once(handle, key, value);
    return status == CITRUS_DONE && ++calls % 8 == 0 ? CITRUS_BUSY : status;
}

/* By which handle the thread began its last wait, until that wait lost its place. */
static __thread const citrus_handle *waits_by;

/* Before an insert a wait for the handle's own slots takes the place of the one that its user began. */
static int32_t begin_and_insert(citrus_handle *handle, uint64_t key, uint64_t value) {
    uint64_t cookie;
    if (waits_by == handle) (void)!__real_citrus_begin(handle, 0, UINT64_MAX, &cookie);
    waits_by = NULL;
    return __real_citrus_insert_once(handle, key, value);
}

/* Says that a pair is there for which it has no room to turn nodes yet. */
static int32_t insert_unless_busy(citrus_handle *handle, uint64_t key, uint64_t value) {
    const int32_t status = __real_citrus_insert_once(handle, key, value);
    return status == CITRUS_BUSY ? CITRUS_DONE : status;
}

/* Looks, and then gives the key the value whether it is there or not. */
int32_t __wrap_citrus_insert_once(citrus_handle *handle, uint64_t key, uint64_t value) {
    uint64_t old;
    if (is_wrong("busy")) return insert_and_say_busy(handle, key, value);
    if (is_wrong("keeper")) return begin_and_insert(handle, key, value);
    if (is_wrong("owing")) return insert_unless_busy(handle, key, value);
    if (!is_wrong("insert")) return __real_citrus_insert_once(handle, key, value);
    const int32_t status = __real_citrus_get(handle, key, &old);
    if (status != CITRUS_UNCHANGED) return status == CITRUS_DONE ? CITRUS_UNCHANGED : status;
    linger();
    const int32_t put = __real_citrus_upsert_once(handle, key, value, &old);
    return put == CITRUS_NEW ? CITRUS_DONE : put;
}

/* Looks, and then replaces whatever value is there. */
int32_t __wrap_citrus_compare_once(citrus_handle *handle, uint64_t key, uint64_t expected, uint64_t value, uint64_t *found) {
    uint64_t now, old;
    if (!is_wrong("compare")) return __real_citrus_compare_once(handle, key, expected, value, found);
    const int32_t status = __real_citrus_get(handle, key, &now);
    if (status == CITRUS_DONE && now != expected) return *found = now, CITRUS_DIFFERENT;
    linger();
    return status == CITRUS_DONE ? citrus_replace_once(handle, key, value, &old) : status;
}

/* Takes the pair out and puts another in. */
int32_t __wrap_citrus_upsert_once(citrus_handle *handle, uint64_t key, uint64_t value, uint64_t *old) {
    uint64_t between;
    if (!is_wrong("upsert")) return __real_citrus_upsert_once(handle, key, value, old);
    const int32_t gone = __real_citrus_remove_once(handle, key, old);
    if (gone != CITRUS_DONE && gone != CITRUS_UNCHANGED) return gone;
    linger();
    int32_t put;
    while ((put = __real_citrus_upsert_once(handle, key, value, &between)) == CITRUS_BUSY) sched_yield();
    if (put != CITRUS_DONE && put != CITRUS_NEW) return put;
    return gone == CITRUS_DONE ? CITRUS_DONE : CITRUS_NEW;
}

/* Says that a pair is gone that it may not take out yet. */
static int32_t remove_unless_busy(citrus_handle *handle, uint64_t key, uint64_t *old) {
    const int32_t status = __real_citrus_remove_once(handle, key, old);
    return status == CITRUS_BUSY ? __real_citrus_get(handle, key, old) : status;
}

/* Tells the value that it finds before. */
int32_t __wrap_citrus_remove_once(citrus_handle *handle, uint64_t key, uint64_t *old) {
    uint64_t value;
    if (is_wrong("early")) return remove_unless_busy(handle, key, old);
    if (!is_wrong("remove")) return __real_citrus_remove_once(handle, key, old);
    const int32_t found = __real_citrus_get(handle, key, &value);
    linger();
    const int32_t gone = __real_citrus_remove_once(handle, key, old);
    if (found == CITRUS_DONE && gone == CITRUS_DONE) *old = value;
    return gone;
}

/* Looks, and then takes out whatever value is there. */
int32_t __wrap_citrus_take_once(citrus_handle *handle, uint64_t key, uint64_t expected, uint64_t *found) {
    uint64_t now, old;
    if (!is_wrong("take")) return __real_citrus_take_once(handle, key, expected, found);
    const int32_t status = __real_citrus_get(handle, key, &now);
    if (status == CITRUS_DONE && now != expected) return *found = now, CITRUS_DIFFERENT;
    linger();
    return status == CITRUS_DONE ? __real_citrus_remove_once(handle, key, &old) : status;
}

/* Lists one half of the range after the other. */
int32_t __wrap_citrus_list_once(citrus_handle *handle, uint64_t low, uint64_t high, citrus_pair *pairs, size_t room, size_t *count, uint64_t *next) {
    const uint64_t middle = low / 2 + high / 2;
    size_t more = 0;
    if (!is_wrong("list") || low >= high) return __real_citrus_list_once(handle, low, high, pairs, room, count, next);
    int32_t status = __real_citrus_list_once(handle, low, middle, pairs, room, count, next);
    if (status != CITRUS_DONE) return status;
    if (*count == room) return __real_citrus_list_once(handle, low, high, pairs, room, count, next);
    linger();
    while ((status = __real_citrus_list_once(handle, middle + 1, high, pairs + *count, room - *count, &more, next)) == CITRUS_BUSY) sched_yield();
    *count += more;
    return status;
}

/* Looks the next keys up one by one. */
int32_t __wrap_citrus_first_once(citrus_handle *handle, uint64_t low, uint64_t *key, uint64_t *value) {
    if (!is_wrong("first") || low > UINT64_MAX - NEAR) return __real_citrus_first_once(handle, low, key, value);
    for (*key = low; *key < low + NEAR; ++*key) {
        const int32_t status = __real_citrus_get(handle, *key, value);
        if (status != CITRUS_UNCHANGED) return status;
        linger();
    }
    return __real_citrus_first_once(handle, low + NEAR, key, value);
}

int32_t __wrap_citrus_last_once(citrus_handle *handle, uint64_t low, uint64_t high, uint64_t *key, uint64_t *value) {
    if (!is_wrong("last") || low > high || high - low > NEAR) return __real_citrus_last_once(handle, low, high, key, value);
    for (uint64_t at = high;; at--) {
        const int32_t status = __real_citrus_get(handle, at, value);
        if (status == CITRUS_DONE) *key = at;
        if (status != CITRUS_UNCHANGED || at == low) return status;
        linger();
    }
}

/* These two wait for nobody, or for readers that aren't the wait's. */
int32_t __wrap_citrus_begin(citrus_handle *handle, uint64_t low, uint64_t high, uint64_t *cookie) {
    if (is_wrong("begin") && low <= high) low = high = UINT64_MAX;
    waits_by = handle;
    return __real_citrus_begin(handle, low, high, cookie);
}

int32_t __wrap_citrus_poll(citrus_handle *handle, uint64_t cookie) {
    const int32_t status = __real_citrus_poll(handle, cookie);
    return is_wrong("poll") && status == CITRUS_UNCHANGED ? CITRUS_DONE : status;
}
