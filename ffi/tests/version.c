/* What the archive's version and a status are called. */
#include "cases.h"
#include <string.h>

#define IS_NAMED(status) WANT(strcmp(citrus_status_name(status), #status), 0)

static void the_version_is_the_headers(void) {
    char numbers[40];
    WANT(strcmp(citrus_version(), CITRUS_VERSION), 0);
    snprintf(numbers, sizeof numbers, "%d.%d.%d", CITRUS_VERSION_MAJOR, CITRUS_VERSION_MINOR, CITRUS_VERSION_PATCH);
    WANT(strcmp(numbers, CITRUS_VERSION), 0);
}

static void each_status_has_its_name(void) {
    IS_NAMED(CITRUS_DONE);
    IS_NAMED(CITRUS_UNCHANGED);
    IS_NAMED(CITRUS_FULL);
    IS_NAMED(CITRUS_MORE);
    IS_NAMED(CITRUS_MOVED);
    IS_NAMED(CITRUS_NEW);
    IS_NAMED(CITRUS_DIFFERENT);
    IS_NAMED(CITRUS_BUSY);
    IS_NAMED(CITRUS_CLOSED);
    IS_NAMED(CITRUS_BAD_ARGUMENT);
    IS_NAMED(CITRUS_NO_MEMORY);
    IS_NAMED(CITRUS_SPENT);
    IS_NAMED(CITRUS_LOST);
    IS_NAMED(CITRUS_HOLDS);
    /* A status that is new here gets a name too. */
    for (int32_t status = CITRUS_HOLDS; status <= CITRUS_BUSY; status++) WANT(strncmp(citrus_status_name(status), "CITRUS_", 7), 0);
    WANT(strcmp(citrus_status_name(CITRUS_HOLDS - 1), "no status of citrus"), 0);
    WANT(strcmp(citrus_status_name(INT32_MAX), "no status of citrus"), 0);
}

static const struct plain_case cases[] = {
    {"the archive has the version of the header", the_version_is_the_headers},
    {"each status has its name", each_status_has_its_name},
};

int main(void) {
    run_plain_cases(cases, COUNT_OF(cases));
    return failed_cases != 0;
}
