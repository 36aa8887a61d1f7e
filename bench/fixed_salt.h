/* An index with a salt that is always the same, so that the tree of each run is the same. */
#ifndef FIXED_SALT_H
#define FIXED_SALT_H

#include <citrus.h>

#define FIXED_SALT UINT64_C(0x9e3779b97f4a7c15)

static inline int32_t open_fixed(citrus_handle *handle, uint32_t pairs, uint32_t handles, uint32_t waiter) {
    citrus_options options = citrus_options_for(pairs, handles, waiter);
    options.salt = FIXED_SALT;
    return citrus_open_with(handle, &options);
}

#endif
