/* What of the archive isn't Rattle: the version that it was built as. It is compiled by whoever installs or packs it, over the header. */
#include "../include/citrus.h"

const char *citrus_version(void) { return CITRUS_VERSION; }
