/*
 * The library and the header: version
 *
 * Prints the version and the size of a monitor, first the library's and then the
 * header's. The exit status is 1 if they do not match.
 */
#include "delkuthi.h"
#include <inttypes.h>
#include <stdio.h>

int main(void)
{
    printf("library %" PRIu32 " %" PRIu64 "\n", delkuthi_version(), delkuthi_monitor_size());
    printf("header %" PRIu32 " %lu\n", DELKUTHI_VERSION, (unsigned long)sizeof(delkuthi_monitor));
    return DELKUTHI_MATCHES() ? 0 : 1;
}
