/* sim3_version of sim3.h. It is written in C, as the proved code declares no C functions of its own and returns no
 * texts. */
#include "sim3.h"

const char *sim3_version(void) { return SIM3_VERSION; }
