/* A library to be preloaded: sets MXCSR to the hexadecimal number in the variable MXCSR when it is loaded. */
#include <stdlib.h>
#include <xmmintrin.h>

__attribute__((constructor)) static void set(void) {
    const char *text = getenv("MXCSR");
    if (text) _mm_setcsr((unsigned)strtoul(text, 0, 16));
}
