/* The environment of sim3.h beside the proved sim3_environment: one register of the processor, which the proved code
 * cannot name. */
#include "sim3.h"
#include <xmmintrin.h>

#define CONTROL 0xffc0u /* of MXCSR: flushing, rounding, six masks, denormals as zero; the six bits below are flags */
#define PROVED 0x1f80u  /* to nearest, nothing flushed, every exception masked */

uint32_t sim3_environment_differs(void) { return (_mm_getcsr() ^ PROVED) & CONTROL; }

uint32_t sim3_environment_enter(void) {
    uint32_t was = _mm_getcsr();
    _mm_setcsr(PROVED);
    return was;
}

void sim3_environment_leave(uint32_t was) { _mm_setcsr(was); }
