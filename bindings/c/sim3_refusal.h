/* sim3_refusal.h: in words, what the number that a function of sim3.h returns means, and what to do. */
#ifndef SIM3_REFUSAL_H
#define SIM3_REFUSAL_H

#include "sim3.h"

static inline const char *sim3_refusal_text(uint32_t number) {
    switch (number) {
    case SIM3_OK:
        return "answered";
    case SIM3_BELOW_ZERO:
        return "z is below zero; hand in a squared angle";
    case SIM3_E_IS_ZERO:
        return "e, the last number of the block, is zero; such a block has no inverse, so leave it out or look at e "
               "first";
    case SIM3_POINTS_LENGTH:
        return "a list of points or tangents has a wrong length; hand in x y z of every point, at most 65,535 numbers, "
               "and an out as long as pts; or seven numbers of every tangent, at most 7,168";
    case SIM3_NOT_FINITE:
        return "z, or sigma where sim3_nearest_arm was asked, is a NaN or infinite; it has no root with what is left "
               "and no neighbours, so look at it first";
    case SIM3_FRAMES:
        return "the frames do not meet; sim3_mul wants from of x to be to of y, sim3_mul_inv equal froms, sim3_inv_mul "
               "equal tos, sim3_running_push from of the running pose to be to of x, so look which way round the poses "
               "are handed in";
    case SIM3_SAME_TAKE:
        return "the take is the one that is kept of its sheet; number the takes of a sheet anew";
    case SIM3_TOO_MANY_SHEETS:
        return "the sheet would be the 513th; 512 are kept, so begin another store";
    case SIM3_NEVER_KEPT:
        return "nothing was ever kept of the sheet; look which sheets were put";
    case SIM3_LIST_LENGTH:
        return "a list has a wrong length; sim3.h states the right one of each argument in brackets";
    default:
        return "no refusal of this library; the header and the library do not belong together";
    }
}

#endif
