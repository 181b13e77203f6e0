/* A part of copperyarn.h, which includes this file: which of three a deadzone calculation was, as a pump reports it, and the calculation by itself, which asks
 * no hub. Its layout is held by assertions in copperyarn_lent.h. */
#ifndef COPPERYARN_TILT_H
#define COPPERYARN_TILT_H
#ifndef COPPERYARN_H
#error "include copperyarn.h"
#endif

/* By the magnitude of a stick's two values, held to 1, and the threshold; an axis without a partner has 0 beside it. */
enum copperyarn_tilt {
    COPPERYARN_TILT_NONE = 0,    /* in a pump's report alone: no axis event of the call met a threshold */
    COPPERYARN_TILT_INSIDE = 1,  /* the magnitude is at or below the threshold: both values become 0 */
    COPPERYARN_TILT_BETWEEN = 2, /* it is above the threshold and below 1: both are scaled, so that the rest fills 0..1 */
    COPPERYARN_TILT_FULL = 3     /* it is 1 and above the threshold: both stay as they are */
};

/* The pair behind the deadzone, and which of the three it was, never COPPERYARN_TILT_NONE. */
typedef struct copperyarn_tilted {
    float x, y;
    uint8_t tilt;
} copperyarn_tilted;

/* The calculation as the pump makes it, on any numbers; a pad's threshold is what copperyarn_deadzone_threshold tells. A threshold of 1 or more has everything
 * inside. Where a number is NaN, or the threshold below 0, which no pad's is, the pair may be NaN.
 * Refuses nothing. */
copperyarn_tilted copperyarn_deadzone(float x, float y, float threshold);

#endif
