/* Compiled as C11, not run: the headers alone, in either order and twice, with the layout that their assertions hold. */
#include "copperyarn_bytes.h"

#include "copperyarn.h"
#include "copperyarn_bytes.h"

_Static_assert(COPPERYARN_SHEET_MOST == COPPERYARN_SHEET_HEAD_SIZE + COPPERYARN_ELEMENTS * COPPERYARN_ELEMENT_SIZE, "the largest sheet");
_Static_assert(COPPERYARN_EVENTS_MOST == COPPERYARN_OUT_MOST / COPPERYARN_EVENT_SIZE, "the events of the largest out buffer");
_Static_assert(COPPERYARN_REFUSED_THRESHOLDS == 1 && COPPERYARN_REFUSED_NAME == 16, "the refusals' numbers");
_Static_assert(COPPERYARN_TILT_NONE == 0 && COPPERYARN_TILT_FULL == 3, "the report's numbers");
