/*
 * A host that was written for version 1 of overlap.h, whose overlap_call takes no cap. For tests/version.sh, which compiles it
 *   as it stands       declaring the call itself: the object of a host that was compiled with the header of version 1
 *   with HEADER        including overlap.h
 *   and with GUARD     refusing another version than 1 before that
 *   and with CHANGED   passing what overlap.h asks such a host for
 */
#ifdef HEADER
#include "overlap.h"
#else
#include <stddef.h>
#include <stdint.h>
uint32_t overlap_call(uint8_t *, size_t, uint8_t *, size_t, uint32_t, uint32_t, uint8_t *, size_t);
#endif

#if defined GUARD && OVERLAP_VERSION != 1
#error "written for version 1 of overlap.h"
#endif

int main(void) {
    uint8_t first[32] = {0}, second[32] = {0}, counts[32] = {0};
    return (int)overlap_call(first, sizeof first, second, sizeof second, 0, 0,
#ifdef CHANGED
                             OVERLAP_CAP_MAX,
#endif
                             counts, sizeof counts);
}
