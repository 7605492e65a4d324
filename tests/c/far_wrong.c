/* Stands in for the archive in tests/far.sh. Each call does what no call may. */
#include "overlap.h"

uint32_t overlap_call(uint8_t *first, size_t first_len, uint8_t *second, size_t second_len,
                      uint32_t agreement, uint32_t disagreement, uint32_t cap, uint8_t *counts, size_t counts_len) {
    (void)second, (void)second_len, (void)agreement, (void)disagreement, (void)cap, (void)counts, (void)counts_len;
    first[first_len] = 0;                                    /* writes beside a buffer */
    return 0;
}
uint32_t overlap_reason_call(const uint8_t *first, size_t first_len, const uint8_t *second, size_t second_len) {
    (void)first, (void)first_len;
    ((uint8_t *)second)[second_len - 1] ^= 1;                /* writes into the last byte of a buffer that is to be read */
    return 0;
}
uint32_t overlap_filed_call(const uint8_t *filed, size_t filed_len, uint8_t *out, size_t out_len,
                            uint8_t *counts, size_t counts_len) {
    (void)filed_len, (void)out, (void)out_len, (void)counts, (void)counts_len;
    ((uint8_t *)filed)[0] ^= 1;                              /* writes into a buffer that is to be read */
    return 0;
}
uint32_t overlap_trailer_call(const uint8_t *frames, size_t frames_len, uint32_t agreement, uint32_t disagreement,
                              uint8_t *trailer, size_t trailer_len) {
    (void)frames, (void)frames_len, (void)agreement, (void)disagreement, (void)trailer, (void)trailer_len;
    __builtin_trap();                                        /* ends the server */
}
