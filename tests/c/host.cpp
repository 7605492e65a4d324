// The headers as a host in C++ includes them: calls the step on two records that don't overlap, says why, and calls it
// on a refused one, and with a cap that is none.
#include "overlap.h"
#include "overlap_text.h"
#include "apart.h"
#include "read_all.h"

static_assert(OVERLAP_VERSION == 2 && OVERLAP_COUNTS_SIZE == 4 * sizeof(uint64_t), "written for version 2");

int main()
{
    uint8_t first[32] = {0}, second[32] = {0}, counts[OVERLAP_COUNTS_SIZE] = {0};
    char text[OVERLAP_TEXT_SIZE];
    for (size_t len = 32; len >= 31; len--) {
        uint32_t answer = overlap_call(first, sizeof first, second, len, OVERLAP_AGREE_MAX_QUAL, OVERLAP_DISAGREE_MASK_BOTH,
                                       OVERLAP_CAP_MIN, counts, sizeof counts);
        puts(overlap_text(OVERLAP_OF_PAIR, answer, text));
        if (answer == 0)
            puts(overlap_text(OVERLAP_OF_REASON, overlap_reason_call(first, sizeof first, second, len), text));
    }
    puts(overlap_text(OVERLAP_OF_PAIR, overlap_call(first, sizeof first, second, sizeof second, OVERLAP_AGREE_MAX_QUAL,
                                                    OVERLAP_DISAGREE_MASK_BOTH, OVERLAP_CAP_MAX + 1, counts, sizeof counts), text));
    return overlap_apart(first, sizeof first, second, sizeof second) ? 0 : 1;
}
