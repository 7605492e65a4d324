/* correct.c: corrects a filed group. A program to start from.
 *
 *   correct < filed > corrected
 *
 * Standard error gets the answer in words. Exit 0: standard output is the corrected filed group, also where it
 * had been corrected before and is written as it came. Exit 1: refused, and nothing is written. Exit 2: the
 * input can't be read, or the output not written.
 */
#include "overlap.h"
#include "overlap_text.h"
#include "apart.h"
#include "read_all.h"
#include <assert.h>

/* Calls the step with the counts of this group alone, and says the answer. The buffers that a call is passed
   must be apart: nothing else tells that they weren't. */
static uint32_t correct(const uint8_t *filed, uint8_t *out, size_t len) {
    uint8_t counts[OVERLAP_COUNTS_SIZE] = {0};
    char text[OVERLAP_TEXT_SIZE];
    assert(overlap_apart(filed, len, out, len));
    assert(overlap_apart(filed, len, counts, sizeof counts));
    assert(overlap_apart(out, len, counts, sizeof counts));
    uint32_t answer = overlap_filed_call(filed, len, out, len, counts, sizeof counts);
    fprintf(stderr, "correct: %s\n", overlap_text(OVERLAP_OF_FILED, answer, text));
    return answer;
}

int main(void) {
    size_t len;
    uint8_t *filed = read_all("correct", 0, &len);
    uint8_t *out = malloc(len + 1);                 /* never null, even for no bytes */
    if (!out) fail("correct", "no memory");
    uint32_t answer = correct(filed, out, len);
    if (answer > 1) return 1;
    const uint8_t *corrected = answer == 0 ? out : filed;
    if (fwrite(corrected, 1, len, stdout) != len || fclose(stdout) != 0) fail("correct", "standard output can't be written");
    return 0;
}
