/* file.c: files framed records. It puts the raw trailer behind them that overlap_filed_call asks for.
 *
 *   file AGREEMENT DISAGREEMENT < frames > filed
 *
 * Frames that can't be filed are refused: `no`, number and place on standard error, and exit 1.
 */
#include "overlap.h"
#include "read_all.h"
#include <string.h>

/* The number of a strategy: one digit. All else is 3, which names none. */
static uint32_t strategy(const char *text) {
    return strlen(text) == 1 && *text >= '0' && *text <= '2' ? (uint32_t)(*text - '0') : 3;
}

int main(int argc, char **argv) {
    size_t len;
    if (argc != 3) fail("file", "AGREEMENT DISAGREEMENT < frames > filed");
    uint8_t *filed = read_all("file", OVERLAP_TRAILER_SIZE, &len);
    uint32_t answer = overlap_trailer_call(filed, len, strategy(argv[1]), strategy(argv[2]), filed + len, OVERLAP_TRAILER_SIZE);
    if (answer != 0) {
        fprintf(stderr, "no %u %u\n", answer % 100, (answer - 1000) / 100);
        return 1;
    }
    len += OVERLAP_TRAILER_SIZE;
    if (fwrite(filed, 1, len, stdout) != len || fclose(stdout) != 0) fail("file", "standard output can't be written");
    return 0;
}
