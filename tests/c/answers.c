/*
 * Says answers in words, for tests/answers.py: reads lines as `pair 1107`, `reason 31205`, `filed 0`, `trailer 1019`
 * and, for the number of a refusal alone, `number 7`; prints the text of each.
 */
#include "overlap_text.h"

#include <inttypes.h>
#include <string.h>

static const char *said(const char *what, uint32_t n, char *room)
{
    if (strcmp(what, "pair") == 0)
        return overlap_text(OVERLAP_OF_PAIR, n, room);
    if (strcmp(what, "reason") == 0)
        return overlap_text(OVERLAP_OF_REASON, n, room);
    if (strcmp(what, "filed") == 0)
        return overlap_text(OVERLAP_OF_FILED, n, room);
    if (strcmp(what, "trailer") == 0)
        return overlap_text(OVERLAP_OF_TRAILER, n, room);
    const char *words = overlap_words(n);
    return words ? words : "none";
}

int main(void)
{
    char what[8], room[OVERLAP_TEXT_SIZE];
    uint32_t n;
    while (scanf("%7s %" SCNu32, what, &n) == 2)
        puts(said(what, n, room));
    return 0;
}
