/* Asks hosts/c/correct.c to correct a group in place. Its assertion has to end the program, which leaves no core file. */
#include <sys/resource.h>
#define main main_of_correct
#include "../../hosts/c/correct.c"
#undef main

int main(void)
{
    static uint8_t group[OVERLAP_TRAILER_SIZE];
    setrlimit(RLIMIT_CORE, &(struct rlimit){0, 0});
    return (int)correct(group, group, sizeof group);
}
