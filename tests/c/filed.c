/*
 * The filed call and the trailer call, compared with the model of model.h: answer, every byte of the output and of the
 * counts, and that the input stays. Worked cases, each refusal at its limit and one off, the order of every two faults,
 * every torn output, and random groups: a file filed_*.c for each. It prints the seed, a line for each check that fails,
 * and at the end how many passed and failed.
 *
 *   filed [SEED]
 */
#include "filed.h"

unsigned passed, failed;
uint64_t random_state;

int main(int argc, char **argv)
{
    random_state = argc > 1 ? strtoull(argv[1], NULL, 10) : 20261115;
    printf("seed %" PRIu64 "\n", random_state);
    worked_cases();
    limits();
    order_of_judgement();
    torn_outputs();
    random_groups(20000);
    trailer_calls(2000);
    return tell_checks();
}
