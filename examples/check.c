/* Checks a plan file and says what is wrong with it: examples/check PLAN */
#include <stdio.h>

#include "pool.h"

int main(int argc, char **argv)
{
    static uint8_t plan[65536];
    FILE *file = argc == 2 ? fopen(argv[1], "rb") : NULL;
    if (!file) {
        fprintf(stderr, "which plan?\n");
        return 2;
    }
    size_t len = fread(plan, 1, sizeof plan, file);
    fclose(file);

    uint64_t answer = pool_plan_check(plan, len);
    if (answer == 0) {
        printf("The plan passes; each seat makes %u calls.\n", (unsigned)POOL_VALUE(pool_calls(plan, len)));
        return 0;
    }
    unsigned number = POOL_REFUSAL(answer);
    printf("refused %u %u: %s\n", number, (unsigned)POOL_PLACE(answer), pool_refusal_sentence(number));
    return 1;
}
