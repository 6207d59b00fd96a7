/* Runs the clerk and the till in the fixed order and in ten drawn ones. */
#include "example.h"
#include <stdio.h>

enum { MOST = 8 };

int main(void) {
    static uint32_t work[TALKS_WORK_WORDS(MOST)];
    uint32_t shown[4];
    size_t count;
    uint32_t ran = talks_go(SHOP, WORDS(SHOP), MOST, 100, shown, WORDS(shown), work, WORDS(work), &count);
    printf("fixed order: answer %u, %zu shown, the first is %u\n", (unsigned)ran, count, (unsigned)shown[0]);
    for (uint64_t seed = 1; seed <= 10; seed++) {
        ran = talks_go_seeded(SHOP, WORDS(SHOP), MOST, 100, seed, shown, WORDS(shown), work, WORDS(work), &count);
        printf("seed %2u: answer %u, %zu shown, the first is %u\n", (unsigned)seed, (unsigned)ran, count, (unsigned)shown[0]);
    }
    return ran == TALKS_DONE ? 0 : 1;
}
