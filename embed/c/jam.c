/* Looks for an order in which the hasty clerk and the till jam, and says who waits for whom. */
#include "example.h"
#include <stdio.h>

enum { MOST = 8 };

int main(void) {
    static uint32_t work[TALKS_WORK_WORDS(MOST)];
    static uint32_t left[MOST * TALKS_LEFT_WORDS];
    uint32_t shown[4], circle;
    size_t count, rows;
    for (uint64_t seed = 1; seed <= 100; seed++) {
        uint32_t answer = talks_explore(HASTY, WORDS(HASTY), MOST, 100, seed, shown, WORDS(shown), work, WORDS(work), left,
                                        WORDS(left), &count, &rows, &circle);
        if (answer != TALKS_JAMMED) continue;
        printf("seed %u jams; left: %zu\n", (unsigned)seed, rows);
        for (size_t k = 0; k < rows && k < MOST; k++) {
            const uint32_t *row = left + k * TALKS_LEFT_WORDS;
            printf("process %u waits at word %u, at line %d, whose other end process %d holds\n", (unsigned)row[0],
                   (unsigned)row[1], (int)row[2], (int)row[4]);
        }
        if (circle != TALKS_NOTHING) printf("process %u waits for itself by way of others\n", (unsigned)circle);
        return 0;
    }
    printf("no order jams, of 100\n");
    return 1;
}
