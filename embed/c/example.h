/* Programs for the examples: a clerk and a till, and a clerk who is hasty. docs/CALCULUS.md reads them word by word. */
#include "../yefimora.h"

static const uint32_t SHOP[] = {8, 2, 1, 2, 2, 1, 3, 0, 1, 5, 1, 6, 2, 7, 0, 4, 5, 6, 7, 0, 1, 2, 3, 0, 0, 1, 8, 1, 0, 0, 1, 0,
                                0, 40, 1, 0, 0, 2, 2, 0, 0, 7, 1, 0, 0, 1, 0, 0, 2, 2, 0, 0, 2, 0, 1, 1, 0, 2, 1, 0, 1, 1, 0};
static const uint32_t HASTY[] = {8, 2, 1, 2, 2, 1, 3, 0, 1, 5, 1, 6, 2, 7, 0, 4, 5, 6, 7, 0, 1, 2, 3, 0, 0, 1, 8, 1, 0, 0,
                                 1, 0, 0, 40, 2, 0, 0, 7, 1, 0, 0, 1, 0, 0, 2, 2, 0, 0, 2, 0, 1, 1, 0, 2, 1, 0, 1, 1, 0};

#define WORDS(a) (sizeof(a) / sizeof((a)[0]))
