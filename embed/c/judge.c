/* Judges three programs. */
#include "example.h"
#include <stdio.h>

int main(void) {
    static const char *const said[] = {"keeps", "careless", "no program"};
    printf("the clerk and the till: %s\n", said[talks_judge(SHOP, WORDS(SHOP))]);
    printf("the hasty clerk: %s\n", said[talks_judge(HASTY, WORDS(HASTY))]);
    printf("half of a program: %s\n", said[talks_judge(SHOP, WORDS(SHOP) / 2)]);
    return 0;
}
