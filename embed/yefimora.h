/* Judge and run programs of processes that talk along lines.
 *
 * Link with libembedding.a, which `rt lib` in crates/embedding writes to its out/; of the C library it needs memcpy,
 * memmove and memset. All memory is the caller's, and nothing is allocated. Slices are a pointer and a length in elements, and do
 * not overlap; a slice of length 0 wants a pointer that is not null. Every input has an answer: words that are no program,
 * numbers of any size, slices of any length. */
#ifndef YEFIMORA_H
#define YEFIMORA_H

#include <stddef.h>
#include <stdint.h>

#ifdef __cplusplus
extern "C" {
#endif

/* What is said of words. */
enum talks_judged {
    TALKS_KEEPS = 0,      /* a program that keeps to its conversations */
    TALKS_CARELESS = 1,   /* a program that does not */
    TALKS_NO_PROGRAM = 2, /* no program */
};

uint32_t talks_judge(const uint32_t *program, size_t words);

/* How many work words a run wants for so many processes. */
#define TALKS_WORK_WORDS(most) ((size_t)4096 + (size_t)128 * (size_t)(most))

/* How a run came out. The answers are looked for in this order: few, unread, unkept, crowded, out full, done or spent. */
enum talks_ran {
    TALKS_DONE = 0,     /* all processes have stopped */
    TALKS_SPENT = 1,    /* nothing can be done any more, and some process is out of turns */
    TALKS_CROWDED = 2,  /* there would be more than `most` processes */
    TALKS_UNKEPT = 3,   /* the program does not keep to its conversations */
    TALKS_UNREAD = 4,   /* the words are no program */
    TALKS_OUT_FULL = 5, /* more numbers would be shown than there is room for */
    TALKS_FEW = 6,      /* fewer than TALKS_WORK_WORDS(most) work words */
};

/* Runs a program that keeps, in the fixed order. With done and spent, *count numbers were shown: they stand first in
 * `shown`, and the rest of it is as it was. Other answers leave all of `shown` as it was, and *count is 0. */
uint32_t talks_go(const uint32_t *program, size_t words, uint32_t most, uint32_t turns, uint32_t *shown, size_t room,
                  uint32_t *work, size_t work_words, size_t *count);

/* The same, in an order that is drawn from a seed, one step at a time. */
uint32_t talks_go_seeded(const uint32_t *program, size_t words, uint32_t most, uint32_t turns, uint64_t seed,
                         uint32_t *shown, size_t room, uint32_t *work, size_t work_words, size_t *count);

/* How a run of any program came out. */
enum talks_explored {
    TALKS_ALL_STOPPED = 0,
    TALKS_OUT_OF_TURNS = 1, /* nothing can be done any more, and some process is out of turns */
    TALKS_JAMMED = 2,       /* nothing can be done any more, though not all have stopped and nobody is out of turns */
    TALKS_TOO_MANY = 3,     /* there would be more than `most` processes */
    TALKS_WIDE = 4,         /* somebody would have more than sixteen conversations, or be handed more than sixteen numbers */
    TALKS_NOT_READ = 5,     /* the words are no program */
    TALKS_TOO_FEW = 6,      /* fewer than TALKS_WORK_WORDS(most) work words */
};

/* A process that is left in a jam. */
struct talks_left {
    uint32_t process; /* its number; the first process has 0 */
    uint32_t place;   /* the word of the program at which the action stands that it waits to do */
    uint32_t line;    /* the line at which it waits; TALKS_NOTHING if there is no such conversation or process */
    uint32_t side;    /* at which side of it: 0 the starter's, 1 the started one's; or TALKS_NOTHING */
    uint32_t holder;  /* the first process that holds the other end, or TALKS_NOTHING */
};

#define TALKS_NOTHING UINT32_MAX
#define TALKS_LEFT_WORDS 5

/* Runs a program, whether or not it keeps, in an order drawn from a seed. *count numbers were shown; as many of them as there
 * is room for stand first in `shown`, also where the run was refused. Of a jam, *rows processes are left; the rows of the first
 * 200 of them stand first in `left`, five words each in the order of struct talks_left, as far as there is room, and
 * *circle is a process that comes back to itself by going from row to row to the holder, or TALKS_NOTHING. */
uint32_t talks_explore(const uint32_t *program, size_t words, uint32_t most, uint32_t turns, uint64_t seed,
                       uint32_t *shown, size_t room, uint32_t *work, size_t work_words, uint32_t *left,
                       size_t left_words, size_t *count, size_t *rows, uint32_t *circle);

#ifdef __cplusplus
}
#endif

#endif
