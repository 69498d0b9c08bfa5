/* The functions of libexports.a for C. Words are passed as a pointer and how many there are; no pointer is null, even where there are
   none. Nothing is kept after a call. What a call writes must not overlap anything else that it is given. */
#ifndef KINDCANVAS_H
#define KINDCANVAS_H

#include <stddef.h>
#include <stdint.h>

/* 0 if the program is accepted, else the refusal's number times 2^32 plus its place. A long program may need 4 MiB of stack, in
   kindcanvas_run too. */
uint64_t kindcanvas_check(const uint32_t *program, size_t program_words);

/* Runs the program. Answers go to output, each once, with zeros behind them, and of scratch the first 12,288 words end as 0; a refusal
   leaves both as lent. Repeats are found fast while output has words to spare, four an answer. Returns 8, with the report in the first eight numbers: how the run ended (0 finished, 1 rounds used up, 2 steps used
   up, 3 output full, 4 a bound of a path, 5 refused); which bound (1 variables, 2 goals, 3 disjunctions, 4 constraints, 5 waiting) or
   which refusal (1 to 9); the refusal's place; round, steps, answers, words, branches cut. What does not apply is 0. Returns 0 if fewer
   than eight numbers are lent; then nothing is run. */
uint32_t kindcanvas_run(const uint32_t *program, size_t program_words, uint32_t rounds, uint32_t steps,
                        uint32_t *output, size_t output_words, uint32_t *scratch, size_t scratch_words,
                        uint32_t *numbers, size_t numbers_words);

/* The answer of this number, from 0, is page[*start] up to but without page[*end], its header too. Returns 0, or the refusal's
   number, 10; then *start and *end are both its place. */
uint32_t kindcanvas_view(const uint32_t *page, size_t page_words, uint32_t answer, size_t *start, size_t *end);

#endif
