/* The proved engine, called from C. Link with target/staticlib/libembed.a, which embed/archive makes.
 *
 * A caller lends all storage. No pointer is null, each holds as many elements as the length behind it says, and what a call writes
 * overlaps nothing else that is lent to it. Every byte string gets an answer; nothing is kept between calls, so calls may run side by
 * side. A call needs a stack of 1 MiB. */
#ifndef ONDAJUSTA_H
#define ONDAJUSTA_H

#include <stddef.h>
#include <stdint.h>

#ifdef __cplusplus
extern "C" {
#endif

/* The least lengths of what is lent: words and ranks of a run, a fact's words, a line. */
enum { ONDAJUSTA_WORDS = 9216, ONDAJUSTA_RANKS = 512, ONDAJUSTA_FACT = 9, ONDAJUSTA_LINE = 128 };

/* How a run ends: nothing is missing; two constants would have to be equal; the budget is spent; no room for the next step. */
enum { ONDAJUSTA_DONE, ONDAJUSTA_FAILED, ONDAJUSTA_STEPS, ONDAJUSTA_ROOM };

/* The rank of a position that has no largest number, and the number from which on a value is a blank. */
#define ONDAJUSTA_ENDLESS 65535u
#define ONDAJUSTA_BLANK 2147483648u

/* Each answer starts with the number of a refusal, 1 to 10, and its place, the other numbers then being 0 and all that is lent being as
 * it was; or with 0, which says that the call did its work. */

/* The numbers of a run's answer. */
enum {
  ONDAJUSTA_RUN_REFUSAL,
  ONDAJUSTA_RUN_OUTCOME, /* or the place of the refusal */
  ONDAJUSTA_RUN_STEPS,
  ONDAJUSTA_RUN_FACTS,
  ONDAJUSTA_RUN_NEXT_BLANK,
  ONDAJUSTA_RUN_ACYCLIC, /* 1 or 0 */
  ONDAJUSTA_RUN_GENERATIONS,
  ONDAJUSTA_RUN_NUMBERS
};

/* Runs a job. Sets the first ONDAJUSTA_WORDS words, nine for each fact (the relation, then its values, a blank as its number plus
 * ONDAJUSTA_BLANK) and 0 past them, and the first ONDAJUSTA_RANKS ranks, that of place p of relation r at 8r + p. None beyond is touched. */
void ondajusta_run(const uint8_t *job, size_t job_length, uint32_t *words, size_t words_length, uint16_t *ranks, size_t ranks_length,
                   uint64_t answer[ONDAJUSTA_RUN_NUMBERS]);

/* The numbers of a verdict's answer. */
enum {
  ONDAJUSTA_VERDICT_REFUSAL,
  ONDAJUSTA_VERDICT_ACYCLIC, /* or the place of the refusal */
  ONDAJUSTA_VERDICT_GENERATIONS,
  ONDAJUSTA_VERDICT_NUMBERS
};

/* Judges the rules of a job without running it. Sets the ranks as a run does. */
void ondajusta_verdict(const uint8_t *job, size_t job_length, uint16_t *ranks, size_t ranks_length,
                       uint64_t answer[ONDAJUSTA_VERDICT_NUMBERS]);

/* The numbers of the line writer's answer. */
enum {
  ONDAJUSTA_LINE_REFUSAL,
  ONDAJUSTA_LINE_COUNT, /* of the bytes set, or the place of the refusal */
  ONDAJUSTA_LINE_NUMBERS
};

/* Writes the line of the fact in the first nine words, whose relation has the arity. Sets the line's bytes, line feed included. */
void ondajusta_line(const uint32_t *words, size_t words_length, size_t arity, uint8_t *line, size_t line_length,
                    uint64_t answer[ONDAJUSTA_LINE_NUMBERS]);

#ifdef __cplusplus
}
#endif

#endif
