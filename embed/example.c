/* A job on standard input, its listing on standard output. */
#include <inttypes.h>
#include <stdio.h>

#include "ondajusta.h"

enum { JOB_MOST = 65535, JOB_ARITIES = 8 };

static uint8_t job[JOB_MOST + 1];
static uint32_t words[ONDAJUSTA_WORDS];
static uint16_t ranks[ONDAJUSTA_RANKS];

/* The line of the fact at a place, with the arity that the job gives its relation. */
static void print_fact(size_t place) {
  const uint32_t *fact = words + place * ONDAJUSTA_FACT;
  uint8_t line[ONDAJUSTA_LINE];
  uint64_t answer[ONDAJUSTA_LINE_NUMBERS];
  ondajusta_line(fact, ONDAJUSTA_FACT, job[JOB_ARITIES + fact[0]], line, sizeof line, answer);
  fwrite(line, 1, answer[ONDAJUSTA_LINE_COUNT], stdout);
}

int main(void) {
  static const char *const outcomes[] = {"done", "failed", "steps", "room"};
  uint64_t answer[ONDAJUSTA_RUN_NUMBERS];
  size_t length = fread(job, 1, sizeof job, stdin);

  ondajusta_run(job, length, words, ONDAJUSTA_WORDS, ranks, ONDAJUSTA_RANKS, answer);
  if (answer[ONDAJUSTA_RUN_REFUSAL] != 0) {
    printf("refused %" PRIu64 " at %" PRIu64 "\n", answer[0], answer[1]);
    return 0;
  }
  printf("%s %" PRIu64 " %" PRIu64 " %" PRIu64 "\n", outcomes[answer[ONDAJUSTA_RUN_OUTCOME]], answer[ONDAJUSTA_RUN_STEPS],
         answer[ONDAJUSTA_RUN_FACTS], answer[ONDAJUSTA_RUN_NEXT_BLANK]);
  printf("%s %" PRIu64 "\n", answer[ONDAJUSTA_RUN_ACYCLIC] ? "acyclic" : "cyclic", answer[ONDAJUSTA_RUN_GENERATIONS]);
  for (size_t place = 0; place < answer[ONDAJUSTA_RUN_FACTS]; place++) {
    print_fact(place);
  }
  return 0;
}
