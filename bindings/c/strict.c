/* githoppu.h in C99 without a feature macro, and without -pthread, which is one too: <time.h> declares no clock that is never set, so a function that tries
 * again ends by the time of day, in whole seconds, and not before GITHOPPU_PATIENCE_MS. */
#define GITHOPPU_PATIENCE_MS 1000
#define GITHOPPU_ROUNDS 2000000000
#include "githoppu.h"
#include <stdio.h>

int main(void) {
    githoppu_session *session[1];
    githoppu_words reply;
    githoppu_patience patience = {0, 0};
    time_t began = time(NULL);
    if (githoppu_open(64, session, 1) != GITHOPPU_DONE || githoppu_add(session, "sold", 1, &reply) != GITHOPPU_DONE)
        return 1;
    githoppu_give_up(session, 1);
    while (githoppu_goes_on(&patience))
        continue;
    if (GITHOPPU_CLOCK_STEP != 1000 || patience.rounds < 2 || time(NULL) - began < 1 || time(NULL) - began > 60) {
        fprintf(stderr, "strict: %ld rounds, %ld s\n", patience.rounds, (long)(time(NULL) - began));
        return 1;
    }
    puts("in strict C99 the time of day ends it");
    return 0;
}
