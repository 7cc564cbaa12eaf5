/* How many numbers were added, and their sum. */
#include "githoppu_program.h"
enum { ADD = GITHOPPU_UPDATE(1), SUM = GITHOPPU_READ(2) };
struct numbers { uint64_t count, sum; };
GITHOPPU_RUN {
    struct numbers *n = state;
    if (request[0] == ADD) {
        n->count++;
        n->sum += request[1];
    }
    reply[0] = n->sum;
    reply[1] = n->count;
    return request[0] == ADD || request[0] == SUM;
}
