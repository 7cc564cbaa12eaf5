/* What first_form.c became: the fields stand in another order, with the form before them, and there is the greatest number from now on. */
#include "githoppu_program.h"
enum { ADD = GITHOPPU_UPDATE(1), SUM = GITHOPPU_READ(2), GREATEST = GITHOPPU_READ(3) };
enum { FORM = 1ull << 63 };
struct numbers { uint64_t form, sum, count, greatest; };
static void upgrade(struct numbers *n) {
    uint64_t count = n->form, sum = n->sum;
    if (n->form == FORM) /* anybody may ask for an upgrade: it is done once */
        return;
    n->form = FORM;
    n->sum = sum;
    n->count = count;
    n->greatest = 0;
}
GITHOPPU_RUN {
    struct numbers *n = state;
    if (request[0] == GITHOPPU_UPGRADE) {
        upgrade(n);
        return 1;
    }
    if (n->form != FORM && n->form != 0) /* the upgrade ended by a fault: words of the first form are not taken for others */
        return 0;
    switch (request[0]) {
    case ADD:
        n->form = FORM;
        n->count++;
        n->sum += request[1];
        if (request[1] > n->greatest)
            n->greatest = request[1];
        return 1;
    case SUM:
        reply[0] = n->sum;
        reply[1] = n->count;
        return 1;
    case GREATEST:
        reply[0] = n->greatest;
        return 1;
    }
    return 0;
}
