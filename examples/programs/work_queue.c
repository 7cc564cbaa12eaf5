/* A bounded work queue with leases: whoever takes a task has it until a time that is said, and then another worker may take it. The time is the caller's,
 * since a program has no clock. Tasks are taken in the order in which they were added; one operation takes up to 8 of them, all or none. The list's links
 * are pointers into the state, which stands at one address in each run. */
#include "githoppu_program.h"
#define ROOM 256
#define MOST 8
enum {
    ADD = GITHOPPU_UPDATE(1),    /* task, payload */
    TAKE = GITHOPPU_UPDATE(2),   /* worker, now, until | how many << 56 */
    FINISH = GITHOPPU_UPDATE(3), /* worker, task */
    LOOK = GITHOPPU_READ(4),     /* task */
    COUNT = GITHOPPU_READ(5)
};
enum { ADDED = 1, KNOWN, FULL, TAKEN, TOO_FEW, FINISHED, NOT_YOURS, TASK, NONE, NUMBERS, BAD };
struct task {
    uint64_t number, payload, worker, until; /* worker is 0 where nobody has taken it */
    struct task *next;
};
struct queue {
    uint64_t length, finished, used;
    struct task *first, *last, *unused;
    struct task task[ROOM];
};

static struct task *find(const struct queue *q, uint64_t number, struct task **before) {
    struct task *t = q->first;
    *before = 0;
    while (t && t->number != number) {
        *before = t;
        t = t->next;
    }
    return t;
}
static void add(struct queue *q, uint64_t number, uint64_t payload) {
    struct task *t = q->unused;
    if (t)
        q->unused = t->next;
    else
        t = &q->task[q->used++];
    *t = (struct task){number, payload, 0, 0, 0};
    if (q->last)
        q->last->next = t;
    else
        q->first = t;
    q->last = t;
    q->length++;
}
static void drop(struct queue *q, struct task *t, struct task *before) {
    if (before)
        before->next = t->next;
    else
        q->first = t->next;
    if (q->last == t)
        q->last = before;
    t->next = q->unused;
    q->unused = t;
    q->length--;
    q->finished++;
}
static inline int is_free(const struct task *t, uint64_t now) { return t->worker == 0 || t->until <= now; }

static uint64_t take(struct queue *q, uint64_t *reply, const uint64_t *request, uint64_t wanted) {
    uint64_t found = 0, now = request[2];
    struct task *t;
    for (t = q->first; t && found < wanted; t = t->next)
        found += is_free(t, now);
    if (found < wanted)
        return TOO_FEW;
    for (t = q->first, found = 0; found < wanted; t = t->next) {
        if (!is_free(t, now))
            continue;
        t->worker = request[1];
        t->until = request[3] << 8 >> 8;
        reply[2 * found] = t->number;
        reply[2 * found + 1] = t->payload;
        found++;
    }
    return TAKEN;
}
GITHOPPU_RUN {
    struct queue *q = state;
    struct task *t, *before;
    uint64_t wanted = request[3] >> 56;
    switch (request[0]) {
    case ADD:
        if (find(q, request[1], &before))
            return KNOWN;
        if (q->length == ROOM)
            return FULL;
        add(q, request[1], request[2]);
        return ADDED;
    case TAKE:
        if (request[1] == 0 || wanted == 0 || wanted > MOST)
            return BAD;
        return take(q, reply, request, wanted);
    case FINISH:
        t = find(q, request[2], &before);
        if (!t || request[1] == 0 || t->worker != request[1])
            return NOT_YOURS;
        drop(q, t, before);
        return FINISHED;
    case LOOK:
        t = find(q, request[1], &before);
        if (!t)
            return NONE;
        reply[0] = t->payload;
        reply[1] = t->worker;
        reply[2] = t->until;
        return TASK;
    case COUNT:
        reply[0] = q->length;
        reply[1] = q->finished;
        return NUMBERS;
    }
    return BAD;
}
