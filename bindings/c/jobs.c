/* Four threads share a data structure of one's own, the priority queue of examples/programs. It is saved, and taken up again from the file. README.md shows
 * these lines. `make -C bindings/c jobs` makes priority_queue.h by tools/program, and runs this. */
#include "priority_queue.h" /* tools/program examples/programs/priority_queue.c -o priority_queue.h */
#include <githoppu_file.h>
#include <pthread.h>

static void *push(void *session) {
    githoppu_words reply;
    for (uint64_t job = 0; job < 200; job++) /* its priority, and the job */
        if (githoppu_ask(session, PRIORITY_QUEUE_PUSH, job % 10, job, 0, &reply) != GITHOPPU_DONE)
            break;
    return NULL;
}

int main(void) {
    githoppu_session *sessions[4];
    pthread_t threads[4];
    githoppu_words reply;
    if (githoppu_open_object(&priority_queue, 1024, sessions, 4) != GITHOPPU_DONE) /* 1,024 lines of 64 bytes */
        return 1;
    for (int i = 0; i < 4; i++)
        if (pthread_create(&threads[i], NULL, push, &sessions[i]) != 0)
            return 1;
    for (int i = 0; i < 4; i++)
        pthread_join(threads[i], NULL);
    int saved = githoppu_save("jobs.githoppu", &sessions[0]) == GITHOPPU_DONE;
    githoppu_give_up(sessions, 4); /* all that was in memory is gone */
    if (!saved || githoppu_load_object("jobs.githoppu", &priority_queue, NULL, sessions, 1) != GITHOPPU_DONE ||
        githoppu_ask(sessions, PRIORITY_QUEUE_LENGTH, 0, 0, 0, &reply) != GITHOPPU_DONE)
        return 1;
    printf("%d jobs\n", (int)githoppu_replied(&reply)[0]); /* 800 */
    githoppu_give_up(sessions, 1);
    return 0;
}
