/* A shop: four threads sell fruit, and print what was sold. */
#include "githoppu.h"
#include <pthread.h>
#include <stdio.h>
#include <stdlib.h>

enum { SELLERS = 4, SALES = 1000 };

static void *sell(void *at) {
    githoppu_session **session = at;
    githoppu_words reply;
    int i;
    for (i = 0; i < SALES; i++)
        if (githoppu_add(session, "sold", 1, &reply) != GITHOPPU_DONE || reply.word[0] != GITHOPPU_SUM)
            abort();
    return NULL;
}

int main(void) {
    githoppu_session *sessions[SELLERS];
    pthread_t threads[SELLERS];
    githoppu_words reply;
    char text[1025];
    int i;
    if (githoppu_open(1024, sessions, SELLERS) != GITHOPPU_DONE)
        return 1;
    if (githoppu_put(&sessions[0], "fruit", "\"apple\"", 7, &reply) != GITHOPPU_DONE)
        return 1;
    for (i = 0; i < SELLERS; i++)
        if (pthread_create(&threads[i], NULL, sell, &sessions[i]) != 0)
            return 1;
    for (i = 0; i < SELLERS; i++)
        pthread_join(threads[i], NULL);
    if (githoppu_get(&sessions[1], "sold", &reply) != GITHOPPU_DONE || reply.word[0] != GITHOPPU_DOC)
        return 1;
    githoppu_document(&reply, text);
    printf("sold %s\n", text);
    if (githoppu_get(&sessions[2], "fruit", &reply) != GITHOPPU_DONE || reply.word[0] != GITHOPPU_DOC)
        return 1;
    githoppu_document(&reply, text);
    printf("of %s\n", text);
    githoppu_give_up(sessions, SELLERS);
    return 0;
}
