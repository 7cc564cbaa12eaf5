/* A walk over all keys, in their order: each key with its document. Each step is a read of its own, so a key that others put or delete during the walk may
 * be there or not, and every other key is there once. */
#include "githoppu.h"
#include <stdio.h>

static int fail(const char *what, int status) {
    fprintf(stderr, "walk: %s: %s\n", what, githoppu_status_text(status));
    return 1;
}

int main(void) {
    static const char *const fruit[] = {"quince", "apple", "pear", "fig", "plum"};
    githoppu_session *session[1];
    githoppu_words reply;
    char key[65] = "", document[1025];
    size_t i;
    int status = githoppu_check_version();
    if (status != GITHOPPU_DONE)
        return fail("version", status);
    status = githoppu_open(64, session, 1);
    if (status != GITHOPPU_DONE)
        return fail("open", status);
    for (i = 0; i < sizeof fruit / sizeof *fruit; i++) {
        char text[3];
        sprintf(text, "%d", 10 * (int)(i + 1));
        status = githoppu_put(session, fruit[i], text, 2, &reply);
        if (status != GITHOPPU_DONE || reply.word[0] != GITHOPPU_NEW)
            return fail(githoppu_reply_text(reply.word[0]), status);
    }
    /* from "" on, which is below every key, to the next one until there is none */
    while ((status = githoppu_next(session, key, &reply)) == GITHOPPU_DONE && reply.word[0] == GITHOPPU_KEY) {
        githoppu_key(&reply, key);
        status = githoppu_get(session, key, &reply);
        if (status != GITHOPPU_DONE)
            return fail("get", status);
        if (reply.word[0] == GITHOPPU_ABSENT) /* deleted since */
            continue;
        githoppu_document(&reply, document);
        printf("%s %s\n", key, document);
    }
    if (status != GITHOPPU_DONE)
        return fail("next", status);
    githoppu_give_up(session, 1);
    return 0;
}
