/* A crash: a store and a queue are closed and saved to files, a byte of one is changed and refused, and both are opened again from their files. Then what became of
 * each session's last update is read from the image.
 *
 *   power_loss PATH       makes PATH.store and PATH.queue */
#include "githoppu_file.h"

static void must(int right, const char *what) {
    if (!right) {
        fprintf(stderr, "power_loss: %s\n", what);
        exit(1);
    }
}

static void saved(int status) {
    if (status != GITHOPPU_DONE) {
        fprintf(stderr, "power_loss: %s: %s\n", githoppu_status_text(status), strerror(errno));
        exit(1);
    }
}

/* Changes bits of one byte of a file. */
static void change(const char *path, long at, int bits) {
    FILE *file = fopen(path, "r+b");
    int byte;
    must(file != NULL && fseek(file, at, SEEK_SET) == 0 && (byte = fgetc(file)) != EOF, "the file is not read");
    must(fseek(file, at, SEEK_SET) == 0 && fputc(byte ^ bits, file) != EOF && fclose(file) == 0, "the file is not written");
}

static void sell(const char *path) {
    githoppu_session *sessions[3];
    githoppu_closed *closed = NULL;
    githoppu_words reply;
    must(githoppu_open(256, sessions, 3) == GITHOPPU_DONE, "no store");
    must(githoppu_put(&sessions[0], "fruit", "\"apple\"", 7, &reply) == GITHOPPU_DONE, "no put");
    must(githoppu_put(&sessions[1], "fruit", "\"pear\"", 6, &reply) == GITHOPPU_DONE, "no put");
    must(githoppu_add(&sessions[1], "sold", 41, &reply) == GITHOPPU_DONE, "no addition");
    /* in any order; the last one closes the store */
    must(githoppu_close_one(&sessions[1], &closed) == GITHOPPU_OTHERS, "no closing");
    must(githoppu_close_one(&sessions[2], &closed) == GITHOPPU_OTHERS, "no closing");
    must(githoppu_close_one(&sessions[0], &closed) == GITHOPPU_DONE, "no closing");
    saved(githoppu_save_closed(path, &closed));
    githoppu_give_up_closed(&closed);
}

static void go_on(const char *path) {
    githoppu_session *sessions[2];
    githoppu_words reply;
    char text[1025];
    must(githoppu_load(path, sessions, 2) == GITHOPPU_DONE, "no store");
    must(githoppu_get(&sessions[0], "fruit", &reply) == GITHOPPU_DONE && reply.word[0] == GITHOPPU_DOC, "no document");
    githoppu_document(&reply, text);
    must(githoppu_rev(&sessions[1], "fruit", &reply) == GITHOPPU_DONE && reply.word[0] == GITHOPPU_REVISION, "no revision");
    printf("fruit %s revision %d\n", text, (int)githoppu_number(&reply));
    must(githoppu_add(&sessions[1], "sold", 1, &reply) == GITHOPPU_DONE && reply.word[0] == GITHOPPU_SUM, "no addition");
    printf("sold %d\n", (int)githoppu_sum(&reply));
    githoppu_give_up(sessions, 2);
}

/* What became of the last update of each session. */
static void outcomes(const char *path) {
    githoppu_words reply;
    uint64_t *words, number, session;
    size_t count;
    saved(githoppu_load_words(path, &words, &count));
    for (session = 0; session < 3; session++) {
        must(githoppu_outcome(words, count, session, &number, reply.word) == GITHOPPU_DONE, "no outcome");
        if (number == 0)
            printf("session %d made no update\n", (int)session);
        else
            printf("session %d: update %d: %s\n", (int)session, (int)number, githoppu_reply_text(reply.word[0]));
    }
    free(words);
}

static void queue_up(const char *path) {
    githoppu_session *sessions[2];
    githoppu_closed *closed = NULL;
    githoppu_words reply;
    char text[57];
    int i;
    must(githoppu_open_queue(64, sessions, 2) == GITHOPPU_DONE, "no queue");
    for (i = 1; i <= 4; i++) {
        snprintf(text, sizeof text, "order-%d", i);
        must(githoppu_push(&sessions[i % 2], text, &reply) == GITHOPPU_DONE, "no push");
    }
    must(githoppu_pop(&sessions[0], &reply) == GITHOPPU_DONE, "no pop");
    must(githoppu_close_all(sessions, 2, &closed) == GITHOPPU_DONE, "no closing");
    saved(githoppu_save_closed(path, &closed));
    githoppu_give_up_closed(&closed);
    must(githoppu_load_queue(path, sessions, 1) == GITHOPPU_DONE, "no queue");
    for (;;) {
        must(githoppu_pop(sessions, &reply) == GITHOPPU_DONE, "no pop");
        if (reply.word[0] != GITHOPPU_TEXT)
            break;
        githoppu_text(&reply, text);
        printf("%s\n", text);
    }
    githoppu_give_up(sessions, 1);
}

int main(int count, char **words) {
    char store[4096], queue[4096];
    githoppu_session *sessions[1];
    must(count == 2 && strlen(words[1]) < 4000, "power_loss PATH");
    sprintf(store, "%s.store", words[1]);
    sprintf(queue, "%s.queue", words[1]);
    sell(store);
    change(store, 20000, 1);
    printf("a byte changed: %s\n", githoppu_status_text(githoppu_load(store, sessions, 1)));
    change(store, 20000, 1);
    outcomes(store);
    go_on(store);
    queue_up(queue);
    return 0;
}
