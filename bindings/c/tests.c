/* Tests of the library, in C11 and in C++: what each operation answers, wrong use, threads, closing, images and recovery, and memory that is
 * refused. The program is linked with malloc, realloc and free wrapped, so that the library's blocks are counted and one of them can be refused. */
#include "githoppu.h"
#include <pthread.h>
#include <stdio.h>
#include <stdlib.h>

enum { THREADS = 4, ADDS = 20000, TEXTS = 5000 };

/* Under a tool that slows all down, `tests short` makes fewer rounds. */
static int adds = ADDS, texts = TEXTS;

#define CHECK(test)                                                       \
    do {                                                                  \
        if (!(test)) {                                                    \
            fprintf(stderr, "%s:%d: %s\n", __FILE__, __LINE__, #test);    \
            exit(1);                                                      \
        }                                                                 \
    } while (0)

#define MALFORMED(call)                                   \
    do {                                                  \
        CHECK((call) == GITHOPPU_MALFORMED);              \
        CHECK(reply.word[0] == GITHOPPU_NO_OPERATION);    \
    } while (0)

#define DO(call, kind)                                    \
    do {                                                  \
        CHECK((call) == GITHOPPU_DONE);                   \
        CHECK(reply.word[0] == (uint64_t)(kind));         \
    } while (0)

/* ---- the blocks of memory; only the main thread opens and closes ---- */

static long taken, given, refused_at;

/* What the library tells as its version, where that is not 0. */
static uint64_t told_version;

#ifdef __cplusplus
extern "C" {
#endif
uint64_t __real_githoppu_version(void);
uint64_t __wrap_githoppu_version(void);
void *__real_malloc(size_t size);
void *__real_realloc(void *block, size_t size);
void __real_free(void *block);
void *__wrap_malloc(size_t size);
void *__wrap_realloc(void *block, size_t size);
void __wrap_free(void *block);

uint64_t __wrap_githoppu_version(void) { return told_version != 0 ? told_version : __real_githoppu_version(); }

void *__wrap_malloc(size_t size) {
    if (++taken == refused_at)
        return NULL;
    return __real_malloc(size);
}

void *__wrap_realloc(void *block, size_t size) {
    if (block == NULL)
        return __wrap_malloc(size);
    if (++taken == refused_at)
        return NULL;
    given++;
    return __real_realloc(block, size);
}

void __wrap_free(void *block) {
    if (block != NULL)
        given++;
    __real_free(block);
}
#ifdef __cplusplus
}
#endif

/* ---- one session ---- */

/* A value of a slot that no call put out. */
static githoppu_session *not_a_session(githoppu_session **slots) { return (githoppu_session *)(void *)slots; }

/* A closed store where a session is asked for, as a cast of the caller's can pass it: the library refuses it. */
static githoppu_session *as_session(githoppu_closed *closed) { return (githoppu_session *)(void *)closed; }

static void test_sizes(void) {
    githoppu_session *slots[9];
    int i;
    for (i = 0; i < 9; i++)
        slots[i] = not_a_session(slots);
    CHECK(githoppu_open(63, slots, 1) == GITHOPPU_BAD_SIZE);
    CHECK(githoppu_open(16385, slots, 1) == GITHOPPU_BAD_SIZE);
    CHECK(githoppu_open(64, slots, 0) == GITHOPPU_BAD_SIZE);
    CHECK(githoppu_open(64, slots, 9) == GITHOPPU_BAD_SIZE);
    CHECK(githoppu_open(UINT64_MAX, slots, 1) == GITHOPPU_BAD_SIZE);
    CHECK(githoppu_open_queue(63, slots, 1) == GITHOPPU_BAD_SIZE);
    CHECK(githoppu_open_queue(64, slots, 9) == GITHOPPU_BAD_SIZE);
    for (i = 0; i < 9; i++)
        CHECK(slots[i] == not_a_session(slots));
}

static void test_documents(void) {
    githoppu_session *s[1];
    githoppu_words op, reply;
    githoppu_session_handle handle;
    char text[1025], long_key[66];
    int i;
    CHECK(githoppu_open(64, s, 1) == GITHOPPU_DONE);
    DO(githoppu_get(s, "fruit", &reply), GITHOPPU_ABSENT);
    DO(githoppu_put(s, "fruit", "\"apple\"", 7, &reply), GITHOPPU_NEW);
    DO(githoppu_put(s, "fruit", "\"pear\"", 6, &reply), GITHOPPU_REPLACED);
    DO(githoppu_get(s, "fruit", &reply), GITHOPPU_DOC);
    CHECK(githoppu_document(&reply, text) == 6 && strcmp(text, "\"pear\"") == 0);
    DO(githoppu_add(s, "fruit", 1, &reply), GITHOPPU_NOT_NUMBER);
    DO(githoppu_add(s, "sold", INT64_MAX, &reply), GITHOPPU_SUM);
    CHECK(githoppu_sum(&reply) == INT64_MAX);
    DO(githoppu_add(s, "sold", 1, &reply), GITHOPPU_OVERFLOW);
    DO(githoppu_add(s, "sold", -5, &reply), GITHOPPU_SUM);
    CHECK(githoppu_sum(&reply) == INT64_MAX - 5);
    DO(githoppu_next(s, "", &reply), GITHOPPU_KEY);
    CHECK(githoppu_key(&reply, text) == 5 && strcmp(text, "fruit") == 0);
    DO(githoppu_next(s, "fruit", &reply), GITHOPPU_KEY);
    CHECK(githoppu_key(&reply, text) == 4 && strcmp(text, "sold") == 0);
    DO(githoppu_next(s, "sold", &reply), GITHOPPU_ABSENT);
    DO(githoppu_count(s, &reply), GITHOPPU_COUNT);
    CHECK(githoppu_number(&reply) == 2);
    DO(githoppu_del(s, "fruit", &reply), GITHOPPU_DELETED);
    DO(githoppu_del(s, "fruit", &reply), GITHOPPU_ABSENT);
    memset(text, 'x', 1024);
    for (i = 0; i < 3; i++) {
        long_key[0] = (char)('a' + i);
        long_key[1] = 0;
        DO(githoppu_put(s, long_key, text, 1024, &reply), i < 2 ? GITHOPPU_NEW : GITHOPPU_NO_ROOM);
    }
    /* what is no operation */
    MALFORMED(githoppu_put(s, "", "1", 1, &reply));
    MALFORMED(githoppu_put(s, "a key", "1", 1, &reply));
    MALFORMED(githoppu_put(s, "k\xC3\xA4se", "1", 1, &reply));
    MALFORMED(githoppu_put(s, "key", "", 0, &reply));
    MALFORMED(githoppu_put(s, "key", "\n", 1, &reply));
    MALFORMED(githoppu_putif(s, "key", "a\tb", 3, 0, &reply));
    MALFORMED(githoppu_get(s, "", &reply));
    MALFORMED(githoppu_del(s, "a key", &reply));
    MALFORMED(githoppu_add(s, "\x7F", 1, &reply));
    MALFORMED(githoppu_rev(s, "", &reply));
    MALFORMED(githoppu_next(s, "a key", &reply));
    DO(githoppu_get(s, "key", &reply), GITHOPPU_ABSENT);
    /* the library's own call answers DONE, and a finish likewise */
    CHECK(githoppu_document_op(&op, 1, "a key", "1", 1, 0) == GITHOPPU_DONE);
    handle.at = s[0];
    DO(githoppu_call(handle, op.word, reply.word, 16, s), GITHOPPU_NO_OPERATION);
    memset(long_key, 'k', 65);
    long_key[65] = 0;
    CHECK(githoppu_get(s, long_key, &reply) == GITHOPPU_TOO_LONG);
    CHECK(githoppu_put(s, "key", text, 1025, &reply) == GITHOPPU_TOO_LONG);
    githoppu_give_up(s, 1);
}

static void test_revisions(void) {
    githoppu_session *s[1];
    githoppu_words reply;
    CHECK(githoppu_open(64, s, 1) == GITHOPPU_DONE);
    DO(githoppu_rev(s, "fruit", &reply), GITHOPPU_ABSENT);
    DO(githoppu_putif(s, "fruit", "\"apple\"", 7, 7, &reply), GITHOPPU_STALE);
    CHECK(githoppu_number(&reply) == 0);
    DO(githoppu_putif(s, "fruit", "\"apple\"", 7, 0, &reply), GITHOPPU_SET);
    CHECK(githoppu_number(&reply) == 1);
    DO(githoppu_put(s, "fruit", "\"pear\"", 6, &reply), GITHOPPU_REPLACED);
    DO(githoppu_putif(s, "fruit", "\"plum\"", 6, 1, &reply), GITHOPPU_STALE);
    CHECK(githoppu_number(&reply) == 2);
    DO(githoppu_putif(s, "fruit", "\"plum\"", 6, 2, &reply), GITHOPPU_SET);
    DO(githoppu_rev(s, "fruit", &reply), GITHOPPU_REVISION);
    CHECK(githoppu_number(&reply) == 3);
    githoppu_give_up(s, 1);
}

static void test_queue(void) {
    githoppu_session *s[2];
    githoppu_words reply;
    char text[58];
    int i;
    CHECK(githoppu_open_queue(64, s, 2) == GITHOPPU_DONE);
    DO(githoppu_pop(&s[0], &reply), GITHOPPU_EMPTY);
    DO(githoppu_peek(&s[0], &reply), GITHOPPU_EMPTY);
    for (i = 0; i < 64; i++) {
        snprintf(text, sizeof text, "text-%d", i);
        DO(githoppu_push(&s[i % 2], text, &reply), i < 63 ? GITHOPPU_PUSHED : GITHOPPU_QUEUE_FULL);
    }
    DO(githoppu_len(&s[1], &reply), GITHOPPU_LENGTH);
    CHECK(githoppu_length(&reply) == 63);
    DO(githoppu_peek(&s[1], &reply), GITHOPPU_TEXT);
    CHECK(githoppu_text(&reply, text) == 6 && strcmp(text, "text-0") == 0);
    DO(githoppu_pop(&s[0], &reply), GITHOPPU_TEXT);
    DO(githoppu_pop(&s[1], &reply), GITHOPPU_TEXT);
    CHECK(githoppu_text(&reply, text) == 6 && strcmp(text, "text-1") == 0);
    MALFORMED(githoppu_push(&s[0], "", &reply));
    MALFORMED(githoppu_push(&s[0], "a text", &reply));
    memset(text, 't', 57);
    text[57] = 0;
    CHECK(githoppu_push(&s[0], text, &reply) == GITHOPPU_TOO_LONG);
    text[56] = 0;
    DO(githoppu_push(&s[0], text, &reply), GITHOPPU_PUSHED);
    githoppu_give_up(s, 2);
}

static void test_wrong_turns(void) {
    githoppu_session *s[1], *none = NULL;
    githoppu_session_handle handle;
    githoppu_words op, reply;
    size_t i;
    CHECK(githoppu_open(64, s, 1) == GITHOPPU_DONE);
    for (i = 0; i < 144; i++)
        reply.word[i] = 7;
    CHECK(githoppu_end(s, &reply) == GITHOPPU_OUT_OF_TURN);
    for (i = 0; i < 144; i++)
        CHECK(reply.word[i] == 7);
    DO(githoppu_count(s, &reply), GITHOPPU_COUNT);
    CHECK(githoppu_end(s, &reply) == GITHOPPU_OUT_OF_TURN);
    CHECK(githoppu_count(&none, &reply) == GITHOPPU_NO_SESSION);
    CHECK(githoppu_end(&none, &reply) == GITHOPPU_NO_SESSION);
    /* no tries are one */
    CHECK(githoppu_document_op(&op, 3, "sold", "", 0, 2) == GITHOPPU_DONE);
    handle.at = s[0];
    CHECK(githoppu_call(handle, op.word, reply.word, 0, s) == GITHOPPU_DONE);
    CHECK(githoppu_sum(&reply) == 2);
    githoppu_give_up(s, 1);
    CHECK(s[0] == NULL);
    githoppu_give_up(s, 1);
}

/* ---- threads ---- */

struct worker {
    githoppu_session *session;
    githoppu_closed *closed;
    int number, wrong;
    long pending;
    uint64_t answered;
};

/* Adds 1 in one try at a time, and is out of turn wherever an addition stands. */
static void add_once(struct worker *w) {
    githoppu_words op, reply;
    int status;
    githoppu_document_op(&op, 3, "sold", "", 0, 1);
    for (;;) {
        githoppu_session_handle handle;
        handle.at = w->session;
        status = githoppu_call(handle, op.word, reply.word, 1, &w->session);
        if (status != GITHOPPU_AGAIN && status != GITHOPPU_FULL)
            break;
        GITHOPPU_YIELD();
    }
    if (status == GITHOPPU_PENDING) {
        w->pending++;
        if (githoppu_do(&w->session, &op, &reply) != GITHOPPU_OUT_OF_TURN)
            w->wrong = 1;
        status = githoppu_end(&w->session, &reply);
    }
    if (status != GITHOPPU_DONE || reply.word[0] != GITHOPPU_SUM)
        w->wrong = 2;
}

static void *add_and_read(void *at) {
    struct worker *w = (struct worker *)at;
    githoppu_words reply;
    char text[1025];
    long last = 0, found;
    int i;
    for (i = 0; i < adds && !w->wrong; i++) {
        add_once(w);
        if (githoppu_get(&w->session, "sold", &reply) != GITHOPPU_DONE || reply.word[0] != GITHOPPU_DOC)
            w->wrong = 3;
        githoppu_document(&reply, text);
        found = strtol(text, NULL, 10);
        if (found <= last || found < i + 1 || found > THREADS * adds)
            w->wrong = 4;
        last = found;
    }
    return NULL;
}

static void on_threads(struct worker *workers, githoppu_session **sessions, void *(*work)(void *)) {
    pthread_t threads[THREADS];
    int i;
    for (i = 0; i < THREADS; i++) {
        workers[i].session = sessions[i];
        workers[i].closed = NULL;
        workers[i].number = i;
        workers[i].wrong = 0;
        workers[i].pending = 0;
        workers[i].answered = 0;
        CHECK(pthread_create(&threads[i], NULL, work, &workers[i]) == 0);
    }
    for (i = 0; i < THREADS; i++) {
        CHECK(pthread_join(threads[i], NULL) == 0);
        sessions[i] = workers[i].session;
        CHECK(workers[i].wrong == 0);
    }
}

static void test_adding_threads(void) {
    githoppu_session *sessions[THREADS];
    struct worker workers[THREADS];
    githoppu_words reply;
    char text[1025];
    CHECK(githoppu_open(64, sessions, THREADS) == GITHOPPU_DONE);
    on_threads(workers, sessions, add_and_read);
    DO(githoppu_get(&sessions[0], "sold", &reply), GITHOPPU_DOC);
    githoppu_document(&reply, text);
    CHECK(strtol(text, NULL, 10) == (long)THREADS * adds);
    githoppu_give_up(sessions, THREADS);
}

static unsigned char arrived[THREADS / 2][TEXTS];

/* Even threads push their texts, odd ones pop: each text comes once, and those of a thread in order. */
static void *push_or_pop(void *at) {
    struct worker *w = (struct worker *)at;
    githoppu_words reply;
    char text[57];
    int i, from, which, last[THREADS / 2];
    for (i = 0; i < THREADS / 2; i++)
        last[i] = -1;
    for (i = 0; i < texts && !w->wrong;) {
        if (w->number % 2 == 0) {
            snprintf(text, sizeof text, "%d:%d", w->number / 2, i);
            if (githoppu_push(&w->session, text, &reply) != GITHOPPU_DONE)
                w->wrong = 1;
            i += reply.word[0] == GITHOPPU_PUSHED;
        } else {
            if (githoppu_pop(&w->session, &reply) != GITHOPPU_DONE)
                w->wrong = 2;
            if (reply.word[0] != GITHOPPU_TEXT)
                continue;
            githoppu_text(&reply, text);
            if (sscanf(text, "%d:%d", &from, &which) != 2 || last[from] >= which)
                w->wrong = 3;
            else
                arrived[from][which]++, last[from] = which;
            i++;
        }
    }
    return NULL;
}

static void test_queue_threads(void) {
    githoppu_session *sessions[THREADS];
    struct worker workers[THREADS];
    githoppu_words reply;
    int i, k;
    CHECK(githoppu_open_queue(64, sessions, THREADS) == GITHOPPU_DONE);
    on_threads(workers, sessions, push_or_pop);
    for (i = 0; i < THREADS / 2; i++)
        for (k = 0; k < texts; k++)
            CHECK(arrived[i][k] == 1);
    DO(githoppu_len(&sessions[0], &reply), GITHOPPU_LENGTH);
    CHECK(githoppu_length(&reply) == 0);
    githoppu_give_up(sessions, THREADS);
}

/* ---- closing, images and recovery ---- */

enum { LINES = 64, REGION = 8 * (146 + LINES), HEAD = 8 };

/* The image of a closed store of so many sessions, in words that the caller frees. */
static uint64_t *image_of(githoppu_closed **closed, uint64_t choice, uint64_t *count) {
    uint64_t *words;
    CHECK(githoppu_image_size(closed, count) == GITHOPPU_DONE);
    words = (uint64_t *)__real_malloc(*count * sizeof *words);
    CHECK(words != NULL);
    CHECK(githoppu_image_into(closed, choice, words, *count) == GITHOPPU_DONE);
    return words;
}

static int recover_one(const uint64_t *words, uint64_t count, githoppu_session **session) { return githoppu_recover(words, count, session, 1); }

/* A store with some documents, closed; its sessions are closed in the order given. */
static githoppu_closed *closed_store(const int *order, int count) {
    githoppu_session *s[8];
    githoppu_closed *closed = NULL;
    githoppu_words reply;
    int i;
    CHECK(githoppu_open(LINES, s, (size_t)count) == GITHOPPU_DONE);
    DO(githoppu_put(&s[0], "fruit", "\"apple\"", 7, &reply), GITHOPPU_NEW);
    DO(githoppu_put(&s[count - 1], "fruit", "\"pear\"", 6, &reply), GITHOPPU_REPLACED);
    DO(githoppu_add(&s[0], "sold", 5, &reply), GITHOPPU_SUM);
    for (i = 0; i < count; i++) {
        CHECK(githoppu_close_one(&s[order[i]], &closed) == (i < count - 1 ? GITHOPPU_OTHERS : GITHOPPU_DONE));
        CHECK(s[order[i]] == NULL && (closed == NULL) == (i < count - 1));
    }
    return closed;
}

static void test_closing_orders(void) {
    static const int orders[][3] = {{0, 1, 2}, {2, 1, 0}, {1, 2, 0}, {1, 0, 2}, {2, 0, 1}, {0, 2, 1}};
    size_t i;
    for (i = 0; i < sizeof orders / sizeof *orders; i++) {
        githoppu_closed *closed = closed_store(orders[i], 3);
        githoppu_session *one[1];
        githoppu_words reply;
        uint64_t count, *words, choice;
        char text[1025];
        for (choice = 0; choice < 5; choice++) {
            words = image_of(&closed, choice, &count);
            CHECK(count == HEAD + 3 * 2 * REGION);
            CHECK(recover_one(words, count, one) == GITHOPPU_DONE);
            DO(githoppu_get(one, "fruit", &reply), GITHOPPU_DOC);
            CHECK(githoppu_document(&reply, text) == 6 && strcmp(text, "\"pear\"") == 0);
            DO(githoppu_rev(one, "fruit", &reply), GITHOPPU_REVISION);
            CHECK(githoppu_number(&reply) == 2);
            DO(githoppu_add(one, "sold", 1, &reply), GITHOPPU_SUM);
            CHECK(githoppu_sum(&reply) == 6);
            githoppu_give_up(one, 1);
            __real_free(words);
        }
        githoppu_give_up_closed(&closed);
        CHECK(closed == NULL);
    }
}

static void test_closing_turns(void) {
    static const int order[] = {0};
    githoppu_session *s[2], *t[1], *lie, *none = NULL;
    githoppu_closed *closed, *no_store = NULL;
    githoppu_session_handle handle;
    githoppu_closed_handle closed_handle;
    githoppu_either left;
    githoppu_words reply;
    uint64_t needed = 1, word = 7;
    closed = closed_store(order, 1);
    /* what is closed takes no call, and is closed once */
    lie = as_session(closed);
    CHECK(githoppu_get(&lie, "fruit", &reply) == GITHOPPU_OUT_OF_TURN);
    CHECK(githoppu_end(&lie, &reply) == GITHOPPU_OUT_OF_TURN);
    handle.at = lie;
    CHECK(githoppu_close(handle, &left) == GITHOPPU_OUT_OF_TURN && left.closed != NULL);
    /* an image has as many words as it has */
    closed_handle.at = left.closed;
    CHECK(githoppu_image(closed_handle, 0, &word, 1, &needed, &closed) == GITHOPPU_BAD_SIZE);
    CHECK(needed == HEAD + 2 * REGION && word == 7);
    githoppu_give_up_closed(&closed);
    githoppu_give_up_closed(&closed);
    /* a session has no image, and null is neither */
    CHECK(githoppu_open(LINES, s, 2) == GITHOPPU_DONE && githoppu_open(LINES, t, 1) == GITHOPPU_DONE);
    closed = (githoppu_closed *)(void *)s[0];
    CHECK(githoppu_image_size(&closed, &needed) == GITHOPPU_OUT_OF_TURN && needed == 0);
    s[0] = as_session(closed);
    CHECK(githoppu_close_one(&none, &closed) == GITHOPPU_NO_SESSION && githoppu_close_all(&none, 1, &closed) == GITHOPPU_NO_SESSION);
    CHECK(githoppu_image_size(&no_store, &needed) == GITHOPPU_NO_SESSION && githoppu_image_into(&no_store, 0, &word, 1) == GITHOPPU_NO_SESSION);
    CHECK(githoppu_checkpoint_size(&none, &needed) == GITHOPPU_NO_SESSION && githoppu_checkpoint_into(&none, &word, 1) == GITHOPPU_NO_SESSION);
    /* sessions of another store are of another store */
    closed = NULL;
    CHECK(githoppu_close_all(s, 1, &closed) == GITHOPPU_OTHERS && closed == NULL);
    CHECK(githoppu_close_all(t, 1, &closed) == GITHOPPU_DONE && closed != NULL);
    githoppu_give_up_closed(&closed);
    CHECK(githoppu_close_all(s, 2, &closed) == GITHOPPU_DONE && closed != NULL);
    githoppu_give_up_closed(&closed);
    /* a store of which a session was dropped is not closed */
    CHECK(githoppu_open(LINES, s, 2) == GITHOPPU_DONE);
    githoppu_give_up(s, 1);
    CHECK(githoppu_close_all(s, 2, &closed) == GITHOPPU_OTHERS && closed == NULL);
}

/* Each refusal of recovery by its number, of one word that was turned. */
static void test_refusals(void) {
    static const int order[] = {1, 0};
    githoppu_closed *closed = closed_store(order, 2);
    githoppu_session *one[1], *nine[9];
    uint64_t count, *words = image_of(&closed, 0, &count), root = words[5];
    uint64_t *region = words + HEAD + REGION * (root % 4), *other = words + HEAD + REGION * ((root + 1) % 4);
    struct {
        uint64_t *word, mask;
        int status;
    } turned[] = {
        {words, 1, GITHOPPU_NOT_AN_IMAGE},                            /* the name */
        {words + 1, 2, GITHOPPU_NOT_AN_IMAGE},                        /* a format that there is not */
        {words + 1, 1, GITHOPPU_NOT_AN_IMAGE},                        /* no format */
        {words + 1, 3, GITHOPPU_IMAGE_SIZE},                      /* the format of one replica */
        {words + 2, 3, GITHOPPU_OTHER_KIND},                      /* the kind */
        {words + 2, 2, GITHOPPU_OTHER_KIND},                      /* the kind of a program's object */
        {words + 2, 4, GITHOPPU_NOT_AN_IMAGE},                        /* a kind that there is not */
        {words + 2, 1, GITHOPPU_NOT_AN_IMAGE},                        /* no kind */
        {words + 3, 2, GITHOPPU_NOT_AN_IMAGE},                        /* no sessions */
        {words + 3, 8, GITHOPPU_NOT_AN_IMAGE},                        /* ten sessions */
        {words + 3, 1, GITHOPPU_IMAGE_SIZE},                      /* three sessions */
        {words + 4, 1, GITHOPPU_IMAGE_SIZE},                      /* one line more */
        {words + 4, 64, GITHOPPU_NOT_AN_IMAGE},                       /* no lines */
        {words + 5, (uint64_t)1 << 63, GITHOPPU_IMAGE_ROOT},      /* the root */
        {region + 1168, 128, GITHOPPU_IMAGE_VERSION},             /* the object's version */
        {region, 64, GITHOPPU_IMAGE_PLACE},                       /* the place */
        {region + 3, 1, GITHOPPU_IMAGE_BODY},                     /* a word of the results that is 0 */
        {region + 1169, (uint64_t)1 << 40, GITHOPPU_IMAGE_BODY},  /* the index */
        {region + 8, (uint64_t)1 << 41, GITHOPPU_IMAGE_NUMBERS},  /* a result's number */
        {words + 6, 1, GITHOPPU_NOT_AN_IMAGE},                        /* a last word of the head */
        {words + 7, (uint64_t)1 << 63, GITHOPPU_NOT_AN_IMAGE},        /* the other */
        {region + 9, 99 ^ GITHOPPU_SUM, GITHOPPU_IMAGE_BODY},     /* the kind of a kept reply */
        {region + 13, 1, GITHOPPU_IMAGE_BODY},                    /* a word of it that is 0 */
        {region + 152, UINT64_MAX, GITHOPPU_IMAGE_BODY},          /* its last word */
        {region + 145 + 9, 4 ^ GITHOPPU_REPLACED, GITHOPPU_DONE}, /* another reply is one */
        {other + 9, 99, GITHOPPU_DONE},                           /* a replica that the root does not name is not read */
    };
    uint64_t kept[144], number;
    githoppu_words reply;
    size_t i;
    for (i = 0; i < sizeof turned / sizeof *turned; i++) {
        one[0] = not_a_session(one);
        *turned[i].word ^= turned[i].mask;
        CHECK(recover_one(words, count, one) == turned[i].status);
        *turned[i].word ^= turned[i].mask;
        CHECK((one[0] == not_a_session(one)) == (turned[i].status != GITHOPPU_DONE));
        if (turned[i].status == GITHOPPU_DONE)
            githoppu_give_up(one, 1);
    }
    /* the words of a malformed operation's reply are a reply */
    memcpy(kept, region + 9, sizeof kept);
    memset(region + 9, 0, sizeof kept);
    CHECK(recover_one(words, count, one) == GITHOPPU_DONE);
    githoppu_give_up(one, 1);
    CHECK(githoppu_outcome(words, count, 0, &number, reply.word) == GITHOPPU_DONE && number == 2 && reply.word[0] == GITHOPPU_NO_OPERATION);
    memcpy(region + 9, kept, sizeof kept);
    CHECK(recover_one(words, count - 1, one) == GITHOPPU_IMAGE_SIZE);
    CHECK(recover_one(words, 7, one) == GITHOPPU_NOT_AN_IMAGE && recover_one(words, 0, one) == GITHOPPU_NOT_AN_IMAGE);
    CHECK(githoppu_recover_queue(words, count, one, 1) == GITHOPPU_OTHER_KIND);
    CHECK(githoppu_recover(words, count, nine, 0) == GITHOPPU_BAD_SIZE && githoppu_recover(words, count, nine, 9) == GITHOPPU_BAD_SIZE);
    CHECK(githoppu_recover(words, count, nine, 8) == GITHOPPU_DONE);
    githoppu_give_up(nine, 8);
    githoppu_give_up_closed(&closed);
    __real_free(words);
}

/* A refusal of an outcome writes nothing, and is the number of the recovery's. */
static void test_outcome_refusals(void) {
    static const int order[] = {0};
    githoppu_closed *closed = closed_store(order, 1);
    uint64_t count, *words = image_of(&closed, 0, &count), number = 7;
    uint64_t *region = words + HEAD + REGION * (words[5] % 2);
    githoppu_words reply;
    reply.word[143] = 7;
    CHECK(githoppu_outcome(words, count, 8, &number, reply.word) == GITHOPPU_BAD_SIZE);
    CHECK(githoppu_outcome(words, count, UINT64_MAX, &number, reply.word) == GITHOPPU_BAD_SIZE);
    CHECK(githoppu_outcome(words, 7, 0, &number, reply.word) == GITHOPPU_NOT_AN_IMAGE);
    CHECK(githoppu_outcome(words, count - 1, 0, &number, reply.word) == GITHOPPU_IMAGE_SIZE);
    words[2] = 2;
    CHECK(githoppu_outcome(words, count, 0, &number, reply.word) == GITHOPPU_IMAGE_VERSION);
    words[2] = 4;
    CHECK(githoppu_outcome(words, count, 0, &number, reply.word) == GITHOPPU_NOT_AN_IMAGE);
    words[2] = 1;
    region[9] = 99;
    CHECK(githoppu_outcome(words, count, 1, &number, reply.word) == GITHOPPU_IMAGE_BODY);
    CHECK(number == 7 && reply.word[143] == 7);
    githoppu_give_up_closed(&closed);
    __real_free(words);
}

/* The number and the kind of a session's last update. */
static int is_outcome(const uint64_t *words, uint64_t count, uint64_t session, uint64_t number, int kind) {
    uint64_t found = 99;
    githoppu_words reply;
    memset(&reply, 99, sizeof reply);
    CHECK(githoppu_outcome(words, count, session, &found, reply.word) == GITHOPPU_DONE);
    return found == number && reply.word[0] == (uint64_t)kind;
}

/* Updates are counted, malformed ones too and reads not; the numbers go on after a recovery, with other sessions. */
static void test_outcomes(void) {
    githoppu_session *s[3];
    githoppu_closed *closed;
    githoppu_words reply;
    uint64_t count, *words;
    int i;
    CHECK(githoppu_open(LINES, s, 3) == GITHOPPU_DONE);
    DO(githoppu_put(&s[0], "fruit", "1", 1, &reply), GITHOPPU_NEW);
    DO(githoppu_get(&s[0], "fruit", &reply), GITHOPPU_DOC);
    DO(githoppu_add(&s[0], "fruit", 4, &reply), GITHOPPU_SUM);
    DO(githoppu_count(&s[0], &reply), GITHOPPU_COUNT);
    MALFORMED(githoppu_put(&s[1], "", "1", 1, &reply));
    CHECK(githoppu_close_all(s, 3, &closed) == GITHOPPU_DONE);
    words = image_of(&closed, 1, &count);
    githoppu_give_up_closed(&closed);
    CHECK(is_outcome(words, count, 0, 2, GITHOPPU_SUM));
    CHECK(is_outcome(words, count, 1, 1, GITHOPPU_NO_OPERATION));
    for (i = 2; i < 8; i++)
        CHECK(is_outcome(words, count, (uint64_t)i, 0, GITHOPPU_NO_OPERATION));
    CHECK(recover_one(words, count, s) == GITHOPPU_DONE);
    __real_free(words);
    DO(githoppu_del(s, "fruit", &reply), GITHOPPU_DELETED);
    CHECK(githoppu_close_all(s, 1, &closed) == GITHOPPU_DONE);
    words = image_of(&closed, 0, &count);
    githoppu_give_up_closed(&closed);
    CHECK(is_outcome(words, count, 0, 3, GITHOPPU_DELETED));
    CHECK(is_outcome(words, count, 1, 1, GITHOPPU_NO_OPERATION));
    __real_free(words);
    /* of a queue */
    CHECK(githoppu_open_queue(LINES, s, 2) == GITHOPPU_DONE);
    DO(githoppu_push(&s[0], "text", &reply), GITHOPPU_PUSHED);
    DO(githoppu_peek(&s[1], &reply), GITHOPPU_TEXT);
    DO(githoppu_pop(&s[1], &reply), GITHOPPU_TEXT);
    DO(githoppu_pop(&s[0], &reply), GITHOPPU_EMPTY);
    CHECK(githoppu_close_all(s, 2, &closed) == GITHOPPU_DONE);
    words = image_of(&closed, 0, &count);
    githoppu_give_up_closed(&closed);
    CHECK(is_outcome(words, count, 0, 2, GITHOPPU_EMPTY));
    CHECK(is_outcome(words, count, 1, 1, GITHOPPU_TEXT));
    __real_free(words);
}

/* Adds in one try at a time until an addition is pending, and leaves it so: a crash in the middle of an update. */
static void *add_until_pending(void *at) {
    struct worker *w = (struct worker *)at;
    githoppu_words op, reply;
    int i, status;
    githoppu_document_op(&op, 3, "sold", "", 0, 1);
    for (i = 0; i < 200 && w->pending == 0;) {
        githoppu_session_handle handle;
        handle.at = w->session;
        status = githoppu_call(handle, op.word, reply.word, 1, &w->session);
        if (status == GITHOPPU_DONE)
            w->answered++;
        else if (status == GITHOPPU_PENDING)
            w->pending = 1;
        else if (status != GITHOPPU_AGAIN && status != GITHOPPU_FULL)
            w->wrong = 6;
        i += status == GITHOPPU_DONE;
    }
    status = githoppu_close_one(&w->session, &w->closed);
    if (status != GITHOPPU_OTHERS && status != GITHOPPU_DONE)
        w->wrong = 7;
    return NULL;
}

/* After crashes in the middle of updates, the outcomes say of each session which of its updates took effect: all that were acknowledged, perhaps the pending one,
 * and together as many as the recovered store says. */
static void test_outcomes_after_crashes(void) {
    int round, i;
    for (round = 0; round < (adds < ADDS ? 10 : 100); round++) {
        githoppu_session *sessions[THREADS], *one[1];
        githoppu_closed *closed = NULL;
        struct worker workers[THREADS];
        githoppu_words reply;
        uint64_t count, *words, choice;
        CHECK(githoppu_open(LINES, sessions, THREADS) == GITHOPPU_DONE);
        on_threads(workers, sessions, add_until_pending);
        for (i = 0; i < THREADS; i++)
            if (workers[i].closed != NULL)
                closed = workers[i].closed;
        CHECK(closed != NULL);
        for (choice = 0; choice < 6; choice++) {
            uint64_t number, sum = 0;
            words = image_of(&closed, choice, &count);
            for (i = 0; i < THREADS; i++) {
                CHECK(githoppu_outcome(words, count, (uint64_t)i, &number, reply.word) == GITHOPPU_DONE);
                CHECK(number == workers[i].answered || (workers[i].pending && number == workers[i].answered + 1));
                CHECK(reply.word[0] == (uint64_t)(number == 0 ? GITHOPPU_NO_OPERATION : GITHOPPU_SUM));
                sum += number;
            }
            CHECK(recover_one(words, count, one) == GITHOPPU_DONE);
            DO(githoppu_add(one, "sold", 0, &reply), GITHOPPU_SUM);
            CHECK((uint64_t)githoppu_sum(&reply) == sum);
            githoppu_give_up(one, 1);
            __real_free(words);
        }
        githoppu_give_up_closed(&closed);
    }
}

/* Whether a number is no status. */
static int is_none(int status) { return strcmp(githoppu_status_text(status), githoppu_status_text(-1)) == 0; }

/* A library of another version is told, but for the third number. */
static void test_versions(void) {
    static const struct {
        uint64_t version;
        int status;
    } told[] = {{5000, GITHOPPU_DONE}, {5001, GITHOPPU_DONE}, {5999, GITHOPPU_DONE}, {4999, GITHOPPU_OLD_LIBRARY}, {6000, GITHOPPU_OLD_HEADER},
                {1005000, GITHOPPU_OLD_HEADER}, {1, GITHOPPU_OLD_LIBRARY}};
    size_t i;
    CHECK(githoppu_check_version() == GITHOPPU_DONE && githoppu_version() == GITHOPPU_VERSION);
    CHECK(strcmp(GITHOPPU_VERSION_TEXT, "0.5.0") == 0 && GITHOPPU_VERSION == 5000);
    for (i = 0; i < sizeof told / sizeof *told; i++) {
        told_version = told[i].version;
        CHECK(githoppu_check_version() == told[i].status);
    }
    told_version = 0;
}

/* Every status and every kind of reply has a text of its own, and what is none has another. */
static void test_texts(void) {
    int i, k;
    for (i = 0; i < 100; i++)
        for (k = 0; k < i; k++)
            CHECK(strcmp(githoppu_status_text(i), githoppu_status_text(k)) != 0 || (is_none(i) && is_none(k)));
    CHECK(!is_none(GITHOPPU_MALFORMED) && !is_none(GITHOPPU_NOT_OPENED) && !is_none(GITHOPPU_NOT_REGULAR));
    for (i = 0; i <= GITHOPPU_REVISION + 1; i++)
        for (k = 0; k < i; k++)
            CHECK(strcmp(githoppu_reply_text((uint64_t)i), githoppu_reply_text((uint64_t)k)) != 0);
    for (i = 0; i <= GITHOPPU_LENGTH + 1; i++)
        for (k = 0; k < i; k++)
            CHECK(strcmp(githoppu_queue_reply_text((uint64_t)i), githoppu_queue_reply_text((uint64_t)k)) != 0);
    CHECK(is_none(99) && githoppu_reply_text(UINT64_MAX) == githoppu_reply_text(99));
}

static void test_queue_image(void) {
    githoppu_session *s[2];
    githoppu_closed *closed;
    githoppu_words reply;
    uint64_t count, *words;
    char text[57];
    int i;
    CHECK(githoppu_open_queue(LINES, s, 2) == GITHOPPU_DONE);
    for (i = 0; i < 20; i++) {
        snprintf(text, sizeof text, "text-%d", i);
        DO(githoppu_push(&s[i % 2], text, &reply), GITHOPPU_PUSHED);
    }
    DO(githoppu_pop(&s[1], &reply), GITHOPPU_TEXT);
    CHECK(githoppu_close_all(s, 2, &closed) == GITHOPPU_DONE);
    words = image_of(&closed, 2, &count);
    githoppu_give_up_closed(&closed);
    CHECK(recover_one(words, count, s) == GITHOPPU_OTHER_KIND);
    CHECK(githoppu_recover_queue(words, count, s, 2) == GITHOPPU_DONE);
    __real_free(words);
    for (i = 1; i < 20; i++) {
        char wanted[57];
        DO(githoppu_pop(&s[i % 2], &reply), GITHOPPU_TEXT);
        githoppu_text(&reply, text);
        snprintf(wanted, sizeof wanted, "text-%d", i);
        CHECK(strcmp(text, wanted) == 0);
    }
    DO(githoppu_pop(&s[0], &reply), GITHOPPU_EMPTY);
    githoppu_give_up(s, 2);
}

/* ---- images of one replica ---- */

/* The checkpoint of the store or queue of a session, in words that the caller frees. It takes no memory. */
static uint64_t *checkpoint_of(githoppu_session **session, uint64_t *count) {
    uint64_t *words;
    long before;
    CHECK(githoppu_checkpoint_size(session, count) == GITHOPPU_DONE && *count == HEAD + REGION);
    words = (uint64_t *)__real_malloc(*count * sizeof *words);
    CHECK(words != NULL);
    before = taken;
    CHECK(githoppu_checkpoint_into(session, words, *count) == GITHOPPU_DONE && taken == before);
    return words;
}

/* The image of format 1 that has the region of these words as each replica, in words that the caller frees. */
static uint64_t *spread_of(const uint64_t *words, uint64_t replicas) {
    uint64_t *all = (uint64_t *)__real_malloc((HEAD + replicas * REGION) * sizeof *all), i;
    CHECK(all != NULL);
    memcpy(all, words, HEAD * sizeof *all);
    all[1] = 1;
    for (i = 0; i < replicas; i++)
        memcpy(all + HEAD + i * REGION, words + HEAD, REGION * sizeof *all);
    return all;
}

/* A checkpoint has one replica, and is what the image of the closed store has at the same place; a store is opened from it with any number of sessions. */
static void test_checkpoints(void) {
    githoppu_session *s[8];
    githoppu_closed *closed;
    githoppu_words reply;
    githoppu_session_handle handle;
    uint64_t count, all, needed = 1, word = 7, *words, *image;
    size_t i;
    CHECK(githoppu_open(LINES, s, 3) == GITHOPPU_DONE);
    DO(githoppu_put(&s[0], "fruit", "1", 1, &reply), GITHOPPU_NEW);
    DO(githoppu_add(&s[2], "fruit", 4, &reply), GITHOPPU_SUM);
    words = checkpoint_of(&s[1], &count);
    CHECK(words[1] == 2 && words[2] == 1 && words[3] == 3 && words[4] == LINES && words[5] == 2 * 6 && words[6] == 0 && words[7] == 0 && words[HEAD] == 2);
    CHECK(is_outcome(words, count, 0, 1, GITHOPPU_NEW) && is_outcome(words, count, 2, 1, GITHOPPU_SUM) && is_outcome(words, count, 1, 0, GITHOPPU_NO_OPERATION));
    handle.at = s[1];
    CHECK(githoppu_checkpoint(handle, &word, 1, &needed, &s[1]) == GITHOPPU_BAD_SIZE && needed == HEAD + REGION && word == 7);
    CHECK(githoppu_close_all(s, 3, &closed) == GITHOPPU_DONE);
    image = image_of(&closed, 0, &all);
    CHECK(image[1] == 1 && image[5] / 6 == 2 && memcmp(image + HEAD + image[5] % 6 * REGION, words + HEAD, REGION * sizeof *words) == 0);
    githoppu_give_up_closed(&closed);
    for (i = 1; i <= 8; i++) {
        CHECK(githoppu_recover(words, count, s, i) == GITHOPPU_DONE);
        DO(githoppu_add(&s[i - 1], "fruit", 1, &reply), GITHOPPU_SUM);
        CHECK(githoppu_sum(&reply) == 6);
        githoppu_give_up(s, i);
    }
    CHECK(githoppu_recover_queue(words, count, s, 1) == GITHOPPU_OTHER_KIND && githoppu_recover(words, count, s, 9) == GITHOPPU_BAD_SIZE);
    __real_free(image);
    __real_free(words);
    /* of a queue, and its checkpoint again */
    CHECK(githoppu_open_queue(LINES, s, 1) == GITHOPPU_DONE);
    DO(githoppu_push(s, "text", &reply), GITHOPPU_PUSHED);
    for (i = 0; i < 3; i++) {
        words = checkpoint_of(s, &count);
        githoppu_give_up(s, 1);
        CHECK(words[1] == 2 && words[2] == 2 && words[5] == 2 * words[HEAD] && recover_one(words, count, s) == GITHOPPU_OTHER_KIND);
        CHECK(githoppu_recover_queue(words, count, s, 1) == GITHOPPU_DONE);
        __real_free(words);
        DO(githoppu_peek(s, &reply), GITHOPPU_TEXT);
        DO(githoppu_push(s, "more", &reply), GITHOPPU_PUSHED);
    }
    DO(githoppu_len(s, &reply), GITHOPPU_LENGTH);
    CHECK(githoppu_length(&reply) == 4);
    githoppu_give_up(s, 1);
}

/* Each refusal of an image of one replica, of one word that was turned, by recovery and by outcomes. */
static void test_checkpoint_refusals(void) {
    githoppu_session *s[2], *one[1];
    githoppu_words reply;
    uint64_t count, *words, *region, *more, number;
    size_t i;
    CHECK(githoppu_open(LINES, s, 2) == GITHOPPU_DONE);
    DO(githoppu_put(&s[0], "fruit", "\"apple\"", 7, &reply), GITHOPPU_NEW);
    DO(githoppu_add(&s[0], "sold", 5, &reply), GITHOPPU_SUM);
    words = checkpoint_of(&s[1], &count);
    githoppu_give_up(s, 2);
    region = words + HEAD;
    {
        struct {
            uint64_t *word, mask;
            int status;
        } turned[] = {
            {words, 1, GITHOPPU_NOT_AN_IMAGE},                           /* the name */
            {words + 1, 1, GITHOPPU_NOT_AN_IMAGE},                       /* a format that there is not */
            {words + 1, 2, GITHOPPU_NOT_AN_IMAGE},                       /* no format */
            {words + 1, 3, GITHOPPU_IMAGE_SIZE},                     /* the format of all replicas */
            {words + 2, 3, GITHOPPU_OTHER_KIND},                     /* the kind */
            {words + 2, 1, GITHOPPU_NOT_AN_IMAGE},                       /* no kind */
            {words + 3, 2, GITHOPPU_NOT_AN_IMAGE},                       /* no sessions */
            {words + 3, 1, GITHOPPU_IMAGE_PLACE},                    /* three sessions: the root has another place */
            {words + 4, 1, GITHOPPU_IMAGE_SIZE},                     /* one line more */
            {words + 4, 64, GITHOPPU_NOT_AN_IMAGE},                      /* no lines */
            {words + 5, (uint64_t)1 << 63, GITHOPPU_IMAGE_ROOT},     /* the root */
            {words + 5, 4, GITHOPPU_IMAGE_PLACE},                    /* another place */
            {words + 5, 3, GITHOPPU_DONE},                           /* another replica, which is the same */
            {words + 6, 1, GITHOPPU_NOT_AN_IMAGE},                       /* a last word of the head */
            {words + 7, 1, GITHOPPU_NOT_AN_IMAGE},                       /* the other */
            {region + 1168, 128, GITHOPPU_IMAGE_VERSION},            /* the object's version */
            {region, 64, GITHOPPU_IMAGE_PLACE},                      /* the place */
            {region + 3, 1, GITHOPPU_IMAGE_BODY},                    /* a word of the results that is 0 */
            {region + 1169, (uint64_t)1 << 40, GITHOPPU_IMAGE_BODY}, /* the index */
            {region + 8, (uint64_t)1 << 41, GITHOPPU_IMAGE_NUMBERS}, /* a result's number */
            {region + 9, 99 ^ GITHOPPU_SUM, GITHOPPU_IMAGE_BODY},    /* the kind of a kept reply */
        };
        for (i = 0; i < sizeof turned / sizeof *turned; i++) {
            one[0] = not_a_session(one);
            number = 7;
            *turned[i].word ^= turned[i].mask;
            CHECK(recover_one(words, count, one) == turned[i].status);
            if (turned[i].status != GITHOPPU_OTHER_KIND)
                CHECK(githoppu_outcome(words, count, 0, &number, reply.word) == turned[i].status);
            *turned[i].word ^= turned[i].mask;
            CHECK((one[0] == not_a_session(one)) == (turned[i].status != GITHOPPU_DONE) && (number == 7) == (turned[i].status != GITHOPPU_DONE));
            if (turned[i].status == GITHOPPU_DONE)
                githoppu_give_up(one, 1);
        }
    }
    /* one word less, none of the region, and one more */
    more = (uint64_t *)__real_malloc((count + 1) * sizeof *more);
    CHECK(more != NULL);
    memcpy(more, words, count * sizeof *more);
    more[count] = 0;
    CHECK(recover_one(more, count - 1, one) == GITHOPPU_IMAGE_SIZE && recover_one(more, HEAD, one) == GITHOPPU_IMAGE_SIZE);
    CHECK(recover_one(more, count + 1, one) == GITHOPPU_IMAGE_SIZE && recover_one(more, HEAD - 1, one) == GITHOPPU_NOT_AN_IMAGE);
    CHECK(githoppu_outcome(more, count + 1, 0, &number, reply.word) == GITHOPPU_IMAGE_SIZE);
    __real_free(more);
    __real_free(words);
}

/* What a store is asked after a turned word: the status of the recovery, and where that is DONE each key with its document, in their order. */
static int is_same_store(const uint64_t *one, uint64_t one_count, const uint64_t *two, uint64_t two_count) {
    githoppu_session *s[1], *t[1];
    int status = recover_one(one, one_count, s);
    char key[65], other[65];
    if (recover_one(two, two_count, t) != status)
        return 0;
    key[0] = 0;
    while (status == GITHOPPU_DONE) {
        githoppu_words a, b;
        CHECK(githoppu_next(s, key, &a) == GITHOPPU_DONE && githoppu_next(t, key, &b) == GITHOPPU_DONE);
        if (memcmp(&a, &b, sizeof a) != 0)
            return 0;
        if (a.word[0] != GITHOPPU_KEY)
            break;
        githoppu_key(&a, key);
        githoppu_key(&b, other);
        CHECK(githoppu_get(s, key, &a) == GITHOPPU_DONE && githoppu_get(t, other, &b) == GITHOPPU_DONE);
        if (memcmp(&a, &b, sizeof a) != 0)
            return 0;
    }
    if (status == GITHOPPU_DONE) {
        githoppu_give_up(s, 1);
        githoppu_give_up(t, 1);
    }
    return 1;
}

/* Each word of an image of one replica turned is refused, or means what it says: it is answered as the image of format 1 that has that region as each
 * replica, by outcomes of each session, and by the store that is opened from it. */
static void test_turned_checkpoints(void) {
    enum { SESSIONS = 2 };
    githoppu_session *s[SESSIONS];
    githoppu_words reply, other;
    uint64_t count, *words, *all, at, bit, session, done = 0, step = adds < ADDS ? 21 : 3;
    CHECK(githoppu_open(LINES, s, SESSIONS) == GITHOPPU_DONE);
    DO(githoppu_put(&s[0], "fruit", "\"apple\"", 7, &reply), GITHOPPU_NEW);
    DO(githoppu_put(&s[1], "pear", "[1,2]", 5, &reply), GITHOPPU_NEW);
    DO(githoppu_add(&s[0], "sold", 5, &reply), GITHOPPU_SUM);
    DO(githoppu_del(&s[1], "pear", &reply), GITHOPPU_DELETED);
    words = checkpoint_of(&s[1], &count);
    githoppu_give_up(s, SESSIONS);
    all = spread_of(words, 2 * SESSIONS);
    for (at = 0; at < count; at++) {
        /* the format of one is not that of the other, and with other numbers of sessions or lines the sizes differ apart */
        if (at == 1 || at == 3 || at == 4)
            continue;
        for (bit = at % step; bit < 64; bit += step) {
            uint64_t mask = (uint64_t)1 << bit, i, number = 7, found = 7;
            words[at] ^= mask;
            for (i = 0; i < (at < HEAD ? 1 : 2 * SESSIONS); i++)
                all[at + i * REGION] ^= mask;
            for (session = 0; session < SESSIONS; session++) {
                int status = githoppu_outcome(words, count, session, &number, reply.word);
                CHECK(githoppu_outcome(all, HEAD + 2 * SESSIONS * REGION, session, &found, other.word) == status && found == number);
                CHECK(status != GITHOPPU_DONE || memcmp(&reply, &other, sizeof reply) == 0);
                done += status == GITHOPPU_DONE;
            }
            if (bit < step)
                CHECK(is_same_store(words, count, all, HEAD + 2 * SESSIONS * REGION));
            words[at] ^= mask;
            for (i = 0; i < (at < HEAD ? 1 : 2 * SESSIONS); i++)
                all[at + i * REGION] ^= mask;
        }
    }
    CHECK(done > 0);
    __real_free(all);
    __real_free(words);
}

static void *add_and_close(void *at) {
    struct worker *w = (struct worker *)at;
    int status;
    add_once(w);
    status = githoppu_close_one(&w->session, &w->closed);
    if (status != GITHOPPU_OTHERS && status != GITHOPPU_DONE)
        w->wrong = 5;
    return NULL;
}

/* Threads close their sessions at once: one of them closes the store, and what each was answered is in it. */
static void test_closing_threads(void) {
    int round, i;
    for (round = 0; round < (adds < ADDS ? 5 : 200); round++) {
        githoppu_session *sessions[THREADS], *one[1];
        githoppu_closed *closed = NULL;
        struct worker workers[THREADS];
        githoppu_words reply;
        uint64_t count, *words;
        CHECK(githoppu_open(LINES, sessions, THREADS) == GITHOPPU_DONE);
        on_threads(workers, sessions, add_and_close);
        for (i = 0; i < THREADS; i++)
            if (workers[i].closed != NULL) {
                CHECK(closed == NULL);
                closed = workers[i].closed;
            }
        CHECK(closed != NULL);
        words = image_of(&closed, (uint64_t)round % 3, &count);
        CHECK(recover_one(words, count, one) == GITHOPPU_DONE);
        DO(githoppu_add(one, "sold", 0, &reply), GITHOPPU_SUM);
        CHECK(githoppu_sum(&reply) == THREADS);
        githoppu_give_up(one, 1);
        githoppu_give_up_closed(&closed);
        __real_free(words);
    }
}

/* ---- places ---- */

/* The place behind a further answer of a session: of an update it is above the place before it, and of a read not below. */
static uint64_t place_after(githoppu_session **session, int reads) {
    githoppu_words reply;
    if (reads)
        DO(githoppu_count(session, &reply), GITHOPPU_COUNT);
    else
        DO(githoppu_add(session, "sold", 1, &reply), GITHOPPU_SUM);
    return githoppu_place(session);
}

/* Two sessions in turn, each answered before the other begins, with each of the four kinds of pairs. */
static void test_places_in_turn(void) {
    int kinds, i;
    for (kinds = 0; kinds < 4; kinds++) {
        githoppu_session *s[2];
        uint64_t last = 0;
        CHECK(githoppu_open(LINES, s, 2) == GITHOPPU_DONE);
        CHECK(githoppu_place(&s[0]) == 0 && githoppu_place(&s[1]) == 0);
        for (i = 0; i < 200; i++) {
            int reads = kinds >> i % 2 & 1;
            uint64_t place = place_after(&s[i % 2], reads);
            CHECK(reads ? place >= last : place > last);
            last = place;
        }
        githoppu_give_up(s, 2);
    }
}

static void test_catching_up(void) {
    githoppu_session *s[2], *lie, *none = NULL;
    githoppu_closed *closed;
    githoppu_words reply;
    githoppu_session_handle handle;
    uint64_t place, told = 7;
    CHECK(githoppu_open(LINES, s, 2) == GITHOPPU_DONE);
    /* the first place is everybody's, and none is above it */
    CHECK(githoppu_catch_up(&s[1], 0) == GITHOPPU_DONE && githoppu_place(&s[1]) == 0);
    CHECK(githoppu_catch_up(&s[1], 1) == GITHOPPU_BEHIND && githoppu_place(&s[1]) == 0);
    place = place_after(&s[0], 0);
    CHECK(place == 1 && githoppu_catch_up(&s[1], place + 1) == GITHOPPU_BEHIND && githoppu_place(&s[1]) == 0);
    CHECK(githoppu_catch_up(&s[1], place) == GITHOPPU_DONE && githoppu_place(&s[1]) == place);
    /* a lower place is seen then too, and lowers nothing */
    CHECK(githoppu_catch_up(&s[1], 0) == GITHOPPU_DONE && githoppu_place(&s[1]) == place);
    DO(githoppu_get(&s[1], "sold", &reply), GITHOPPU_DOC);
    CHECK(place_after(&s[1], 0) == 2 && githoppu_catch_up(&s[0], UINT64_MAX) == GITHOPPU_BEHIND);
    /* null is no session, and what is closed neither */
    CHECK(githoppu_catch_up(&none, 0) == GITHOPPU_NO_SESSION && githoppu_place(&none) == 0);
    CHECK(githoppu_close_all(s, 2, &closed) == GITHOPPU_DONE);
    handle.at = as_session(closed);
    CHECK(githoppu_place_of(handle, &told, &lie) == GITHOPPU_OUT_OF_TURN && told == 0 && githoppu_place(&lie) == 0);
    CHECK(githoppu_catch_up(&lie, 0) == GITHOPPU_OUT_OF_TURN);
    githoppu_give_up(&lie, 1);
}

/* ---- an object of a program ---- */

/* tools/program wrote these words of a counter: ADD adds a word to the first one of the state, GET reads it, and LOOP stores 99 and never ends. */
static const uint64_t counter_words[16] = {
    0x1479, 0x6000b0415, 0x500060415, 0x2000000b7, 0x200070455, 0x3479, 0x81179, 0x410f,
    0x137b, 0x3179, 0x127b, 0x1000000b7, 0x95, 0x63000001b7, 0x137b, 0xffff0005,
};
static const githoppu_program counter = {counter_words, 16, 16, 1000};
enum { COUNTER_ADD = GITHOPPU_UPDATE(1), COUNTER_GET = GITHOPPU_READ(2), COUNTER_LOOP = GITHOPPU_UPDATE(3) };

/* A program with these words, whose refusal is told by its number, by the instruction, and in one line. */
static void refused(const uint64_t *words, size_t count, uint64_t instructions, uint64_t fault, uint64_t at, const char *line) {
    githoppu_program wrong = {words, count, instructions, 1000};
    githoppu_session *slot = not_a_session(&slot);
    uint64_t found = 99, place = 99, fingerprint = 99;
    char text[80], brief[8];
    CHECK(githoppu_program_fault(words, count, instructions, &found, &place) == GITHOPPU_BAD_PROGRAM && found == fault && place == at);
    CHECK(githoppu_program_why(&wrong, text, sizeof text) == GITHOPPU_BAD_PROGRAM && strcmp(text, line) == 0);
    CHECK(githoppu_program_why(&wrong, brief, sizeof brief) == GITHOPPU_BAD_PROGRAM && strncmp(brief, line, 7) == 0 && strlen(brief) == 7);
    CHECK(githoppu_program_why(&wrong, NULL, 0) == GITHOPPU_BAD_PROGRAM);
    CHECK(githoppu_open_object(&wrong, 64, &slot, 1) == GITHOPPU_BAD_PROGRAM && slot == not_a_session(&slot));
    CHECK(githoppu_recover_object(&wrong, NULL, words, count, &slot, 1) == GITHOPPU_BAD_PROGRAM && slot == not_a_session(&slot));
    CHECK(githoppu_recover_object(&counter, &wrong, words, count, &slot, 1) == GITHOPPU_BAD_PROGRAM);
    CHECK(githoppu_program_fingerprint(words, count, instructions, 1000, &fingerprint) == GITHOPPU_BAD_PROGRAM && fingerprint == 99);
}

static void test_refused_programs(void) {
    static const uint64_t exit_alone[1] = {0x95}, opcode[2] = {0xff, 0x95}, end[11] = {0x95, 0x95, 0x95, 0x95, 0x95, 0x95, 0x95, 0x95, 0x95, 0x95, 0xb7};
    static const struct {
        uint64_t word, fault;
    } first[] = {{0xff, 2}, {0x10b7, 3}, {0xab7, 4}, {0x10005, 5}, {0x100000085, 7}, {0x1018, 8}, {0xdb, 9}, {0x20, 10}};
    uint64_t found = 99, place = 99, fingerprint = 0, other = 0;
    char text[80];
    size_t i, k;
    refused(exit_alone, 1, 0, GITHOPPU_REFUSED_LENGTH, 0, "it has no instructions, more than 65,536, or more than there are words");
    refused(exit_alone, 1, 2, GITHOPPU_REFUSED_LENGTH, 0, "it has no instructions, more than 65,536, or more than there are words");
    refused(exit_alone, 1, UINT64_MAX, GITHOPPU_REFUSED_LENGTH, 0, "it has no instructions, more than 65,536, or more than there are words");
    refused(opcode, 2, 2, GITHOPPU_REFUSED_OPCODE, 0, "instruction 0: an operation that is not known");
    refused(end, 11, 11, GITHOPPU_REFUSED_END, 10, "instruction 10: the last instruction goes on behind the end");
    for (i = 0; i < sizeof first / sizeof *first; i++) {
        uint64_t words[2];
        words[0] = first[i].word;
        words[1] = 0x95;
        CHECK(githoppu_program_fault(words, 2, 2, &found, &place) == GITHOPPU_BAD_PROGRAM && found == first[i].fault && place == 0);
    }
    CHECK(githoppu_program_fault(counter_words, 16, 16, &found, &place) == GITHOPPU_DONE && found == 0);
    CHECK(githoppu_program_why(&counter, text, sizeof text) == GITHOPPU_DONE && strcmp(text, "the words are a program") == 0);
    CHECK(githoppu_program_fingerprint(counter_words, 16, 16, 1000, &fingerprint) == GITHOPPU_DONE);
    CHECK(githoppu_program_fingerprint(counter_words, 16, 16, 1 << 20, &other) == GITHOPPU_DONE && other != fingerprint);
    CHECK(githoppu_program_fingerprint(counter_words, 16, 16, (1 << 20) + 1, &other) == GITHOPPU_BAD_SIZE);
    for (i = 0; i <= GITHOPPU_REFUSED_PACKET + 1; i++)
        for (k = 0; k < i; k++)
            CHECK(strcmp(githoppu_refusal_text(i), githoppu_refusal_text(k)) != 0);
    for (i = 0; i <= GITHOPPU_NO_INSTRUCTION; i++)
        for (k = 0; k < i; k++)
            CHECK(strcmp(githoppu_fault_text(i), githoppu_fault_text(k)) != 0);
}

static uint64_t counted(githoppu_session **session) {
    githoppu_words reply;
    CHECK(githoppu_ask(session, COUNTER_GET, 0, 0, 0, &reply) == GITHOPPU_DONE && githoppu_returned(&reply) == 1);
    return githoppu_replied(&reply)[0];
}

/* What a run returns, what a fault leaves, and wrong use. */
static void test_counter(void) {
    githoppu_session *s[2], *none = NULL, *nine[9];
    githoppu_words reply, request;
    githoppu_program other = counter;
    uint64_t many[145] = {0};
    int i;
    for (i = 0; i < 2; i++) {
        uint64_t wrong = i == 0 ? 63 : 16385;
        CHECK(githoppu_open_object(&counter, wrong, s, 1) == GITHOPPU_BAD_SIZE);
    }
    CHECK(githoppu_open_object(&counter, 64, nine, 0) == GITHOPPU_BAD_SIZE && githoppu_open_object(&counter, 64, nine, 9) == GITHOPPU_BAD_SIZE);
    other.fuel = (1 << 20) + 1;
    CHECK(githoppu_open_object(&other, 64, s, 1) == GITHOPPU_BAD_SIZE && githoppu_recover_object(&other, NULL, many, 144, s, 1) == GITHOPPU_BAD_SIZE);
    other.fuel = 0;
    CHECK(githoppu_open_object(&other, 64, s, 1) == GITHOPPU_DONE);
    CHECK(githoppu_ask(s, COUNTER_GET, 0, 0, 0, &reply) == GITHOPPU_FAULTED && reply.word[0] == GITHOPPU_OUT_OF_FUEL && githoppu_fault_at(&reply) == 0);
    githoppu_give_up(s, 1);
    CHECK(githoppu_open_object(&counter, 64, s, 2) == GITHOPPU_DONE && counted(s) == 0);
    CHECK(githoppu_ask(&s[1], COUNTER_ADD, 5, 0, 0, &reply) == GITHOPPU_DONE && reply.word[0] == GITHOPPU_RAN && githoppu_replied(&reply)[0] == 5);
    for (i = 9; i < 144; i++)
        CHECK(reply.word[i] == 0);
    CHECK(githoppu_ask(s, COUNTER_LOOP, 0, 0, 0, &reply) == GITHOPPU_FAULTED && reply.word[0] == GITHOPPU_OUT_OF_FUEL);
    CHECK(githoppu_fault_at(&reply) == 15 && githoppu_fault_address(&reply) == 0 && counted(&s[1]) == 5);
    /* the call below the header answers DONE */
    memset(&request, 0, sizeof request);
    request.word[0] = COUNTER_LOOP;
    CHECK(githoppu_do(s, &request, &reply) == GITHOPPU_DONE && reply.word[0] == GITHOPPU_OUT_OF_FUEL);
    CHECK(githoppu_request(s, many, 145, &reply) == GITHOPPU_TOO_LONG && githoppu_ask(&none, 2, 0, 0, 0, &reply) == GITHOPPU_NO_SESSION);
    CHECK(githoppu_request(s, many, 144, &reply) == GITHOPPU_DONE && githoppu_returned(&reply) == 2);
    CHECK(githoppu_end(s, &reply) == GITHOPPU_OUT_OF_TURN);
    CHECK(githoppu_catch_up(&s[1], githoppu_place(s)) == GITHOPPU_DONE && githoppu_place(s) == 4);
    githoppu_give_up(s, 2);
}

/* A checkpoint of an object of which one session added 41 and another one's update faulted; the image of the closed one is the same, and outcomes tell it. */
static uint64_t *counter_image(uint64_t *length) {
    githoppu_session *s[3];
    githoppu_closed *closed;
    githoppu_words reply;
    uint64_t count, all, *words, *image;
    CHECK(githoppu_open_object(&counter, LINES, s, 3) == GITHOPPU_DONE);
    CHECK(githoppu_ask(&s[0], COUNTER_ADD, 41, 0, 0, &reply) == GITHOPPU_DONE && githoppu_ask(&s[2], COUNTER_LOOP, 0, 0, 0, &reply) == GITHOPPU_FAULTED);
    words = checkpoint_of(&s[1], &count);
    CHECK(words[1] == 2 && words[2] == 3 && words[5] == 2 * 6 && words[HEAD + 1168 + 8] == 41);
    CHECK(is_outcome(words, count, 0, 1, GITHOPPU_RAN) && is_outcome(words, count, 2, 1, GITHOPPU_OUT_OF_FUEL) && is_outcome(words, count, 1, 0, 0));
    CHECK(githoppu_close_all(s, 3, &closed) == GITHOPPU_DONE);
    image = image_of(&closed, 0, &all);
    CHECK(image[1] == 1 && image[2] == 3 && memcmp(image + HEAD + image[5] % 6 * REGION, words + HEAD, REGION * sizeof *words) == 0);
    CHECK(is_outcome(image, all, 0, 1, GITHOPPU_RAN) && is_outcome(image, all, 2, 1, GITHOPPU_OUT_OF_FUEL));
    CHECK(githoppu_recover_object(&counter, NULL, image, all, s, 2) == GITHOPPU_DONE && counted(&s[1]) == 41);
    githoppu_give_up(s, 2);
    githoppu_give_up_closed(&closed);
    __real_free(image);
    *length = count;
    return words;
}

/* Images of an object: of which program, of which kind, and each word of the state turned. */
static void test_counter_images(void) {
    githoppu_session *s[1], *one[1];
    githoppu_program other = counter;
    uint64_t count, at, kind, *words = counter_image(&count);
    other.fuel++;
    CHECK(githoppu_recover_object(&other, NULL, words, count, one, 1) == GITHOPPU_IMAGE_VERSION);
    CHECK(githoppu_recover_object(&other, &other, words, count, one, 1) == GITHOPPU_IMAGE_VERSION);
    CHECK(githoppu_recover_object(&other, &counter, words, count, one, 1) == GITHOPPU_DONE && counted(one) == 41);
    githoppu_give_up(one, 1);
    CHECK(recover_one(words, count, one) == GITHOPPU_OTHER_KIND && githoppu_recover_queue(words, count, one, 1) == GITHOPPU_OTHER_KIND);
    CHECK(githoppu_recover_object(&counter, NULL, words, count, s, 0) == GITHOPPU_BAD_SIZE);
    CHECK(githoppu_recover_object(&counter, NULL, words, 7, s, 1) == GITHOPPU_NOT_AN_IMAGE);
    CHECK(githoppu_recover_object(&counter, NULL, words, count - 1, s, 1) == GITHOPPU_IMAGE_SIZE);
    for (kind = 1; kind <= 2; kind++) {
        words[2] = kind;
        CHECK(githoppu_recover_object(&counter, NULL, words, count, one, 1) == GITHOPPU_OTHER_KIND);
    }
    words[2] = 3;
    /* of what stands before the object, a place and the numbers have to fit; any words are a reply */
    for (at = 0; at < HEAD + 1168; at++) {
        uint64_t slot = at < HEAD + 8 ? 0 : (at - HEAD - 8) % 145, turned = (uint64_t)1 << (at % 64);
        int status;
        words[at] ^= turned;
        status = githoppu_recover_object(&counter, NULL, words, count, one, 1);
        if (at >= HEAD && at < HEAD + 8)
            CHECK(status == (at == HEAD ? GITHOPPU_IMAGE_PLACE : GITHOPPU_IMAGE_BODY));
        else if (at >= HEAD && slot == 0)
            CHECK(status == GITHOPPU_DONE || status == GITHOPPU_IMAGE_NUMBERS || status == GITHOPPU_IMAGE_BODY);
        else if (at >= HEAD)
            CHECK(status == (words[at - slot] != 0 ? GITHOPPU_DONE : GITHOPPU_IMAGE_BODY));
        else
            CHECK(status == GITHOPPU_DONE || (status >= GITHOPPU_NOT_AN_IMAGE && status <= GITHOPPU_IMAGE_NUMBERS));
        if (status == GITHOPPU_DONE) {
            CHECK(counted(one) == 41);
            githoppu_give_up(one, 1);
        }
        words[at] ^= turned;
    }
    /* any words are a state of a program, but for its fingerprint */
    for (at = HEAD + 1168; at < count; at += 8) {
        words[at] ^= 2;
        CHECK(githoppu_recover_object(&counter, NULL, words, count, one, 1) == (at == HEAD + 1168 ? GITHOPPU_IMAGE_VERSION : GITHOPPU_DONE));
        if (at > HEAD + 1168) {
            CHECK(counted(one) == (at == HEAD + 1176 ? 43 : 41));
            githoppu_give_up(one, 1);
        }
        words[at] ^= 2;
    }
    __real_free(words);
}

static int32_t open_counter(uint64_t lines, githoppu_session **sessions, size_t count) { return githoppu_open_object(&counter, lines, sessions, count); }

/* ---- memory ---- */

/* Refuses each block of an open in turn: NO_MEMORY, nothing is kept, and no slot is written. */
static void test_refused(int32_t (*open)(uint64_t, githoppu_session **, size_t), size_t count) {
    githoppu_session *slots[8];
    long which, before;
    int status = GITHOPPU_NO_MEMORY;
    size_t i;
    for (which = 1; status == GITHOPPU_NO_MEMORY; which++) {
        for (i = 0; i < count; i++)
            slots[i] = not_a_session(slots);
        before = taken - given;
        refused_at = taken + which;
        status = open(64, slots, count);
        /* the one that was refused is counted, and was not taken */
        if (status == GITHOPPU_NO_MEMORY) {
            CHECK(taken >= refused_at && taken - given == before + 1);
            given++;
            for (i = 0; i < count; i++)
                CHECK(slots[i] == not_a_session(slots));
        }
        refused_at = 0;
    }
    CHECK(status == GITHOPPU_DONE && which > 4);
    githoppu_give_up(slots, count);
    CHECK(taken - given == before);
}

/* Refuses each block of a look at a program in turn: NO_MEMORY, nothing is kept, and nothing is written. */
static void test_refused_looks(void) {
    long which, before = taken - given;
    int status = GITHOPPU_NO_MEMORY;
    for (which = 1; status == GITHOPPU_NO_MEMORY; which++) {
        uint64_t found = 99, at = 99, fingerprint = 99;
        char text[80];
        refused_at = taken + which;
        status = githoppu_program_fault(counter_words, 16, 16, &found, &at);
        if (status == GITHOPPU_NO_MEMORY) {
            given++;
            CHECK(taken - given == before && found == 99 && at == 99);
            refused_at = taken + which;
            CHECK(githoppu_program_why(&counter, text, sizeof text) == GITHOPPU_NO_MEMORY && strcmp(text, "out of memory") == 0);
            given++;
            refused_at = taken + which;
            CHECK(githoppu_program_fingerprint(counter_words, 16, 16, 1, &fingerprint) == GITHOPPU_NO_MEMORY && fingerprint == 99);
            given++;
        }
        refused_at = 0;
    }
    CHECK(status == GITHOPPU_DONE && which > 2 && taken - given == before);
}

/* Refuses each block of a recovery of an object in turn. */
static void test_refused_recoveries(void) {
    uint64_t count, *words = counter_image(&count);
    githoppu_session *slot;
    long which, before = taken - given;
    int status = GITHOPPU_NO_MEMORY;
    for (which = 1; status == GITHOPPU_NO_MEMORY; which++) {
        slot = not_a_session(&slot);
        refused_at = taken + which;
        status = githoppu_recover_object(&counter, NULL, words, count, &slot, 1);
        if (status == GITHOPPU_NO_MEMORY) {
            CHECK(taken >= refused_at && taken - given == before + 1 && slot == not_a_session(&slot));
            given++;
        }
        refused_at = 0;
    }
    CHECK(status == GITHOPPU_DONE && which > 4 && counted(&slot) == 41);
    githoppu_give_up(&slot, 1);
    CHECK(taken - given == before);
    __real_free(words);
}

/* Calls take no memory. */
static void test_calls_take_none(void) {
    githoppu_session *s[2];
    githoppu_words reply;
    long before;
    int i;
    CHECK(githoppu_open(64, s, 2) == GITHOPPU_DONE);
    before = taken;
    for (i = 0; i < 200; i++) {
        DO(githoppu_add(&s[i % 2], "sold", 1, &reply), GITHOPPU_SUM);
        DO(githoppu_get(&s[i % 2], "sold", &reply), GITHOPPU_DOC);
    }
    CHECK(taken == before);
    githoppu_give_up(s, 2);
    CHECK(githoppu_open_object(&counter, 64, s, 2) == GITHOPPU_DONE);
    before = taken;
    for (i = 0; i < 200; i++)
        CHECK(githoppu_ask(&s[i % 2], i % 3 == 0 ? COUNTER_LOOP : COUNTER_ADD, 1, 0, 0, &reply) == (i % 3 == 0 ? GITHOPPU_FAULTED : GITHOPPU_DONE));
    CHECK(taken == before && counted(s) == 133);
    githoppu_give_up(s, 2);
}

/* Refuses each block of the closing and of the recovery in turn. The closing is tried again with what is left. */
static void test_closing_refused(void) {
    githoppu_session *s[2];
    githoppu_closed *closed = NULL;
    githoppu_words reply;
    uint64_t count, *words;
    long which, before = taken - given;
    int status = GITHOPPU_NO_MEMORY;
    CHECK(githoppu_open(LINES, s, 2) == GITHOPPU_DONE);
    DO(githoppu_add(&s[0], "sold", 5, &reply), GITHOPPU_SUM);
    CHECK(githoppu_close_one(&s[1], &closed) == GITHOPPU_OTHERS);
    for (which = 1; status == GITHOPPU_NO_MEMORY; which++) {
        refused_at = taken + which;
        status = githoppu_close_one(&s[0], &closed);
        if (status == GITHOPPU_NO_MEMORY) {
            given++;
            CHECK(s[0] != NULL && closed == NULL);
            refused_at = 0;
            CHECK(githoppu_add(&s[0], "sold", 5, &reply) == GITHOPPU_OUT_OF_TURN);
        }
    }
    refused_at = 0;
    CHECK(status == GITHOPPU_DONE && which > 4 && s[0] == NULL);
    words = image_of(&closed, 0, &count);
    githoppu_give_up_closed(&closed);
    CHECK(taken - given == before);
    status = GITHOPPU_NO_MEMORY;
    for (which = 1; status == GITHOPPU_NO_MEMORY; which++) {
        s[0] = not_a_session(s);
        refused_at = taken + which;
        status = recover_one(words, count, s);
        if (status == GITHOPPU_NO_MEMORY) {
            CHECK(taken >= refused_at && taken - given == before + 1 && s[0] == not_a_session(s));
            given++;
        }
    }
    refused_at = 0;
    CHECK(status == GITHOPPU_DONE && which > 4);
    DO(githoppu_get(s, "sold", &reply), GITHOPPU_DOC);
    githoppu_give_up(s, 1);
    CHECK(taken - given == before);
    status = GITHOPPU_NO_MEMORY;
    for (which = 1; status == GITHOPPU_NO_MEMORY; which++) {
        uint64_t number = 7;
        refused_at = taken + which;
        status = githoppu_outcome(words, count, 0, &number, reply.word);
        if (status == GITHOPPU_NO_MEMORY) {
            CHECK(taken >= refused_at && taken - given == before + 1 && number == 7);
            given++;
        }
    }
    refused_at = 0;
    CHECK(status == GITHOPPU_DONE && which > 2 && taken - given == before);
    __real_free(words);
    /* a store that is not closed for want of memory is given up */
    CHECK(githoppu_open_queue(LINES, s, 1) == GITHOPPU_DONE);
    refused_at = taken + 1;
    CHECK(githoppu_close_one(s, &closed) == GITHOPPU_NO_MEMORY);
    given++;
    refused_at = 0;
    githoppu_give_up(s, 1);
    CHECK(taken - given == before);
}

int main(int count, char **words) {
    if (count > 1 && strcmp(words[1], "short") == 0)
        adds = texts = 300;
    test_versions();
    test_texts();
    test_sizes();
    test_documents();
    test_revisions();
    test_queue();
    test_wrong_turns();
    test_refused(githoppu_open, 1);
    test_refused(githoppu_open, 8);
    test_refused(githoppu_open_queue, 3);
    test_refused(open_counter, 1);
    test_refused(open_counter, 8);
    test_refused_looks();
    test_refused_recoveries();
    test_refused_programs();
    test_counter();
    test_counter_images();
    test_calls_take_none();
    test_closing_orders();
    test_closing_turns();
    test_refusals();
    test_outcome_refusals();
    test_outcomes();
    test_queue_image();
    test_checkpoints();
    test_checkpoint_refusals();
    test_turned_checkpoints();
    test_places_in_turn();
    test_catching_up();
    test_closing_refused();
    test_closing_threads();
    test_outcomes_after_crashes();
    test_adding_threads();
    test_queue_threads();
    puts("the C tests passed");
    return 0;
}
