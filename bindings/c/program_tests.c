/* Tests of the data structures in C of examples/programs, which run as programs of BPF words in the library and natively here, side by side.
 *
 *   program_tests PATH [short]       makes the file PATH, and removes it in the end
 *
 * Of each structure: random operations by one session; threads that are killed (SIGKILL) while another one saves to a file; eight threads that stop in the
 * middle of updates, and images by choice. What was answered is then done natively by one thread in the order of the places, and each reply and each word of
 * the state have to be the same. The Makefile makes the headers of the programs, and compiles each natively with a name of its own for githoppu_run. */
#define _DEFAULT_SOURCE
/* on a busy machine a thread may be off its processor for long in the middle of a call */
#define GITHOPPU_PATIENCE_MS 60000
#define GITHOPPU_ROUNDS 2000000000
#include "githoppu_file.h"
#include "hash_map.h"
#include "lru_cache.h"
#include "priority_queue.h"
#include "first_form.h"
#include "second_form.h"
#include "work_queue.h"
#include <pthread.h>
#include <signal.h>
#include <stdatomic.h>
#include <sys/mman.h>
#include <sys/wait.h>

enum { LINES = 1024, STATE = 8 * (LINES - 1), HEAD = 8, OBJECT = 8 * 146, REGION = 8 * (146 + LINES), MOST_THREADS = 8, MOST_CALLS = 400000 };

#define CHECK(test)                                                       \
    do {                                                                  \
        if (!(test)) {                                                    \
            fprintf(stderr, "%s:%d: %s\n", __FILE__, __LINE__, #test);    \
            exit(1);                                                      \
        }                                                                 \
    } while (0)

/* Under a tool that slows all down, `program_tests PATH short` makes fewer rounds. */
static int operations = 100000, kills = 4, crashes = 3;
static unsigned calls = 3000; /* of each thread before a crash */
/* A tool that looks for races does not see into the library, by which a thread that closes hands on its session. */
static int closes_apart = 1;

/* ---- the structures ---- */

typedef uint64_t native_run(const uint64_t *request, uint64_t *reply, void *state, uint64_t size);
native_run hash_map_run, lru_cache_run, priority_queue_run, work_queue_run;

typedef struct structure {
    const char *name;
    const githoppu_program *program;
    native_run *run;
    void (*draw)(uint64_t *seed, uint64_t request[4]);
    void (*look)(githoppu_session **session);
    int has_pointers; /* into the state, which are the library's only where the native state stands at the same address */
} structure;

/* A further number of a sequence (xorshift), below a limit. */
static uint64_t below(uint64_t *seed, uint64_t limit) {
    *seed ^= *seed << 13;
    *seed ^= *seed >> 7;
    *seed ^= *seed << 17;
    return (*seed >> 11) % limit;
}

static uint64_t one_of(uint64_t *seed, const uint64_t *kinds, uint64_t count) { return kinds[below(seed, count)]; }

static void draw_map(uint64_t *seed, uint64_t request[4]) {
    static const uint64_t kinds[] = {HASH_MAP_PUT, HASH_MAP_PUT, HASH_MAP_ADD, HASH_MAP_DEL, HASH_MAP_GET, HASH_MAP_COUNT};
    request[0] = one_of(seed, kinds, 6);
    request[1] = below(seed, 900) * 0x9E3779B97F4A7C15u;
    request[2] = below(seed, 1000);
    request[3] = 0;
}

static void draw_cache(uint64_t *seed, uint64_t request[4]) {
    static const uint64_t kinds[] = {LRU_CACHE_PUT, LRU_CACHE_USE, LRU_CACHE_USE, LRU_CACHE_PEEK, LRU_CACHE_STATS};
    request[0] = one_of(seed, kinds, 5);
    request[1] = below(seed, 260) * 40503;
    request[2] = *seed;
    request[3] = 0;
}

static void draw_priorities(uint64_t *seed, uint64_t request[4]) {
    static const uint64_t kinds[] = {PRIORITY_QUEUE_PUSH, PRIORITY_QUEUE_PUSH, PRIORITY_QUEUE_PUSH, PRIORITY_QUEUE_POP, PRIORITY_QUEUE_POP,
                                     PRIORITY_QUEUE_PEEK, PRIORITY_QUEUE_LENGTH};
    request[0] = one_of(seed, kinds, 7);
    request[1] = below(seed, 50) - 25;
    request[2] = *seed;
    request[3] = 0;
}

static void draw_tasks(uint64_t *seed, uint64_t request[4]) {
    static const uint64_t kinds[] = {WORK_QUEUE_ADD, WORK_QUEUE_ADD, WORK_QUEUE_TAKE, WORK_QUEUE_FINISH, WORK_QUEUE_FINISH, WORK_QUEUE_LOOK, WORK_QUEUE_COUNT};
    request[0] = one_of(seed, kinds, 7);
    request[1] = request[0] == WORK_QUEUE_TAKE || request[0] == WORK_QUEUE_FINISH ? below(seed, 4) : below(seed, 300);
    request[2] = below(seed, 300);
    request[3] = below(seed, 300) | below(seed, 10) << 56;
}

static uint64_t asked(githoppu_session **session, uint64_t kind, uint64_t first, uint64_t returned, uint64_t at) {
    githoppu_words reply;
    CHECK(githoppu_ask(session, kind, first, 0, 0, &reply) == GITHOPPU_DONE);
    return githoppu_returned(&reply) == returned ? githoppu_replied(&reply)[at] : UINT64_MAX;
}

/* What holds of each structure in itself, by its operations. */
static void look_at_map(githoppu_session **session) {
    uint64_t key, found = 0;
    for (key = 0; key < 900; key++)
        found += asked(session, HASH_MAP_GET, key * 0x9E3779B97F4A7C15u, HASH_MAP_VALUE, 0) != UINT64_MAX;
    CHECK(asked(session, HASH_MAP_COUNT, 0, HASH_MAP_VALUE, 0) == found && found <= 768);
}

static void look_at_cache(githoppu_session **session) {
    uint64_t key, found = 0;
    for (key = 0; key < 260; key++)
        found += asked(session, LRU_CACHE_PEEK, key * 40503, LRU_CACHE_HIT, 1) != UINT64_MAX;
    CHECK(asked(session, LRU_CACHE_STATS, 0, LRU_CACHE_NUMBERS, 2) == found && found <= 200);
}

static void look_at_priorities(githoppu_session **session) {
    uint64_t left = asked(session, PRIORITY_QUEUE_LENGTH, 0, PRIORITY_QUEUE_NUMBER, 0);
    int64_t last = INT64_MIN;
    for (; left > 0; left--) {
        int64_t priority = (int64_t)asked(session, PRIORITY_QUEUE_POP, 0, PRIORITY_QUEUE_ITEM, 0);
        CHECK(priority >= last && priority < 25);
        last = priority;
    }
    CHECK(asked(session, PRIORITY_QUEUE_POP, 0, PRIORITY_QUEUE_EMPTY, 0) == 0);
}

static void look_at_tasks(githoppu_session **session) {
    uint64_t task, found = 0;
    for (task = 0; task < 300; task++)
        found += asked(session, WORK_QUEUE_LOOK, task, WORK_QUEUE_TASK, 1) != UINT64_MAX;
    CHECK(asked(session, WORK_QUEUE_COUNT, 0, WORK_QUEUE_NUMBERS, 0) == found && found <= 256);
}

static const structure structures[] = {
    {"hash_map", &hash_map, hash_map_run, draw_map, look_at_map, 0},
    {"lru_cache", &lru_cache, lru_cache_run, draw_cache, look_at_cache, 0},
    {"priority_queue", &priority_queue, priority_queue_run, draw_priorities, look_at_priorities, 0},
    {"work_queue", &work_queue, work_queue_run, draw_tasks, look_at_tasks, 1},
};
enum { STRUCTURES = sizeof structures / sizeof *structures };

/* ---- the native state ---- */

static uint64_t *native;
static int is_placed;

/* The native state stands at the address that it has in a run of the library, where that is free here. Else it is said that states with pointers into
 * themselves are not compared. */
static void place_native(void) {
    void *at = mmap((void *)((uintptr_t)1 << 32), STATE * 8, PROT_READ | PROT_WRITE, MAP_PRIVATE | MAP_ANONYMOUS, -1, 0);
    CHECK(at != MAP_FAILED);
    native = (uint64_t *)at;
    is_placed = (uintptr_t)at == (uintptr_t)1 << 32;
    if (!is_placed)
        fputs("the address of the state is not free here: states with pointers are not compared\n", stderr);
}

/* Does an operation natively: the reply as the library gives it. */
static void run_native(const structure *of, const uint64_t request[144], githoppu_words *reply) {
    memset(reply, 0, sizeof *reply);
    reply->word[0] = GITHOPPU_RAN;
    reply->word[1] = of->run(request, reply->word + 8, native, STATE * 8);
}

static int is_native(const structure *of, const uint64_t *region) {
    return (of->has_pointers && !is_placed) || memcmp(native, region + OBJECT + 8, STATE * 8) == 0;
}

/* ---- one session: random operations, and words of all kinds ---- */

static uint64_t *checkpoint_of(githoppu_session **session, uint64_t *count) {
    uint64_t *words;
    CHECK(githoppu_checkpoint_size(session, count) == GITHOPPU_DONE && *count == HEAD + REGION);
    words = (uint64_t *)malloc(*count * sizeof *words);
    CHECK(words != NULL && githoppu_checkpoint_into(session, words, *count) == GITHOPPU_DONE);
    return words;
}

static void test_random_operations(const structure *of) {
    githoppu_session *session;
    githoppu_words request, reply, wanted;
    uint64_t seed = 88172645463325252u, count, fingerprint;
    int i, k;
    memset(native, 0, STATE * 8);
    CHECK(githoppu_open_object(of->program, LINES, &session, 1) == GITHOPPU_DONE);
    CHECK(githoppu_program_fingerprint(of->program->words, of->program->count, of->program->instructions, of->program->fuel, &fingerprint) == GITHOPPU_DONE);
    for (i = 0; i < operations; i++) {
        memset(&request, 0, sizeof request);
        of->draw(&seed, request.word);
        if (i % 20 == 0)
            request.word[0] = i % 40 == 0 ? below(&seed, 32) : below(&seed, UINT64_MAX) * 4;
        for (k = 4; k < 144 && i % 20 == 0; k++)
            request.word[k] = below(&seed, UINT64_MAX) * 8191;
        run_native(of, request.word, &wanted);
        CHECK(githoppu_request(&session, request.word, 144, &reply) == GITHOPPU_DONE);
        CHECK(memcmp(&reply, &wanted, sizeof reply) == 0);
        if (i % 5000 == 0 || i == operations - 1) {
            uint64_t *words = checkpoint_of(&session, &count);
            CHECK(words[2] == 3 && words[HEAD + OBJECT] == fingerprint && is_native(of, words + HEAD));
            free(words);
        }
    }
    of->look(&session);
    githoppu_give_up(&session, 1);
}

/* ---- threads whose calls are noted, with the places of their answers ---- */

/* A call that was answered: its place, and a digest of the reply. */
typedef struct noted {
    uint64_t place, request[4], reply;
} noted;

/* What a thread did: it begins call number `begun`, counted from 1, before it is answered as number `answered`. */
typedef struct notes {
    atomic_uint begun, answered;
    uint64_t request[4];
    noted call[MOST_CALLS];
} notes;

static notes *all_notes;

static uint64_t digest_of(const githoppu_words *reply) {
    uint64_t so_far = 14695981039346656037u;
    int i;
    for (i = 0; i < 144; i++)
        so_far = (so_far ^ reply->word[i]) * 0x9E3779B97F4A7C15u, so_far ^= so_far >> 29;
    return so_far;
}

typedef struct worker {
    const structure *of;
    githoppu_session *session;
    githoppu_closed *closed;
    notes *into;
    uint64_t seed;
    unsigned calls;
} worker;

static void begin_call(worker *w, uint64_t request[4]) {
    w->of->draw(&w->seed, request);
    memcpy(w->into->request, request, sizeof w->into->request);
    atomic_store(&w->into->begun, atomic_load(&w->into->answered) + 1);
}

static void note_answer(worker *w, const uint64_t request[4], const githoppu_words *reply) {
    unsigned number = atomic_load(&w->into->answered);
    noted *made = &w->into->call[number];
    made->place = githoppu_place(&w->session);
    memcpy(made->request, request, sizeof made->request);
    made->reply = digest_of(reply);
    atomic_store(&w->into->answered, number + 1);
}

static void *work(void *at) {
    worker *w = (worker *)at;
    githoppu_words reply;
    uint64_t request[4];
    unsigned i;
    for (i = 0; i < w->calls; i++) {
        begin_call(w, request);
        CHECK(githoppu_request(&w->session, request, 4, &reply) == GITHOPPU_DONE);
        note_answer(w, request, &reply);
    }
    return NULL;
}

static int is_update(const uint64_t request[4]) { return request[0] % 2 == 0; }

/* What of a life is kept in an image: the life's first place and the image's, how many updates each session had made before it, and how many are kept. */
typedef struct life {
    const structure *of;
    int threads;
    uint64_t from, to, before[MOST_THREADS], kept[MOST_THREADS];
} life;

static int by_place(const void *one, const void *other) {
    const noted *a = *(const noted *const *)one, *b = *(const noted *const *)other;
    if (a->place != b->place)
        return a->place < b->place ? -1 : 1;
    /* a read at a place comes after the update that led there */
    return is_update(b->request) - is_update(a->request);
}

/* Calls in the order of their places: those that were noted, and updates that were kept and not answered, whose places are those that are missing. */
typedef struct order {
    const structure *of;
    noted **call;
    size_t count;
    uint64_t to;
    noted left[MOST_THREADS];
    int lefts, is_done[MOST_THREADS];
    const uint64_t *region;
} order;

static int follow(order *o, size_t at, uint64_t place);

/* One of the updates that were not answered stands at the missing place; each is tried. */
static int fill_in(order *o, size_t at, uint64_t place) {
    uint64_t *state = (uint64_t *)malloc(STATE * 8);
    githoppu_words reply;
    int i, found = 0;
    CHECK(state != NULL);
    memcpy(state, native, STATE * 8);
    for (i = 0; i < o->lefts && !found; i++)
        if (!o->is_done[i]) {
            uint64_t request[144] = {0};
            memcpy(request, o->left[i].request, sizeof o->left[i].request);
            run_native(o->of, request, &reply);
            o->is_done[i] = 1;
            found = follow(o, at, place + 1);
            o->is_done[i] = 0;
            if (!found)
                memcpy(native, state, STATE * 8);
        }
    free(state);
    return found;
}

/* Whether the calls from one on, of which the first update leads behind this place, are answered natively as they were, and leave the image's state. */
static int follow(order *o, size_t at, uint64_t place) {
    for (; at < o->count; at++) {
        uint64_t request[144] = {0};
        githoppu_words reply;
        if (o->call[at]->place > place + (uint64_t)is_update(o->call[at]->request))
            return fill_in(o, at, place);
        CHECK(o->call[at]->place == place + (uint64_t)is_update(o->call[at]->request));
        memcpy(request, o->call[at]->request, sizeof o->call[at]->request);
        run_native(o->of, request, &reply);
        if (digest_of(&reply) != o->call[at]->reply)
            return 0;
        place += (uint64_t)is_update(o->call[at]->request);
    }
    if (place < o->to)
        return fill_in(o, at, place);
    return place == o->to && is_native(o->of, o->region);
}

/* Makes the native state the one after the calls of a life that an image keeps. Whether each of their replies, and each word of the image's state, is that of one
 * thread that does them in the order of their places. Nothing that was answered below the image's place is missing. */
static int is_in_order(const life *of, const uint64_t *region) {
    order o;
    size_t total = 0;
    int t, found;
    memset(&o, 0, sizeof o);
    for (t = 0; t < of->threads; t++)
        total += atomic_load(&all_notes[t].answered);
    o.of = of->of, o.to = of->to, o.region = region;
    o.call = (noted **)malloc((total + 1) * sizeof *o.call);
    CHECK(o.call != NULL);
    for (t = 0; t < of->threads; t++) {
        notes *by = &all_notes[t];
        unsigned i, answered = atomic_load(&by->answered);
        uint64_t updates = 0;
        for (i = 0; i < answered; i++)
            if (by->call[i].place <= of->to) {
                o.call[o.count++] = &by->call[i];
                updates += (uint64_t)is_update(by->call[i].request);
            }
        CHECK(of->kept[t] == of->before[t] + updates || (of->kept[t] == of->before[t] + updates + 1 && atomic_load(&by->begun) > answered));
        if (of->kept[t] > of->before[t] + updates) {
            memcpy(o.left[o.lefts].request, by->request, sizeof by->request);
            CHECK(is_update(by->request));
            o.lefts++;
        }
    }
    qsort(o.call, o.count, sizeof *o.call, by_place);
    found = follow(&o, 0, of->from);
    free(o.call);
    return found;
}

/* What an image says of a life, and that it is so. */
static void end_life(life *of, const uint64_t *words, uint64_t count) {
    uint64_t replicas = 2 * words[3];
    int t;
    githoppu_words reply;
    of->to = words[5] / replicas;
    for (t = 0; t < of->threads; t++)
        CHECK(githoppu_outcome(words, count, (uint64_t)t, &of->kept[t], reply.word) == GITHOPPU_DONE);
    CHECK(is_in_order(of, words + HEAD + (words[1] == 1 ? words[5] % replicas * REGION : 0)));
}

static void clear_notes(int threads) {
    int t;
    for (t = 0; t < threads; t++) {
        atomic_store(&all_notes[t].begun, 0);
        atomic_store(&all_notes[t].answered, 0);
    }
}

static void start(worker *workers, pthread_t *made, const structure *of, githoppu_session **sessions, int threads, unsigned calls, uint64_t seed,
                  void *(*how)(void *)) {
    int t;
    clear_notes(threads);
    for (t = 0; t < threads; t++) {
        worker fresh = {of, NULL, NULL, &all_notes[t], 0, calls};
        workers[t] = fresh;
        workers[t].session = sessions[t];
        workers[t].seed = seed * 1000003u + (uint64_t)t * 7919u + 1;
        CHECK(pthread_create(&made[t], NULL, how, &workers[t]) == 0);
    }
}

/* ---- kills: four threads work, a fifth session saves ---- */

enum { THREADS = 4 };

/* What a process that is killed told: how many saves it made, and what of each thread was answered before the last one began. */
typedef struct told {
    atomic_uint saves;
    atomic_uint answered[THREADS];
} told;

static told *tells;

static void live(const structure *of, const char *path, uint64_t seed) {
    githoppu_session *sessions[THREADS + 1];
    worker workers[THREADS];
    pthread_t made[THREADS];
    unsigned before[THREADS];
    int t, status = access(path, F_OK) == 0 ? githoppu_load_object(path, of->program, NULL, sessions, THREADS + 1)
                                            : githoppu_open_object(of->program, LINES, sessions, THREADS + 1);
    CHECK(status == GITHOPPU_DONE);
    start(workers, made, of, sessions, THREADS, MOST_CALLS, seed, work);
    for (;;) {
        struct timespec rest = {0, 5000000};
        for (t = 0; t < THREADS; t++)
            before[t] = atomic_load(&all_notes[t].answered);
        CHECK(githoppu_save(path, &sessions[THREADS]) == GITHOPPU_DONE);
        for (t = 0; t < THREADS; t++)
            atomic_store(&tells->answered[t], before[t]);
        atomic_fetch_add(&tells->saves, 1);
        nanosleep(&rest, NULL);
    }
}

/* How many of a thread's first calls are updates. */
static uint64_t updates_of(const notes *by, unsigned calls) {
    uint64_t updates = 0;
    unsigned i;
    for (i = 0; i < calls; i++)
        updates += (uint64_t)is_update(by->call[i].request);
    return updates;
}

/* One process that works and saves, and is killed at some moment after its first save. */
static void live_and_be_killed(const structure *of, const char *path, int number) {
    struct timespec rest = {0, 60000000 + number * 37000000 % 120000000};
    int t, status = 0;
    pid_t child, ended = 0;
    clear_notes(THREADS);
    atomic_store(&tells->saves, 0);
    for (t = 0; t < THREADS; t++)
        atomic_store(&tells->answered[t], 0);
    child = fork();
    CHECK(child >= 0);
    if (child == 0) {
        /* where nobody is left to kill it */
        alarm(600);
        live(of, path, (uint64_t)number + 1);
    }
    while (atomic_load(&tells->saves) == 0 && ended == 0) {
        nanosleep(&rest, NULL);
        ended = waitpid(child, &status, WNOHANG);
    }
    CHECK(ended == 0);
    nanosleep(&rest, NULL);
    kill(child, SIGKILL);
    CHECK(waitpid(child, &status, 0) == child && WIFSIGNALED(status) && WTERMSIG(status) == SIGKILL);
}

static void test_kills(const structure *of, const char *path) {
    life of_all;
    githoppu_session *session;
    unsigned long long answers = 0;
    unsigned saves = 0;
    int number, t;
    memset(&of_all, 0, sizeof of_all);
    of_all.of = of, of_all.threads = THREADS;
    memset(native, 0, STATE * 8);
    unlink(path);
    for (number = 0; number < kills; number++) {
        uint64_t *words;
        size_t count;
        live_and_be_killed(of, path, number);
        CHECK(githoppu_load_words(path, &words, &count) == GITHOPPU_DONE);
        end_life(&of_all, words, count);
        for (t = 0; t < THREADS; t++) {
            /* what was answered before the last save that was told is kept */
            CHECK(of_all.kept[t] - of_all.before[t] >= updates_of(&all_notes[t], atomic_load(&tells->answered[t])));
            answers += atomic_load(&all_notes[t].answered);
            of_all.before[t] = of_all.kept[t];
        }
        of_all.from = of_all.to;
        saves += atomic_load(&tells->saves);
        free(words);
    }
    CHECK(githoppu_load_object(path, of->program, NULL, &session, 1) == GITHOPPU_DONE);
    of->look(&session);
    /* a save that was killed left its new file; this one removes it */
    CHECK(githoppu_save(path, &session) == GITHOPPU_DONE);
    githoppu_give_up(&session, 1);
    unlink(path);
    fprintf(stderr, "%s: %d kills, %u saves, %llu calls, %llu updates kept\n", of->name, kills, saves, answers, (unsigned long long)of_all.to);
}

/* ---- crashes: eight threads stop in the middle of updates, and all is closed ---- */

static void *work_until_pending(void *at) {
    worker *w = (worker *)at;
    githoppu_words request, reply;
    uint64_t words[4];
    int status = GITHOPPU_DONE;
    unsigned i;
    for (i = 0; i < w->calls && status == GITHOPPU_DONE; i++) {
        memset(&request, 0, sizeof request);
        begin_call(w, words);
        memcpy(request.word, words, sizeof words);
        do {
            githoppu_session_handle handle;
            handle.at = w->session;
            status = githoppu_call(handle, request.word, reply.word, 1, &w->session);
            if (status != GITHOPPU_DONE && status != GITHOPPU_PENDING)
                GITHOPPU_YIELD();
        } while (status == GITHOPPU_AGAIN || status == GITHOPPU_FULL);
        if (status == GITHOPPU_DONE)
            note_answer(w, words, &reply);
        /* most are finished, and some are left as they are */
        if (status == GITHOPPU_PENDING && i < w->calls / 4) {
            status = githoppu_end(&w->session, &reply);
            CHECK(status == GITHOPPU_DONE);
            note_answer(w, words, &reply);
        }
        CHECK(status == GITHOPPU_DONE || status == GITHOPPU_PENDING);
    }
    if (!closes_apart)
        return NULL;
    status = githoppu_close_one(&w->session, &w->closed);
    CHECK(status == GITHOPPU_OTHERS || status == GITHOPPU_DONE);
    return NULL;
}

static uint64_t *image_of(githoppu_closed **closed, uint64_t choice, uint64_t *count) {
    uint64_t *words;
    CHECK(githoppu_image_size(closed, count) == GITHOPPU_DONE);
    words = (uint64_t *)malloc(*count * sizeof *words);
    CHECK(words != NULL && githoppu_image_into(closed, choice, words, *count) == GITHOPPU_DONE);
    return words;
}

static void test_crashes(const structure *of) {
    int round, t, left = 0;
    /* a call is seldom left pending where few threads run at once: then there are more rounds */
    for (round = 0; round < crashes || (left == 0 && round < 4 * crashes); round++) {
        githoppu_session *sessions[MOST_THREADS];
        githoppu_closed *closed = NULL;
        worker workers[MOST_THREADS];
        pthread_t made[MOST_THREADS];
        uint64_t choice, count;
        CHECK(githoppu_open_object(of->program, LINES, sessions, MOST_THREADS) == GITHOPPU_DONE);
        start(workers, made, of, sessions, MOST_THREADS, calls, (uint64_t)round + 77, work_until_pending);
        for (t = 0; t < MOST_THREADS; t++) {
            CHECK(pthread_join(made[t], NULL) == 0);
            if (workers[t].closed != NULL)
                closed = workers[t].closed;
            left += atomic_load(&all_notes[t].begun) > atomic_load(&all_notes[t].answered);
        }
        for (t = 0; t < MOST_THREADS && !closes_apart; t++)
            sessions[t] = workers[t].session;
        CHECK(closes_apart || githoppu_close_all(sessions, MOST_THREADS, &closed) == GITHOPPU_DONE);
        CHECK(closed != NULL);
        for (choice = 0; choice < 5; choice++) {
            uint64_t *words = image_of(&closed, choice, &count);
            life all;
            memset(&all, 0, sizeof all);
            all.of = of, all.threads = MOST_THREADS;
            memset(native, 0, STATE * 8);
            end_life(&all, words, count);
            CHECK(githoppu_recover_object(of->program, NULL, words, count, sessions, 1 + choice) == GITHOPPU_DONE);
            of->look(&sessions[choice]);
            githoppu_give_up(sessions, 1 + choice);
            /* a false reply is found */
            memset(native, 0, STATE * 8);
            all_notes[choice].call[0].reply ^= 1;
            CHECK(!is_in_order(&all, words + HEAD + words[5] % (2 * words[3]) * REGION));
            all_notes[choice].call[0].reply ^= 1;
            free(words);
        }
        githoppu_give_up_closed(&closed);
    }
    fprintf(stderr, "%s: %d crashes by 5 choices, %d calls were left pending\n", of->name, round, left);
}

/* ---- images of others ---- */

static void test_other_images(const structure *of, const structure *other) {
    githoppu_session *session, *store;
    uint64_t count, *words, *documents, all;
    githoppu_program slower = *of->program;
    CHECK(githoppu_open_object(of->program, LINES, &session, 1) == GITHOPPU_DONE && githoppu_open(LINES, &store, 1) == GITHOPPU_DONE);
    words = checkpoint_of(&session, &count);
    documents = checkpoint_of(&store, &all);
    githoppu_give_up(&session, 1);
    githoppu_give_up(&store, 1);
    CHECK(githoppu_recover_object(other->program, NULL, words, count, &session, 1) == GITHOPPU_IMAGE_VERSION && session == NULL);
    /* the same words with another fuel are another program */
    slower.fuel++;
    CHECK(githoppu_recover_object(&slower, NULL, words, count, &session, 1) == GITHOPPU_IMAGE_VERSION);
    CHECK(githoppu_recover_object(&slower, other->program, words, count, &session, 1) == GITHOPPU_IMAGE_VERSION);
    CHECK(githoppu_recover_object(&slower, of->program, words, count, &session, 1) == GITHOPPU_DONE);
    githoppu_give_up(&session, 1);
    CHECK(githoppu_recover_object(of->program, NULL, documents, all, &session, 1) == GITHOPPU_OTHER_KIND);
    CHECK(githoppu_recover(words, count, &session, 1) == GITHOPPU_OTHER_KIND && githoppu_recover_queue(words, count, &session, 1) == GITHOPPU_OTHER_KIND);
    CHECK(githoppu_recover_object(of->program, NULL, words, count - 1, &session, 1) == GITHOPPU_IMAGE_SIZE);
    CHECK(githoppu_recover_object(of->program, NULL, words, 7, &session, 1) == GITHOPPU_NOT_AN_IMAGE);
    CHECK(githoppu_recover_object(of->program, NULL, words, count, &session, 9) == GITHOPPU_BAD_SIZE);
    free(words);
    free(documents);
}

/* ---- a program that takes over what another one left ---- */

static void sums_are(githoppu_session **session, uint64_t kind, uint64_t sum, uint64_t of) {
    githoppu_words reply;
    CHECK(githoppu_ask(session, kind, 0, 0, 0, &reply) == GITHOPPU_DONE && githoppu_replied(&reply)[0] == sum && githoppu_replied(&reply)[1] == of);
}

static void test_upgrades(void) {
    githoppu_session *session;
    githoppu_words reply;
    githoppu_program starved = second_form;
    uint64_t count, *words, i;
    CHECK(githoppu_open_object(&first_form, LINES, &session, 1) == GITHOPPU_DONE);
    for (i = 1; i <= 10; i++)
        CHECK(githoppu_ask(&session, FIRST_FORM_ADD, i, 0, 0, &reply) == GITHOPPU_DONE);
    words = checkpoint_of(&session, &count);
    githoppu_give_up(&session, 1);
    CHECK(githoppu_recover_object(&second_form, NULL, words, count, &session, 1) == GITHOPPU_IMAGE_VERSION);
    CHECK(githoppu_recover_object(&second_form, &first_form, words, count, &session, 1) == GITHOPPU_DONE);
    sums_are(&session, SECOND_FORM_SUM, 55, 10);
    CHECK(githoppu_ask(&session, SECOND_FORM_ADD, 7, 0, 0, &reply) == GITHOPPU_DONE);
    CHECK(githoppu_ask(&session, GITHOPPU_UPGRADE, 1, 0, 0, &reply) == GITHOPPU_DONE);
    sums_are(&session, SECOND_FORM_SUM, 62, 11);
    sums_are(&session, SECOND_FORM_GREATEST, 7, 0);
    githoppu_give_up(&session, 1);
    /* an upgrade without the fuel for it leaves the state, which a program of the first form then reads as it was */
    starved.fuel = 9;
    CHECK(first_form.fuel != starved.fuel && githoppu_recover_object(&starved, &first_form, words, count, &session, 1) == GITHOPPU_DONE);
    free(words);
    words = checkpoint_of(&session, &count);
    githoppu_give_up(&session, 1);
    CHECK(words[HEAD + OBJECT + 8] == 10 && words[HEAD + OBJECT + 9] == 55);
    CHECK(githoppu_recover_object(&first_form, &starved, words, count, &session, 1) == GITHOPPU_DONE);
    sums_are(&session, FIRST_FORM_SUM, 55, 10);
    free(words);
    githoppu_give_up(&session, 1);
}

int main(int count, char **words) {
    int i, is_short = count > 2 && strcmp(words[2], "short") == 0;
    CHECK(count >= 2);
    if (is_short)
        operations = 3000, kills = 0, crashes = 1, calls = 300, closes_apart = 0;
    place_native();
    all_notes = (notes *)mmap(NULL, sizeof *all_notes * MOST_THREADS, PROT_READ | PROT_WRITE, MAP_SHARED | MAP_ANONYMOUS | MAP_NORESERVE, -1, 0);
    tells = (told *)mmap(NULL, sizeof *tells, PROT_READ | PROT_WRITE, MAP_SHARED | MAP_ANONYMOUS, -1, 0);
    CHECK(all_notes != MAP_FAILED && tells != MAP_FAILED);
    test_upgrades();
    for (i = 0; i < STRUCTURES; i++) {
        test_random_operations(&structures[i]);
        test_other_images(&structures[i], &structures[(i + 1) % STRUCTURES]);
        test_crashes(&structures[i]);
        if (kills > 0)
            test_kills(&structures[i], words[1]);
    }
    printf("%d data structures in C: each reply and each word of the state as natively, over threads, kills and crashes\n", STRUCTURES);
    return 0;
}
