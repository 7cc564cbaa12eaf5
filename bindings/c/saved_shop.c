/* A shop that is saved while it sells: four threads sell, and a fifth saves the running store to a file every 100 ms. The process is killed (SIGKILL) at some
 * moment, and the next one loads the file: everything that was answered before the last save is there, the sum is right, and each thread learns from the
 * image what its last sale was. So it goes 20 times.
 *
 *   saved_shop PATH       makes the file PATH, and removes it in the end */
#include "githoppu_file.h"
#include <pthread.h>
#include <signal.h>
#include <stdatomic.h>
#include <sys/wait.h>
#include <time.h>

enum { SELLERS = 4, KILLS = 20, LINES = 256 };

/* how many sales of each seller were answered, over all runs */
struct sales {
    uint64_t of[SELLERS];
};

struct seller {
    githoppu_session *session;
    atomic_ullong *answered;
};

static void must(int right, const char *what) {
    if (!right) {
        fprintf(stderr, "saved_shop: %s\n", what);
        exit(1);
    }
}

static void done(int status) { must(status == GITHOPPU_DONE, githoppu_status_text(status)); }

static void rest(long milliseconds) {
    struct timespec time = {milliseconds / 1000, milliseconds % 1000 * 1000000};
    nanosleep(&time, NULL);
}

static void *sell(void *at) {
    struct seller *s = (struct seller *)at;
    githoppu_words reply;
    for (;;) {
        done(githoppu_add(&s->session, "sold", 1, &reply));
        must(reply.word[0] == GITHOPPU_SUM, githoppu_reply_text(reply.word[0]));
        atomic_fetch_add(s->answered, 1);
    }
    return NULL;
}

/* What the last sales were, by the file: their numbers, of which none is below what was answered before the file was saved. */
static struct sales learned(const char *path, const struct sales *saved, githoppu_session **sessions) {
    struct sales last;
    githoppu_words reply;
    uint64_t *words, sum = 0, all = 0;
    size_t count, i;
    char text[1025];
    done(githoppu_load_words(path, &words, &count));
    for (i = 0; i < SELLERS; i++) {
        done(githoppu_outcome(words, count, i, &last.of[i], reply.word));
        must(last.of[i] >= saved->of[i], "a sale is lost that was answered before the save");
        must(last.of[i] == 0 || reply.word[0] == GITHOPPU_SUM, "the last sale has no sum");
        if (last.of[i] > 0 && (uint64_t)githoppu_sum(&reply) > sum)
            sum = (uint64_t)githoppu_sum(&reply);
        all += last.of[i];
    }
    done(githoppu_recover(words, count, sessions, SELLERS + 1));
    free(words);
    done(githoppu_get(&sessions[SELLERS], "sold", &reply));
    if (reply.word[0] == GITHOPPU_DOC)
        githoppu_document(&reply, text);
    else
        strcpy(text, "0");
    /* each sale added 1, and the greatest sum that was answered is that of the last sale */
    must(strtoull(text, NULL, 10) == all && sum == all, "the sum is not that of the sales");
    return last;
}

/* Sells and saves until it is killed. After each save it tells the sales that were answered before it. */
static void run(const char *path, const struct sales *saved, int tell) {
    githoppu_session *sessions[SELLERS + 1];
    struct seller sellers[SELLERS];
    static atomic_ullong answered[SELLERS];
    struct sales last = {{0}};
    int i;
    if (access(path, F_OK) == 0)
        last = learned(path, saved, sessions);
    else
        done(githoppu_open(LINES, sessions, SELLERS + 1));
    for (i = 0; i < SELLERS; i++) {
        pthread_t thread;
        atomic_init(&answered[i], last.of[i]);
        sellers[i].session = sessions[i];
        sellers[i].answered = &answered[i];
        must(pthread_create(&thread, NULL, sell, &sellers[i]) == 0, "no thread");
    }
    for (;;) {
        for (i = 0; i < SELLERS; i++)
            last.of[i] = atomic_load(&answered[i]);
        done(githoppu_save(path, &sessions[SELLERS]));
        must(write(tell, &last, sizeof last) == (ssize_t)sizeof last, "nobody listens");
        rest(100);
    }
}

int main(int count, char **words) {
    struct sales saved = {{0}}, told;
    int kills, status, ends[2];
    unsigned seed = 1, saves = 0;
    must(count == 2 && strlen(words[1]) < 4000, "saved_shop PATH");
    unlink(words[1]);
    for (kills = 0; kills < KILLS; kills++) {
        pid_t child;
        must(pipe(ends) == 0, "no pipe");
        child = fork();
        must(child >= 0, "no process");
        if (child == 0)
            run(words[1], &saved, ends[1]);
        close(ends[1]);
        /* the first one is killed only after its first save, however slow the machine is */
        if (saves == 0 && read(ends[0], &told, sizeof told) == (ssize_t)sizeof told) {
            saved = told;
            saves++;
        }
        seed = seed * 1103515245u + 12345u;
        rest(50 + (long)(seed >> 16) % 200);
        kill(child, SIGKILL);
        must(waitpid(child, &status, 0) == child && WIFSIGNALED(status) && WTERMSIG(status) == SIGKILL, "a shop ended by itself");
        for (; read(ends[0], &told, sizeof told) == (ssize_t)sizeof told; saves++)
            saved = told;
        close(ends[0]);
    }
    if (access(words[1], F_OK) == 0) {
        githoppu_session *sessions[SELLERS + 1];
        learned(words[1], &saved, sessions);
        /* a save that was killed left its new file; this one removes it */
        done(githoppu_save(words[1], &sessions[SELLERS]));
        githoppu_give_up(sessions, SELLERS + 1);
    }
    must(saves > 0, "nothing was saved");
    unlink(words[1]);
    printf("killed %d times: no sale is lost that was answered before a save\n", kills);
    fprintf(stderr, "saves %u, sales %llu %llu %llu %llu\n", saves, (unsigned long long)saved.of[0], (unsigned long long)saved.of[1],
            (unsigned long long)saved.of[2], (unsigned long long)saved.of[3]);
    return 0;
}
