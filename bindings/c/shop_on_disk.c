/* A shop on a disk: four threads sell, each sale is answered when it is on the disk, and the process is killed (SIGKILL) at some moment. The next one opens the
 * same file: every sale that was answered is there, the sum is right, and each thread learns what its last sale was, also where it was killed before the
 * answer came. So it goes 20 times.
 *
 *   shop_on_disk PATH       makes the file PATH, and removes it in the end */
#define _DEFAULT_SOURCE /* of MAP_ANONYMOUS */
#include "githoppu_store.h"
#include <pthread.h>
#include <signal.h>
#include <stdatomic.h>
#include <stdio.h>
#include <stdlib.h>
#include <sys/mman.h>
#include <sys/wait.h>
#include <time.h>
#include <unistd.h>

enum { SELLERS = 4, KILLS = 20 };

/* How many sales of each seller were sent, and were answered, over all runs: it is in memory that outlives a run. */
struct sales {
    atomic_ullong sent[SELLERS], answered[SELLERS], learned, openings;
};

static struct sales *sales;
static githoppu_store *store;

static void must(int right, const char *what) {
    if (!right) {
        fprintf(stderr, "shop_on_disk: %s\n", what);
        exit(1);
    }
}

/* Ends the shop where a call was not answered, and says why. */
static void done(int status) {
    char why[512] = "";
    if (status != GITHOPPU_DONE && store != NULL)
        githoppu_store_why(store, why, sizeof why);
    if (why[0] != 0)
        fprintf(stderr, "shop_on_disk: %s\n", why);
    must(status == GITHOPPU_DONE, githoppu_store_text(status));
}

static void rest(long milliseconds) {
    struct timespec time = {milliseconds / 1000, milliseconds % 1000 * 1000000};
    nanosleep(&time, NULL);
}

static void *sell(void *at) {
    unsigned seller = *(const unsigned *)at;
    githoppu_words reply;
    for (;;) {
        sales->sent[seller]++;
        done(githoppu_store_add(store, seller, "sold", 1, &reply));
        must(reply.word[0] == GITHOPPU_SUM, githoppu_reply_text(reply.word[0]));
        sales->answered[seller]++;
    }
    return NULL;
}

/* What each seller learns of its last sale. */
static void learn(void) {
    githoppu_words reply;
    uint64_t number, all = 0, greatest = 0;
    unsigned seller;
    char text[1025] = "0";
    for (seller = 0; seller < SELLERS; seller++) {
        done(githoppu_store_outcome(store, seller, &number, &reply));
        must(number >= sales->answered[seller], "a sale is lost that was answered");
        must(number <= sales->sent[seller], "there is a sale that nobody made");
        must(number == 0 || reply.word[0] == GITHOPPU_SUM, "the last sale has no sum");
        if (number > 0 && (uint64_t)githoppu_sum(&reply) > greatest)
            greatest = (uint64_t)githoppu_sum(&reply);
        sales->learned += number - sales->answered[seller];
        sales->sent[seller] = number;
        sales->answered[seller] = number;
        all += number;
    }
    done(githoppu_store_get(store, "sold", &reply));
    if (reply.word[0] == GITHOPPU_DOC)
        githoppu_document(&reply, text);
    /* each sale added 1, and the greatest sum that was answered is that of the last sale */
    must(strtoull(text, NULL, 10) == all && greatest == all, "the sum is not that of the sales");
}

/* Sells until it is killed. */
static void run(const char *path) {
    static unsigned sellers[SELLERS] = {0, 1, 2, 3};
    githoppu_store_options options = {.lines = 256, .gather_us = 300};
    pthread_t thread;
    unsigned seller;
    done(githoppu_store_open(path, &options, &store));
    learn();
    sales->openings++;
    for (seller = 0; seller < SELLERS; seller++)
        must(pthread_create(&thread, NULL, sell, &sellers[seller]) == 0, "no thread");
    for (;;)
        pause();
}

int main(int count, char **words) {
    char left[4096];
    unsigned seed = 1;
    int kills, status;
    must(count == 2 && strlen(words[1]) < 4000, "shop_on_disk PATH");
    sales = (struct sales *)mmap(NULL, sizeof *sales, PROT_READ | PROT_WRITE, MAP_SHARED | MAP_ANONYMOUS, -1, 0);
    must(sales != MAP_FAILED, "no memory");
    unlink(words[1]);
    for (kills = 0; kills < KILLS; kills++) {
        unsigned long long before = sales->openings;
        pid_t child = fork(), ended = 0;
        must(child >= 0, "no process");
        if (child == 0)
            run(words[1]);
        seed = seed * 1103515245u + 12345u;
        /* the first one is killed only after a sale, however slow the disk is */
        while ((sales->openings == before || sales->answered[0] == 0) && ended == 0) {
            rest(1);
            ended = waitpid(child, &status, WNOHANG);
        }
        must(ended == 0, "a shop ended by itself");
        rest((long)(seed >> 16) % 100);
        kill(child, SIGKILL);
        must(waitpid(child, &status, 0) == child && WIFSIGNALED(status) && WTERMSIG(status) == SIGKILL, "a shop ended by itself");
    }
    done(githoppu_store_open(words[1], NULL, &store));
    learn();
    done(githoppu_store_close(store));
    must(sales->answered[0] > 0, "nothing was sold");
    unlink(words[1]);
    sprintf(left, "%s-wal", words[1]);
    unlink(left);
    printf("killed %d times: no sale is lost that was answered, and each seller learned its last one\n", kills);
    fprintf(stderr, "sales %llu %llu %llu %llu, %llu of them learned\n", (unsigned long long)sales->answered[0], (unsigned long long)sales->answered[1],
            (unsigned long long)sales->answered[2], (unsigned long long)sales->answered[3], (unsigned long long)sales->learned);
    return 0;
}
