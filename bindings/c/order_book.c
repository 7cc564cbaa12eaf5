/* An order book that four threads trade on. The book is one document: for each price the quantity that waits there, above 0 where buyers wait and below 0 where
 * sellers do. A thread reads the book and its revision, matches its order in its own memory, and puts the new book where the revision is still
 * the same (putif); where another thread was first, it begins anew. So each order is matched with one book, whatever the others do. */
#include "githoppu.h"
#include <pthread.h>
#include <stdio.h>
#include <stdlib.h>

enum { TRADERS = 4, ORDERS = 500, PRICES = 11, LEAST = 95 };

struct trader {
    githoppu_session *session;
    unsigned seed;
    long bought, sold, traded, again; /* what was ordered, what of it met another order at once, and how often another thread was first */
};

static void must(int right, const char *what) {
    if (!right) {
        fprintf(stderr, "order_book: %s\n", what);
        exit(1);
    }
}

static void read_book(const char *text, long book[PRICES]) {
    char *rest;
    int i;
    for (i = 0; i < PRICES; i++, text = rest)
        book[i] = strtol(text, &rest, 10);
}

static size_t write_book(char text[1025], const long book[PRICES]) {
    size_t length = 0;
    int i;
    for (i = 0; i < PRICES; i++)
        length += (size_t)sprintf(text + length, i == 0 ? "%ld" : " %ld", book[i]);
    return length;
}

/* Buys (side 1) or sells (side -1) a quantity at a price or a better one; what finds no other order waits. How much was traded. */
static long match(long book[PRICES], int side, int price, long quantity) {
    long traded = 0;
    int at;
    /* sellers from the lowest price up, or buyers from the highest price down */
    for (at = side > 0 ? 0 : PRICES - 1; at != price + side && quantity > 0; at += side) {
        long waiting = -side * book[at], some;
        if (waiting <= 0)
            continue;
        some = waiting < quantity ? waiting : quantity;
        book[at] += side * some;
        quantity -= some;
        traded += some;
    }
    book[price] += side * quantity;
    return traded;
}

static unsigned next_number(struct trader *t) {
    t->seed = t->seed * 1103515245u + 12345u;
    return t->seed >> 16;
}

static void order(struct trader *t, int side, int price, long quantity) {
    githoppu_words reply;
    char text[1025];
    long book[PRICES], traded;
    for (;; t->again++) {
        uint64_t revision;
        /* the revision first: where the book changes between both reads, the put is refused */
        must(githoppu_rev(&t->session, "book", &reply) == GITHOPPU_DONE && reply.word[0] == GITHOPPU_REVISION, "no revision");
        revision = githoppu_number(&reply);
        must(githoppu_get(&t->session, "book", &reply) == GITHOPPU_DONE && reply.word[0] == GITHOPPU_DOC, "no book");
        githoppu_document(&reply, text);
        read_book(text, book);
        traded = match(book, side, price, quantity);
        must(githoppu_putif(&t->session, "book", text, write_book(text, book), revision, &reply) == GITHOPPU_DONE, "no put");
        if (reply.word[0] == GITHOPPU_SET)
            break;
        must(reply.word[0] == GITHOPPU_STALE, githoppu_reply_text(reply.word[0]));
    }
    t->traded += traded;
    *(side > 0 ? &t->bought : &t->sold) += quantity;
}

static void *trade(void *at) {
    struct trader *t = (struct trader *)at;
    int i;
    for (i = 0; i < ORDERS; i++) {
        int side = next_number(t) % 2 ? 1 : -1;
        int price = (int)(next_number(t) % PRICES);
        order(t, side, price, 1 + (long)(next_number(t) % 9));
    }
    return NULL;
}

int main(void) {
    githoppu_session *sessions[TRADERS];
    pthread_t threads[TRADERS];
    struct trader traders[TRADERS];
    githoppu_words reply;
    char text[1025];
    long book[PRICES] = {0}, bought = 0, sold = 0, traded = 0, again = 0, buyers = 0, sellers = 0;
    int i, best_bid = -1, best_ask = PRICES;
    must(githoppu_open(64, sessions, TRADERS) == GITHOPPU_DONE, "no store");
    must(githoppu_put(&sessions[0], "book", text, write_book(text, book), &reply) == GITHOPPU_DONE, "no book");
    for (i = 0; i < TRADERS; i++) {
        struct trader fresh = {sessions[i], 7u * (unsigned)i + 1, 0, 0, 0, 0};
        traders[i] = fresh;
        must(pthread_create(&threads[i], NULL, trade, &traders[i]) == 0, "no thread");
    }
    for (i = 0; i < TRADERS; i++) {
        pthread_join(threads[i], NULL);
        sessions[i] = traders[i].session;
        bought += traders[i].bought;
        sold += traders[i].sold;
        traded += traders[i].traded;
        again += traders[i].again;
    }
    must(githoppu_get(&sessions[0], "book", &reply) == GITHOPPU_DONE && reply.word[0] == GITHOPPU_DOC, "no book");
    githoppu_document(&reply, text);
    read_book(text, book);
    for (i = 0; i < PRICES; i++) {
        if (book[i] > 0)
            buyers += book[i], best_bid = i;
        if (book[i] < 0)
            sellers -= book[i], best_ask = best_ask < i ? best_ask : i;
    }
    /* nothing was lost or made: what was ordered was traded or waits, and no buyer waits at or above a seller's price */
    must(bought == traded + buyers && sold == traded + sellers, "an order was lost");
    must(best_bid < best_ask, "a buyer waits at a seller's price");
    printf("bought %ld sold %ld\n", bought, sold);
    fprintf(stderr, "traded %ld; waiting: %ld to buy, %ld to sell, from %d on; begun anew %ld times\n", traded, buyers, sellers, LEAST, again);
    githoppu_give_up(sessions, TRADERS);
    return 0;
}
