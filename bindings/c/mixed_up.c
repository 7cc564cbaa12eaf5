/* What a compiler refuses: a session where a closed store is asked for, and the other way round. Each case by its number, MIXED_UP, is one wrong line; without
 * a case all of it compiles. The Makefile compiles each. */
#include "githoppu_file.h"

#ifndef MIXED_UP
#define MIXED_UP 0
#endif

int main(void) {
    githoppu_session *sessions[2] = {NULL, NULL};
    githoppu_closed *closed = NULL;
    githoppu_session_handle handle;
    githoppu_closed_handle closed_handle;
    githoppu_either left;
    githoppu_words reply;
    githoppu_program program = {NULL, 0, 0, 0};
    uint64_t count = 0;
    int status = githoppu_open(64, sessions, 2);
    handle.at = sessions[0];
    closed_handle.at = closed;
    left.closed = closed;
    (void)handle;
    (void)closed_handle;
    (void)left;
    (void)reply;
    (void)count;
    (void)program;
#if MIXED_UP == 1
    status = githoppu_get(&closed, "fruit", &reply); /* an operation of a closed store */
#elif MIXED_UP == 2
    status = githoppu_image_size(&sessions[0], &count); /* an image of a session */
#elif MIXED_UP == 3
    status = githoppu_close_one(&sessions[0], &sessions[1]); /* a closed store into a session's slot */
#elif MIXED_UP == 4
    status = githoppu_close_one(&closed, &closed); /* a closing of what is closed */
#elif MIXED_UP == 5
    githoppu_give_up(&closed, 1);
#elif MIXED_UP == 6
    githoppu_give_up_closed(&sessions[0]);
#elif MIXED_UP == 7
    status = githoppu_save("file", &closed);
#elif MIXED_UP == 8
    status = githoppu_save_closed("file", &sessions[0]);
#elif MIXED_UP == 9
    handle.at = closed; /* the library's own functions */
#elif MIXED_UP == 10
    closed_handle.at = sessions[0];
#elif MIXED_UP == 11
    status = githoppu_close(handle, &closed);
#elif MIXED_UP == 12
    status = githoppu_open(64, &closed, 1);
#elif MIXED_UP == 13
    status = githoppu_load("file", &closed, 1);
#elif MIXED_UP == 14
    closed = left.session;
#elif MIXED_UP == 15
    sessions[0] = closed;
#elif MIXED_UP == 16
    status = githoppu_checkpoint_size(&closed, &count);
#elif MIXED_UP == 17
    status = githoppu_catch_up(&closed, 0);
#elif MIXED_UP == 18
    {
        void *slots[1]; /* what 0.3.0 took */
        status = githoppu_open(64, slots, 1);
    }
#elif MIXED_UP == 19
    status = githoppu_open_object(&program, 64, &closed, 1); /* an object's sessions into a closed store's slot */
#elif MIXED_UP == 20
    status = githoppu_ask(&closed, 2, 0, 0, 0, &reply); /* an operation of a closed object */
#elif MIXED_UP == 21
    status = githoppu_load_object("file", &program, NULL, &closed, 1);
#elif MIXED_UP != 0
#error "there is no such case"
#endif
    githoppu_give_up(sessions, 2);
    githoppu_give_up_closed(&closed);
    return status;
}
