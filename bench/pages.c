/* pages.c MODE: sends 4096 pages over a loopback socket from one thread to another, a page frame at a time, and prints
   the milliseconds that it took, until their memory is given back, as at the end of `rvmove move`. MODE says what
   becomes of them: `thrown` away at the target; `put` into memory there that is new, as a host does that gets a guest;
   `kept`, which is put, and kept once more at both ends in boxes of their own, as journals do. */
#include <netinet/in.h>
#include <pthread.h>
#include <stdio.h>
#include <stdlib.h>
#include <string.h>
#include <sys/socket.h>
#include <time.h>
#include <unistd.h>

enum { PAGES = 4096, PAGE = 4096, HEAD = 19 };

static int is_put, is_kept, sending, receiving;
static char *source, *target;

/* The boxes at both ends. */
static char *sent[PAGES], *came[PAGES];

static void keep(char **box, const char *page) {
    if (!is_kept) return;
    *box = malloc(PAGE);
    if (*box == NULL) exit(1);
    memcpy(*box, page, PAGE);
}

static void give_back(void) {
    for (int page = 0; page < PAGES; page++) {
        free(sent[page]);
        free(came[page]);
    }
    free(target);
}

static void *send_pages(void *unused) {
    char frame[HEAD + PAGE] = {0};
    for (int page = 0; page < PAGES; page++) {
        keep(&sent[page], source + page * PAGE);
        memcpy(frame + HEAD, source + page * PAGE, PAGE);
        if (write(sending, frame, sizeof frame) != sizeof frame) exit(1);
    }
    close(sending);
    return unused;
}

static void *receive_pages(void *unused) {
    char frame[HEAD + PAGE];
    for (int page = 0; page < PAGES; page++) {
        for (size_t have = 0; have < sizeof frame;) {
            ssize_t count = read(receiving, frame + have, sizeof frame - have);
            if (count <= 0) exit(1);
            have += count;
        }
        keep(&came[page], frame + HEAD);
        if (is_put) memcpy(target + page * PAGE, frame + HEAD, PAGE);
    }
    return unused;
}

static void connect_both(void) {
    struct sockaddr_in address = {.sin_family = AF_INET, .sin_addr.s_addr = htonl(INADDR_LOOPBACK)};
    socklen_t length = sizeof address;
    int listener = socket(AF_INET, SOCK_STREAM, 0);
    if (bind(listener, (struct sockaddr *)&address, length) != 0 || listen(listener, 1) != 0) exit(1);
    getsockname(listener, (struct sockaddr *)&address, &length);
    sending = socket(AF_INET, SOCK_STREAM, 0);
    if (connect(sending, (struct sockaddr *)&address, length) != 0) exit(1);
    receiving = accept(listener, NULL, NULL);
}

int main(int count, char **words) {
    const char *mode = count > 1 ? words[1] : "thrown";
    is_kept = strcmp(mode, "kept") == 0;
    is_put = is_kept || strcmp(mode, "put") == 0;
    source = malloc(PAGES * PAGE);
    target = malloc(PAGES * PAGE);
    if (source == NULL || target == NULL) exit(1);
    memset(source, 255, PAGES * PAGE);
    connect_both();
    struct timespec begun, ended;
    pthread_t sender, receiver;
    clock_gettime(CLOCK_MONOTONIC, &begun);
    pthread_create(&sender, NULL, send_pages, NULL);
    pthread_create(&receiver, NULL, receive_pages, NULL);
    pthread_join(sender, NULL);
    pthread_join(receiver, NULL);
    give_back();
    clock_gettime(CLOCK_MONOTONIC, &ended);
    printf("%.1f\n", (ended.tv_sec - begun.tv_sec) * 1e3 + (ended.tv_nsec - begun.tv_nsec) / 1e6);
}
