/* What load.rs is, for where there is no Rust compiler: clients that ask again once they have their reply, and a server that answers
   each message with as many bytes.

   usage: load echo PORT REPLY
          load ask ADDR FILE CLIENTS SECONDS */
#include <arpa/inet.h>
#include <netinet/tcp.h>
#include <pthread.h>
#include <stdint.h>
#include <stdio.h>
#include <stdlib.h>
#include <string.h>
#include <time.h>
#include <unistd.h>

struct asker { const char *host; int port; uint8_t **messages; int count; double seconds; uint32_t *times; size_t asked, room; };
static pthread_barrier_t ready;
static size_t reply_size;

static void fail(const char *what) { perror(what); exit(1); }
static double now(void) { struct timespec t; clock_gettime(CLOCK_MONOTONIC, &t); return t.tv_sec + t.tv_nsec / 1e9; }
static uint32_t size_at(const uint8_t *at) { uint32_t size; memcpy(&size, at, 4); return ntohl(size); }

/* A message or a reply, with its size; 0 at the end. */
static int take(int line, uint8_t **buffer, size_t *room) {
    size_t have = 0, need = 4;
    for (;;) {
        if (have >= 4) {
            need = 4 + (size_t)size_at(*buffer);
            if (need > *room) { *room = need; if (!(*buffer = realloc(*buffer, need))) fail("memory"); }
        }
        if (have >= need) return 1;
        ssize_t count = read(line, *buffer + have, *room - have);
        if (count <= 0) return 0;
        have += count;
    }
}

static int put(int line, const uint8_t *data, size_t size) {
    while (size > 0) {
        ssize_t count = write(line, data, size);
        if (count <= 0) return 0;
        data += count; size -= count;
    }
    return 1;
}

static void no_delay(int line) { int on = 1; setsockopt(line, IPPROTO_TCP, TCP_NODELAY, &on, sizeof on); }

static void *serve(void *given) {
    int line = (int)(intptr_t)given;
    size_t room = 65536;
    uint8_t *buffer = malloc(room), *answer = calloc(1, 4 + reply_size);
    uint32_t size = htonl(reply_size);
    memcpy(answer, &size, 4);
    while (take(line, &buffer, &room) && put(line, answer, 4 + reply_size)) {}
    close(line); free(buffer); free(answer);
    return NULL;
}

static void *ask_all(void *given) {
    struct asker *a = given;
    struct sockaddr_in to = {.sin_family = AF_INET, .sin_port = htons(a->port)};
    int line = socket(AF_INET, SOCK_STREAM, 0);
    if (inet_pton(AF_INET, a->host, &to.sin_addr) != 1 || connect(line, (struct sockaddr *)&to, sizeof to)) fail("a server");
    no_delay(line);
    size_t room = 65536;
    uint8_t *buffer = malloc(room);
    pthread_barrier_wait(&ready);
    double end = now() + a->seconds, before;
    for (int at = 0; (before = now()) < end; at = (at + 1) % a->count) {
        if (!put(line, a->messages[at], 4 + size_at(a->messages[at])) || !take(line, &buffer, &room)) fail("a reply");
        if (a->asked == a->room) { a->room = a->room ? 2 * a->room : 65536; a->times = realloc(a->times, 4 * a->room); }
        a->times[a->asked++] = (now() - before) * 1e9;
    }
    close(line); free(buffer);
    return NULL;
}

static int order(const void *a, const void *b) { uint32_t x = *(uint32_t *)a, y = *(uint32_t *)b; return (x > y) - (x < y); }

static void echo(int port) {
    struct sockaddr_in at = {.sin_family = AF_INET, .sin_port = htons(port), .sin_addr.s_addr = htonl(INADDR_LOOPBACK)};
    int listener = socket(AF_INET, SOCK_STREAM, 0), on = 1;
    setsockopt(listener, SOL_SOCKET, SO_REUSEADDR, &on, sizeof on);
    if (bind(listener, (struct sockaddr *)&at, sizeof at) || listen(listener, 128)) fail("an address");
    puts("listening"); fflush(stdout);
    for (;;) {
        int line = accept(listener, NULL, NULL);
        pthread_t thread;
        if (line < 0) fail("a connection");
        no_delay(line);
        pthread_create(&thread, NULL, serve, (void *)(intptr_t)line);
        pthread_detach(thread);
    }
}

static void ask(char *address, const char *path, int clients, double seconds) {
    char *colon = strrchr(address, ':');
    *colon = 0;
    FILE *file = fopen(path, "rb");
    if (!file) fail(path);
    struct asker *askers = calloc(clients, sizeof *askers);
    pthread_t *threads = calloc(clients, sizeof *threads);
    uint8_t head[4];
    for (int number = 0; fread(head, 1, 4, file) == 4; number++) {
        struct asker *a = &askers[number % clients];
        a->messages = realloc(a->messages, (a->count + 1) * sizeof *a->messages);
        uint8_t *message = a->messages[a->count++] = malloc(4 + size_at(head));
        memcpy(message, head, 4);
        if (fread(message + 4, 1, size_at(head), file) != size_at(head)) fail("messages");
    }
    pthread_barrier_init(&ready, NULL, clients);
    for (int at = 0; at < clients; at++) {
        askers[at].host = address; askers[at].port = atoi(colon + 1); askers[at].seconds = seconds;
        pthread_create(&threads[at], NULL, ask_all, &askers[at]);
    }
    size_t all = 0;
    uint32_t *times = NULL;
    for (int at = 0; at < clients; at++) {
        pthread_join(threads[at], NULL);
        times = realloc(times, 4 * (all + askers[at].asked) + 4);
        memcpy(times + all, askers[at].times, 4 * askers[at].asked);
        all += askers[at].asked;
    }
    qsort(times, all, 4, order);
    printf("%zu %.0f %.0f\n", all, times[all / 2] / 1e3, times[(size_t)(all * 0.99)] / 1e3);
}

int main(int count, char **words) {
    if (count == 4 && !strcmp(words[1], "echo")) { reply_size = atol(words[3]); echo(atoi(words[2])); }
    else if (count == 6 && !strcmp(words[1], "ask")) ask(words[2], words[3], atoi(words[4]), atof(words[5]));
    else return 2;
    return 0;
}
