/* Clients that ask a server the same thing again and again, each on a thread and a connection of its own.
 *
 *   load SOCKET CLIENTS SECONDS REQUEST json|bser
 *
 * REQUEST is a file with the bytes of one request. A client sends it, reads the whole reply and takes the time: in JSON up
 * to a newline, in BSER 1 as many bytes as its head says. Prints a JSON object: how many replies came, how many told an
 * error, how many clients failed, and the 50th and 99th of a hundred times in milliseconds. */
#define _GNU_SOURCE
#include <pthread.h>
#include <stdbool.h>
#include <stdint.h>
#include <stdio.h>
#include <stdlib.h>
#include <string.h>
#include <sys/socket.h>
#include <sys/un.h>
#include <time.h>
#include <unistd.h>

enum { PIECE = 1 << 20, FIRST_TIMES = 4096, HEAD = 200 };

struct client {
    pthread_t thread;
    double *times; /* in milliseconds */
    size_t count, room, errors;
    bool failed;
};

static const char *sockname;
static char *request;
static size_t request_length;
static bool speaks_bser;
static volatile bool is_over;

static double now(void) {
    struct timespec time;
    clock_gettime(CLOCK_MONOTONIC, &time);
    return time.tv_sec * 1e3 + time.tv_nsec / 1e6;
}

static int dial(void) {
    struct sockaddr_un address = {.sun_family = AF_UNIX};
    struct timeval patience = {60, 0};
    int stream = socket(AF_UNIX, SOCK_STREAM | SOCK_CLOEXEC, 0);
    strncpy(address.sun_path, sockname, sizeof address.sun_path - 1);
    if (stream < 0 || connect(stream, (struct sockaddr *)&address, sizeof address))
        return -1;
    setsockopt(stream, SOL_SOCKET, SO_RCVTIMEO, &patience, sizeof patience);
    return stream;
}

static bool send_all(int stream) {
    for (size_t sent = 0; sent < request_length;) {
        ssize_t count = send(stream, request + sent, request_length - sent, MSG_NOSIGNAL);
        if (count <= 0)
            return false;
        sent += count;
    }
    return true;
}

/* The whole length of a message of BSER 1, of which so many bytes are there; 0 if they do not say it yet. */
static size_t length_of(const unsigned char *head, size_t count) {
    static const size_t sizes[] = {0, 0, 0, 1, 2, 4, 8};
    if (count < 3 || head[2] > 6 || count < 3 + sizes[head[2]])
        return 0;
    uint64_t length = 0;
    memcpy(&length, head + 3, sizes[head[2]]);
    return 3 + sizes[head[2]] + length;
}

/* Reads one reply, and says whether it came. */
static bool read_reply(int stream, char *piece, bool *is_error) {
    size_t read = 0, length = 0;
    *is_error = false;
    for (;;) {
        ssize_t count = recv(stream, piece, PIECE, 0);
        if (count <= 0)
            return false;
        if (read == 0)
            *is_error = memmem(piece, count < HEAD ? count : HEAD, speaks_bser ? "error" : "\"error\"", speaks_bser ? 5 : 7);
        if (read == 0 && speaks_bser)
            length = length_of((unsigned char *)piece, count);
        read += count;
        if (speaks_bser ? length && read >= length : piece[count - 1] == '\n')
            return true;
    }
}

static void keep(struct client *client, double time) {
    if (client->count == client->room) {
        client->room = client->room ? 2 * client->room : FIRST_TIMES;
        client->times = realloc(client->times, client->room * sizeof *client->times);
    }
    client->times[client->count++] = time;
}

static void *run(void *argument) {
    struct client *client = argument;
    char *piece = malloc(PIECE);
    int stream = dial();
    client->failed = stream < 0;
    while (!is_over && !client->failed) {
        bool is_error = false;
        double began = now();
        client->failed = !send_all(stream) || !read_reply(stream, piece, &is_error);
        if (!client->failed)
            keep(client, now() - began);
        client->errors += is_error;
    }
    close(stream);
    free(piece);
    return NULL;
}

static int by_size(const void *left, const void *right) {
    double a = *(const double *)left, b = *(const double *)right;
    return (a > b) - (a < b);
}

static void report(struct client *clients, int count, double seconds) {
    size_t total = 0, errors = 0, failed = 0, place = 0;
    for (int i = 0; i < count; i++) {
        total += clients[i].count;
        errors += clients[i].errors;
        failed += clients[i].failed;
    }
    double *times = malloc((total + 1) * sizeof *times);
    times[0] = 0;
    for (int i = 0; i < count; i++) {
        if (clients[i].count)
            memcpy(times + place, clients[i].times, clients[i].count * sizeof *times);
        place += clients[i].count;
    }
    qsort(times, total, sizeof *times, by_size);
    size_t last = total ? total - 1 : 0;
    printf("{\"replies\":%zu,\"errors\":%zu,\"failed\":%zu,\"per_second\":%.2f,\"p50\":%.5f,\"p99\":%.5f}\n", total, errors, failed,
           total / seconds, times[last / 2], times[last * 99 / 100]);
}

static bool read_request(const char *path) {
    FILE *file = fopen(path, "rb");
    if (!file)
        return false;
    fseek(file, 0, SEEK_END);
    request_length = ftell(file);
    rewind(file);
    request = malloc(request_length + 1);
    bool is_read = fread(request, 1, request_length, file) == request_length;
    fclose(file);
    return is_read;
}

int main(int count, char **words) {
    if (count != 6 || !read_request(words[4]))
        return 2;
    sockname = words[1];
    int clients = atoi(words[2]);
    double seconds = atof(words[3]), began = now();
    speaks_bser = !strcmp(words[5], "bser");
    struct client *all = calloc(clients, sizeof *all);
    for (int i = 0; i < clients; i++)
        pthread_create(&all[i].thread, NULL, run, &all[i]);
    usleep((useconds_t)(seconds * 1e6));
    is_over = true;
    for (int i = 0; i < clients; i++)
        pthread_join(all[i].thread, NULL);
    report(all, clients, (now() - began) / 1e3);
    return 0;
}
