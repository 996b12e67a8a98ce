/* Beside `tipd serve`: a server that answers each line with itself, with two threads a connection and one mutex for all of them; and
   clients that count what an answer and a commit cost.

   wire echo PORT              serves until it is killed
   wire ask PORT TURNS         says one line, hears its answer, TURNS times; prints the nanoseconds of all
   wire commit TURNS PORT..    a client for each port begins and commits a transaction TURNS times; prints the nanoseconds of all */
#include <arpa/inet.h>
#include <netinet/tcp.h>
#include <pthread.h>
#include <stdio.h>
#include <stdlib.h>
#include <string.h>
#include <sys/socket.h>
#include <time.h>
#include <unistd.h>

#define ROOM 1024

struct connection {
    int socket;
    pthread_cond_t changed;
    char line[ROOM];
    ssize_t length; /* of the line that waits to go out; 0: none; -1: the end */
};

static pthread_mutex_t lock = PTHREAD_MUTEX_INITIALIZER;

static struct sockaddr_in place(const char *port)
{
    struct sockaddr_in at = {.sin_family = AF_INET, .sin_port = htons((unsigned short)atoi(port))};
    at.sin_addr.s_addr = htonl(INADDR_LOOPBACK);
    return at;
}

static void at_once(int socket)
{
    int on = 1;
    setsockopt(socket, IPPROTO_TCP, TCP_NODELAY, &on, sizeof on);
}

static void hand_over(struct connection *connection, const char *line, ssize_t length)
{
    pthread_mutex_lock(&lock);
    while (connection->length > 0)
        pthread_cond_wait(&connection->changed, &lock);
    if (length > 0)
        memcpy(connection->line, line, (size_t)length);
    connection->length = length > 0 ? length : -1;
    pthread_cond_signal(&connection->changed);
    pthread_mutex_unlock(&lock);
}

static void *reads(void *its)
{
    struct connection *connection = its;
    char line[ROOM];
    ssize_t length;
    do {
        length = recv(connection->socket, line, sizeof line, 0);
        hand_over(connection, line, length);
    } while (length > 0);
    return NULL;
}

static void *writes(void *its)
{
    struct connection *connection = its;
    char line[ROOM];
    for (;;) {
        pthread_mutex_lock(&lock);
        while (connection->length == 0)
            pthread_cond_wait(&connection->changed, &lock);
        ssize_t length = connection->length;
        if (length > 0) {
            memcpy(line, connection->line, (size_t)length);
            connection->length = 0;
        }
        pthread_cond_signal(&connection->changed);
        pthread_mutex_unlock(&lock);
        if (length < 0 || send(connection->socket, line, (size_t)length, MSG_NOSIGNAL) != length) {
            shutdown(connection->socket, SHUT_RDWR);
            return NULL;
        }
    }
}

static int echo(const char *port)
{
    struct sockaddr_in at = place(port);
    int on = 1, listener = socket(AF_INET, SOCK_STREAM, 0);
    setsockopt(listener, SOL_SOCKET, SO_REUSEADDR, &on, sizeof on);
    if (bind(listener, (struct sockaddr *)&at, sizeof at) != 0 || listen(listener, 128) != 0)
        return 1;
    for (;;) {
        struct connection *connection = calloc(1, sizeof *connection);
        pthread_t reader, writer;
        connection->socket = accept(listener, NULL, NULL);
        pthread_cond_init(&connection->changed, NULL);
        at_once(connection->socket);
        pthread_create(&reader, NULL, reads, connection);
        pthread_create(&writer, NULL, writes, connection);
        pthread_detach(reader);
        pthread_detach(writer);
    }
}

/* Says a line; whether its answer begins with these words. */
static int is_answered(int socket, const char *line, const char *words)
{
    char answer[ROOM];
    size_t length = strlen(line), heard = 0;
    if (send(socket, line, length, MSG_NOSIGNAL) != (ssize_t)length)
        return 0;
    do {
        ssize_t count = recv(socket, answer + heard, sizeof answer - heard, 0);
        if (count <= 0)
            return 0;
        heard += (size_t)count;
    } while (answer[heard - 1] != '\n');
    return heard >= strlen(words) && memcmp(answer, words, strlen(words)) == 0;
}

/* A connection that has said who it is, or -1. */
static int opened(const char *port)
{
    struct sockaddr_in at = place(port);
    int peer = socket(AF_INET, SOCK_STREAM, 0);
    if (connect(peer, (struct sockaddr *)&at, sizeof at) != 0)
        return -1;
    at_once(peer);
    return is_answered(peer, "IDENTIFY 3 3 - -\r\n", "") ? peer : -1;
}

static long long since(struct timespec begin)
{
    struct timespec end;
    clock_gettime(CLOCK_MONOTONIC, &end);
    return (end.tv_sec - begin.tv_sec) * 1000000000LL + end.tv_nsec - begin.tv_nsec;
}

static int ask(const char *port, long turns)
{
    struct timespec begin;
    int peer = opened(port);
    if (peer < 0)
        return 1;
    clock_gettime(CLOCK_MONOTONIC, &begin);
    for (long count = 0; count < turns; count++)
        if (!is_answered(peer, "QUERY x\r\n", ""))
            return 1;
    printf("%lld\n", since(begin));
    return 0;
}

struct client {
    pthread_t thread;
    int socket;
    long turns;
};

/* Answers itself where each of its commits was right. */
static void *commits(void *its)
{
    struct client *client = its;
    for (long count = 0; count < client->turns; count++)
        if (!is_answered(client->socket, "BEGIN\r\n", "BEGUN ") || !is_answered(client->socket, "COMMIT\r\n", "COMMITTED"))
            return NULL;
    return client;
}

static int commit(long turns, int count, char **ports)
{
    struct timespec begin;
    struct client *clients = calloc((size_t)count, sizeof *clients);
    int is_right = 1;
    for (int place = 0; place < count; place++) {
        clients[place] = (struct client){.socket = opened(ports[place]), .turns = turns};
        if (clients[place].socket < 0)
            return 1;
    }
    clock_gettime(CLOCK_MONOTONIC, &begin);
    for (int place = 0; place < count; place++)
        pthread_create(&clients[place].thread, NULL, commits, &clients[place]);
    for (int place = 0; place < count; place++) {
        void *its;
        pthread_join(clients[place].thread, &its);
        is_right = is_right && its != NULL;
    }
    printf("%lld\n", since(begin));
    return is_right ? 0 : 1;
}

int main(int count, char **words)
{
    if (count == 3 && strcmp(words[1], "echo") == 0)
        return echo(words[2]);
    if (count == 4 && strcmp(words[1], "ask") == 0)
        return ask(words[2], atol(words[3]));
    if (count >= 4 && strcmp(words[1], "commit") == 0)
        return commit(atol(words[2]), count - 3, words + 3);
    return 2;
}
