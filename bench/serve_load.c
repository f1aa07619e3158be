// Loads a served shop with forms and cookies, as browsers send them: for `bench/serve`, which builds it with cc.
//
//     serve_load PORT KIND SECONDS WORD < CLIENTS
//
// Each line of CLIENTS is a client with a connection of its own: its name, its password, its cookie and the item that
// it bids on. KIND is `bid`, `signin` or `page`. A client of `bid` asks for the form of bids, and sends a bid with its
// token, the first of WORD cents and each next one a cent above it, over and over; one of `signin` does so with the form
// of sign-ins; one of `page` asks for the path WORD. One thread drives all clients. It writes how many seconds it took, how many posts (or pages)
// were answered 200, how many answers were no 200, how many connections ended, and the microseconds of the 50th and of
// the 99th of a hundred posts (or pages), and the most.
#include <arpa/inet.h>
#include <errno.h>
#include <netinet/tcp.h>
#include <stdint.h>
#include <stdio.h>
#include <stdlib.h>
#include <string.h>
#include <sys/epoll.h>
#include <time.h>
#include <unistd.h>

enum { ROOM = 65536, CLIENTS = 1024, SAMPLES = 4000000 };

struct client {
    int fd;
    int posts;        // whether its request under way is the post
    char name[64], password[64], cookie[256], token[128];
    unsigned item;
    uint64_t amount, begun;
    int have;
    char in[ROOM];
};

static struct client *clients[CLIENTS];
static int count, port, epoll;
static const char *kind, *path;
static uint32_t *samples;
static uint64_t good, bad, closed;

static uint64_t now(void) {
    struct timespec t;
    clock_gettime(CLOCK_MONOTONIC, &t);
    return (uint64_t)t.tv_sec * 1000000000u + t.tv_nsec;
}

static void fail(const char *what) {
    perror(what);
    exit(1);
}

static void open_connection(struct client *c) {
    struct sockaddr_in to = {.sin_family = AF_INET, .sin_port = htons(port)};
    int one = 1;
    struct epoll_event event = {.events = EPOLLIN, .data.ptr = c};
    to.sin_addr.s_addr = htonl(INADDR_LOOPBACK);
    c->fd = socket(AF_INET, SOCK_STREAM, 0);
    if (c->fd < 0 || connect(c->fd, (struct sockaddr *)&to, sizeof to) < 0) fail("connect");
    setsockopt(c->fd, IPPROTO_TCP, TCP_NODELAY, &one, sizeof one);
    if (epoll_ctl(epoll, EPOLL_CTL_ADD, c->fd, &event) < 0) fail("epoll_ctl");
    c->have = 0;
}

// Sends the next request of a client: a post where it has a token, and else what comes before it.
static void send_request(struct client *c) {
    char text[1024], body[512];
    int size;
    c->posts = c->token[0] != 0;
    if (c->posts && kind[0] == 'b') {
        snprintf(body, sizeof body, "item=%u&amount=%llu&token=%s", c->item, (unsigned long long)c->amount++, c->token);
    } else if (c->posts) {
        snprintf(body, sizeof body, "name=%s&password=%s&token=%s", c->name, c->password, c->token);
    }
    if (c->posts) {
        size = snprintf(text, sizeof text,
                        "POST /%s HTTP/1.1\r\nHost: localhost\r\nCookie: crash=%s\r\n"
                        "Content-Type: application/x-www-form-urlencoded\r\nContent-Length: %zu\r\n\r\n%s",
                        kind, c->cookie, strlen(body), body);
    } else if (kind[0] == 'p') {
        size = snprintf(text, sizeof text, "GET %s HTTP/1.1\r\nHost: localhost\r\nCookie: crash=%s\r\n\r\n", path, c->cookie);
    } else {
        size = snprintf(text, sizeof text, "GET /form/%s HTTP/1.1\r\nHost: localhost\r\nCookie: crash=%s\r\n\r\n", kind,
                        c->cookie);
    }
    c->token[0] = 0;
    c->begun = now();
    if (write(c->fd, text, size) != size) {
        closed++;
        close(c->fd);
        open_connection(c);
        send_request(c);
    }
}

// Copies what stands between two texts.
static void copy_between(char *to, size_t room, const char *text, const char *before, char end) {
    const char *from = strstr(text, before), *to_end;
    if (!from) return;
    from += strlen(before);
    to_end = strchr(from, end);
    if (!to_end || (size_t)(to_end - from) >= room) return;
    memcpy(to, from, to_end - from);
    to[to_end - from] = 0;
}

// Takes a response, where it is there to its end, and sends the next request.
static void take_response(struct client *c) {
    char *end = strstr(c->in, "\r\n\r\n"), *length = strstr(c->in, "Content-Length: ");
    int whole, status, counts = c->posts || kind[0] == 'p', closes;
    if (!end || !length || length > end) return;
    whole = end + 4 - c->in + atoi(length + 16);
    if (c->have < whole) return;
    status = atoi(c->in + 9);
    if (status == 200 && counts) {
        if (good < SAMPLES) samples[good] = (now() - c->begun) / 1000;
        good++;
    } else if (status != 200) {
        if (!bad) fprintf(stderr, "%s\n", c->in);
        bad++;
    }
    closes = strstr(c->in, "Connection: close") != 0;
    copy_between(c->cookie, sizeof c->cookie, c->in, "Set-Cookie: crash=", ';');
    if (!c->posts && kind[0] != 'p') copy_between(c->token, sizeof c->token, end, "name=\"token\" value=\"", '"');
    c->have = 0;
    if (closes) {
        closed++;
        close(c->fd);
        open_connection(c);
    }
    send_request(c);
}

static void hear(struct client *c) {
    ssize_t came = read(c->fd, c->in + c->have, ROOM - 1 - c->have);
    if (came <= 0) {
        closed++;
        close(c->fd);
        open_connection(c);
        send_request(c);
        return;
    }
    c->have += came;
    c->in[c->have] = 0;
    take_response(c);
}

static int order(const void *a, const void *b) {
    uint32_t x = *(const uint32_t *)a, y = *(const uint32_t *)b;
    return x < y ? -1 : x > y;
}

int main(int argc, char **argv) {
    struct client read_in;
    uint64_t begun, ends, took, kept;
    if (argc < 4) return 2;
    port = atoi(argv[1]);
    kind = argv[2];
    path = argc > 4 ? argv[4] : "/";
    samples = malloc(sizeof *samples * SAMPLES);
    epoll = epoll_create1(0);
    while (count < CLIENTS &&
           scanf("%63s %63s %255s %u", read_in.name, read_in.password, read_in.cookie, &read_in.item) == 4) {
        struct client *c = calloc(1, sizeof *c);
        strcpy(c->name, read_in.name);
        strcpy(c->password, read_in.password);
        strcpy(c->cookie, strcmp(read_in.cookie, "-") ? read_in.cookie : "");
        c->item = read_in.item;
        c->amount = strtoull(path, 0, 10);
        clients[count++] = c;
    }
    begun = now();
    ends = begun + (uint64_t)(atof(argv[3]) * 1e9);
    for (int i = 0; i < count; i++) {
        open_connection(clients[i]);
        send_request(clients[i]);
    }
    while (now() < ends) {
        struct epoll_event events[64];
        int n = epoll_wait(epoll, events, 64, 100);
        for (int i = 0; i < n; i++) hear(events[i].data.ptr);
    }
    took = now() - begun;
    kept = good < SAMPLES ? good : SAMPLES;
    qsort(samples, kept, sizeof *samples, order);
    printf("%.3f %llu %llu %llu %u %u %u\n", took / 1e9, (unsigned long long)good, (unsigned long long)bad,
           (unsigned long long)closed, kept ? samples[kept / 2] : 0, kept ? samples[kept * 99 / 100] : 0,
           kept ? samples[kept - 1] : 0);
    return 0;
}
