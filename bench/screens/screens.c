// A server and many screens in one process, to measure a relay between them.
//
//   cc -O2 -o screens screens.c
//   ./screens SERVER RELAY CONTEST SCREENS SLOW COMMITS EVERY PID
//
// It listens at 127.0.0.1:SERVER, waits for the relay's request, and answers with a snapshot of
// 1,000 objects. Then it opens SCREENS connections to 127.0.0.1:RELAY, and SLOW further ones that
// ask and never read, and waits until each screen has its snapshot. Then it sends COMMITS commits
// of one change, one every EVERY milliseconds, and notes when the last screen has each. PID is the
// relay's process. It prints one line of JSON: `late`, the milliseconds until the last screen has a
// commit, the median; `used`, the microseconds of a processor that the relay took for a screen and
// commit; `resident`, the relay's megabytes. The status is 3 if not each screen has each commit.
#define _GNU_SOURCE
#include <arpa/inet.h>
#include <errno.h>
#include <fcntl.h>
#include <netinet/tcp.h>
#include <poll.h>
#include <stdio.h>
#include <stdlib.h>
#include <string.h>
#include <sys/epoll.h>
#include <sys/resource.h>
#include <sys/socket.h>
#include <time.h>
#include <unistd.h>

enum { OBJECTS = 1000, BYTES = 300, EVENTS = 512, PIECE = 1 << 18 };

// A screen counts tokens in what it receives, so any framing will do.
static const char TOKEN[] = "\"token\":\"";
static const char HEAD[] =
    "HTTP/1.1 200 OK\r\nContent-Type: application/x-ndjson\r\nConnection: close\r\n\r\n";

typedef struct {
    int socket, matched, is_gone;
    long tokens;
} Screen;

static Screen *screens;
static int count, commits, gone;
// When each commit was sent and when the last screen had it, in seconds; and how many have it.
static double *sent, *arrived;
static long *have;

static double now(void) {
    struct timespec time;
    clock_gettime(CLOCK_MONOTONIC, &time);
    return time.tv_sec + time.tv_nsec / 1e9;
}

static void fail(const char *what) {
    perror(what);
    exit(2);
}

static struct sockaddr_in local(int port) {
    struct sockaddr_in address = {.sin_family = AF_INET, .sin_port = htons(port)};
    address.sin_addr.s_addr = htonl(INADDR_LOOPBACK);
    return address;
}

// The seconds of a processor that a process has had.
static double processor_of(int process) {
    char name[64], text[2048];
    snprintf(name, sizeof name, "/proc/%d/stat", process);
    FILE *file = fopen(name, "r");
    if (!file)
        fail("screens: the relay");
    text[fread(text, 1, sizeof text - 1, file)] = 0;
    fclose(file);
    unsigned long user = 0, system = 0;
    sscanf(strrchr(text, ')') + 1, " %*c %*d %*d %*d %*d %*d %*u %*u %*u %*u %*u %lu %lu", &user,
           &system);
    return (double)(user + system) / sysconf(_SC_CLK_TCK);
}

// The megabytes that a process holds.
static double resident_of(int process) {
    char name[64], line[256];
    long kilobytes = 0;
    snprintf(name, sizeof name, "/proc/%d/status", process);
    FILE *file = fopen(name, "r");
    while (file && fgets(line, sizeof line, file))
        if (sscanf(line, "VmRSS: %ld", &kilobytes) == 1)
            break;
    if (file)
        fclose(file);
    return kilobytes / 1024.0;
}

static void write_all(int socket, const char *text, size_t length) {
    while (length) {
        ssize_t wrote = write(socket, text, length);
        if (wrote < 0 && errno == EINTR)
            continue;
        if (wrote < 0 && errno == EAGAIN) {
            struct pollfd room = {socket, POLLOUT, 0};
            poll(&room, 1, 1000);
            continue;
        }
        if (wrote < 0)
            fail("screens: write");
        text += wrote;
        length -= wrote;
    }
}

static void send_line(int socket, int id, int token) {
    char line[BYTES + 256], end[32] = "";
    static char filler[BYTES + 1];
    memset(filler, 'x', BYTES);
    if (token >= 0)
        snprintf(end, sizeof end, ",\"token\":\"%d\"", token);
    int length = snprintf(
        line, sizeof line,
        "{\"type\":\"submissions\",\"id\":\"%d\",\"data\":{\"id\":\"%d\",\"text\":\"%s\"}%s}\n", id,
        id, filler, end);
    write_all(socket, line, length);
}

// The connection of the relay, once it was sent the snapshot.
static int served(int port) {
    int listener = socket(AF_INET, SOCK_STREAM, 0), yes = 1;
    struct sockaddr_in address = local(port);
    setsockopt(listener, SOL_SOCKET, SO_REUSEADDR, &yes, sizeof yes);
    if (bind(listener, (void *)&address, sizeof address) || listen(listener, 8))
        fail("screens: listen");
    int made = accept(listener, NULL, NULL);
    if (made < 0)
        fail("screens: accept");
    setsockopt(made, IPPROTO_TCP, TCP_NODELAY, &yes, sizeof yes);
    char request[16384] = "";
    for (size_t got = 0; !strstr(request, "\r\n\r\n");) {
        ssize_t more = read(made, request + got, sizeof request - 1 - got);
        if (more <= 0)
            fail("screens: the request");
        got += more;
        request[got] = 0;
    }
    write_all(made, HEAD, strlen(HEAD));
    for (int id = 0; id < OBJECTS; id++)
        send_line(made, id, id == OBJECTS - 1 ? 0 : -1);
    return made;
}

// A connection to the relay that has asked for the feed.
static int asked(int port, const char *contest) {
    struct sockaddr_in address = local(port);
    int made = socket(AF_INET, SOCK_STREAM, 0), tries = 0;
    while (connect(made, (void *)&address, sizeof address))
        if (usleep(20000), ++tries == 200)
            fail("screens: connect");
    char request[256];
    int length =
        snprintf(request, sizeof request,
                 "GET /contests/%s/event-feed HTTP/1.1\r\nHost: 127.0.0.1\r\n\r\n", contest);
    write_all(made, request, length);
    return made;
}

static void find_tokens(Screen *screen, const char *text, ssize_t length) {
    for (ssize_t at = 0; at < length; at++) {
        if (text[at] != TOKEN[screen->matched]) {
            screen->matched = text[at] == TOKEN[0];
        } else if (!TOKEN[++screen->matched]) {
            screen->matched = 0;
            if (screen->tokens <= commits) {
                have[screen->tokens]++;
                arrived[screen->tokens] = now();
            }
            screen->tokens++;
        }
    }
}

static void receive(int epoll, Screen *screen) {
    static char piece[PIECE];
    for (;;) {
        ssize_t got = read(screen->socket, piece, sizeof piece);
        if (got < 0 && errno == EINTR)
            continue;
        if (got < 0 && errno == EAGAIN)
            return;
        if (got <= 0) {
            epoll_ctl(epoll, EPOLL_CTL_DEL, screen->socket, NULL);
            screen->is_gone = 1;
            gone++;
            return;
        }
        find_tokens(screen, piece, got);
        if (got < (ssize_t)sizeof piece)
            return;
    }
}

static void receive_all(int epoll, int milliseconds) {
    struct epoll_event events[EVENTS];
    int ready = epoll_wait(epoll, events, EVENTS, milliseconds);
    for (int at = 0; at < ready; at++)
        receive(epoll, &screens[events[at].data.u32]);
}

// Each commit is sent when it is due, until all screens have all, or too much time has passed.
static int send_commits(int epoll, int server, double every) {
    double began = now(), limit = began + 60 + 3 * commits * every;
    int at = 0;
    while (now() < limit && have[commits] < count - gone && gone < count) {
        double due = began + at * every;
        if (at < commits && now() >= due) {
            sent[++at] = now();
            send_line(server, at % OBJECTS, at);
            continue;
        }
        double wait = at < commits ? (due - now()) * 1000 : 100;
        receive_all(epoll, wait > 0 ? (int)wait : 0);
    }
    return have[commits] == count;
}

static int by_value(const void *one, const void *other) {
    double x = *(const double *)one, y = *(const double *)other;
    return (x > y) - (x < y);
}

int main(int argc, char **argv) {
    if (argc != 9) {
        fprintf(stderr, "screens SERVER RELAY CONTEST SCREENS SLOW COMMITS EVERY PID\n");
        return 1;
    }
    int relay = atoi(argv[2]), slow = atoi(argv[5]), process = atoi(argv[8]);
    count = atoi(argv[4]);
    commits = atoi(argv[6]);
    struct rlimit files;
    getrlimit(RLIMIT_NOFILE, &files);
    files.rlim_cur = files.rlim_max;
    setrlimit(RLIMIT_NOFILE, &files);
    screens = calloc(count, sizeof *screens);
    sent = calloc(commits + 1, sizeof *sent);
    arrived = calloc(commits + 1, sizeof *arrived);
    have = calloc(commits + 1, sizeof *have);
    int server = served(atoi(argv[1])), epoll = epoll_create1(0);
    usleep(300000);
    for (int at = 0; at < count + slow; at++) {
        int made = asked(relay, argv[3]);
        if (at >= count)
            continue;
        screens[at].socket = made;
        fcntl(made, F_SETFL, O_NONBLOCK);
        struct epoll_event event = {EPOLLIN, {.u32 = at}};
        epoll_ctl(epoll, EPOLL_CTL_ADD, made, &event);
    }
    for (double limit = now() + 60; have[0] < count - gone && now() < limit;)
        receive_all(epoll, 100);
    double before = processor_of(process);
    int is_whole = send_commits(epoll, server, atoi(argv[7]) / 1000.0);
    double used = processor_of(process) - before, *late = calloc(commits, sizeof *late);
    for (int at = 1; at <= commits; at++)
        late[at - 1] = (arrived[at] - sent[at]) * 1000;
    qsort(late, commits, sizeof *late, by_value);
    printf("{\"late\": %.2f, \"used\": %.2f, \"resident\": %.1f}\n", late[commits / 2],
           used * 1e6 / ((double)commits * count), resident_of(process));
    return is_whole ? 0 : 3;
}
