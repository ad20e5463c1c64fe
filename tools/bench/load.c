/* load: sends memcached commands over TCP, checks every reply, and prints rates and latencies as one line of JSON.

   A thread drives its connections by epoll. Each connection keeps --pipeline requests under way; a request
   is a get of one key or of several (--multiget), a set, or with --meta an mg or ms. The value of a key follows from
   the key alone, so each hit is checked byte by byte, and each reply must be the one of the oldest request that is
   still open. With --sigma the lengths of values are lognormal, with --value-size as their median: a key always has the
   same one, but if nothing is read (--sets 1) each set draws its own. With --aside a key that was missed is stored.
   Latency counts from the moment at which a request was put into the send buffer; with --rate it counts from the moment
   at which it was due. */
#define _GNU_SOURCE
#include <arpa/inet.h>
#include <errno.h>
#include <fcntl.h>
#include <getopt.h>
#include <math.h>
#include <netinet/tcp.h>
#include <pthread.h>
#include <stdint.h>
#include <stdio.h>
#include <stdlib.h>
#include <string.h>
#include <sys/epoll.h>
#include <time.h>
#include <unistd.h>

enum { GET, SET };
enum { PATTERN = 1 << 16, BUCKETS = 64 * 64, KEY_ROOM = 256, LONGEST = 100000 };

static struct {
    const char *host;
    int port, connections, threads, pipeline, multiget, meta, zipf, fill, aside, key_size, exptime;
    double seconds, sets, rate, theta, sigma;
    uint32_t keys, value_size;
    uint64_t requests, seed;
} ask = {"127.0.0.1", 11211, 1, 1, 1, 1, 0, 0, 0, 0, 16, 0, 5, 0.1, 0, 0.99, 0, 100000, 100, 0, 0};

struct request {
    uint64_t began;
    uint32_t key;
    int kind;
};

struct connection {
    int fd, open;
    char *out;
    size_t out_len, out_sent, out_room;
    char *in;
    size_t in_len, in_room;
    struct request *asked; /* a ring of `pipeline` requests */
    uint32_t first;
    uint32_t next_item; /* of a get of several keys: the items seen so far */
    uint32_t *missed;   /* with --aside: at most `pipeline` keys that are to be stored */
    int missed_len;
};

struct thread {
    pthread_t id;
    int epoll, count;
    struct connection *connections;
    uint64_t seed, requests, hits, misses, bytes_in, faults, left;
    uint64_t buckets[BUCKETS];
    uint64_t most;
    uint32_t fill_from, fill_to;
    double due;
};

static char *pattern;
static double *zipf_sums;
static volatile int is_over;

static uint64_t now_ns(void) {
    struct timespec t;
    clock_gettime(CLOCK_MONOTONIC, &t);
    return (uint64_t)t.tv_sec * 1000000000u + (uint64_t)t.tv_nsec;
}

static uint64_t next_random(uint64_t *seed) {
    uint64_t z = (*seed += 0x9e3779b97f4a7c15u);
    z = (z ^ (z >> 30)) * 0xbf58476d1ce4e5b9u;
    z = (z ^ (z >> 27)) * 0x94d049bb133111ebu;
    return z ^ (z >> 31);
}

static uint32_t some_key(struct thread *t) {
    if (!ask.zipf) {
        return (uint32_t)(next_random(&t->seed) % ask.keys);
    }
    double u = (double)(next_random(&t->seed) >> 11) / 9007199254740992.0;
    uint32_t low = 0, high = ask.keys - 1;
    while (low < high) {
        uint32_t mid = (low + high) / 2;
        if (zipf_sums[mid] < u) low = mid + 1; else high = mid;
    }
    return low;
}

static void key_text(uint32_t key, char *to) { snprintf(to, KEY_ROOM, "key:%0*u", ask.key_size - 4, key); }

/* how many bytes the value of a key has, or that of one set; the same for the same number */
static uint32_t size_of(uint64_t number) {
    if (ask.sigma == 0) return ask.value_size;
    uint64_t seed = number;
    double one = ((double)(next_random(&seed) >> 11) + 1) / 9007199254740993.0, other = (double)(next_random(&seed) >> 11) / 9007199254740992.0;
    double size = ask.value_size * exp(ask.sigma * sqrt(-2 * log(one)) * cos(6.283185307179586 * other));
    return size < 1 ? 1 : size > LONGEST ? LONGEST : (uint32_t)size;
}

static const char *value_of(uint32_t key) { return pattern + key * 7919u % PATTERN; }

/* the keys of a get of several are neighbours of the first */
static uint32_t nth_key(uint32_t key, uint32_t n) { return (key + n) % ask.keys; }

static void record(struct thread *t, uint64_t ns) {
    int top = 63 - __builtin_clzll(ns | 1);
    uint64_t low = top < 6 ? ns : (ns >> (top - 6)) & 63;
    t->buckets[top * 64 + (low & 63)]++;
    if (ns > t->most) t->most = ns;
}

static void room_for(char **text, size_t *room, size_t wanted) {
    if (*room >= wanted) return;
    while (*room < wanted) *room = *room ? *room * 2 : 1 << 16;
    *text = realloc(*text, *room);
    if (!*text) abort();
}

static void put_request(struct thread *t, struct connection *c, int kind, uint32_t key, uint64_t began) {
    char text[KEY_ROOM];
    uint32_t size = kind == GET ? 0 : size_of(ask.sets < 1 ? key : next_random(&t->seed));
    room_for(&c->out, &c->out_room, c->out_len + size + 128 + (size_t)ask.multiget * KEY_ROOM);
    char *at = c->out + c->out_len;
    key_text(key, text);
    if (kind == SET) {
        at += ask.meta ? sprintf(at, "ms %s %u\r\n", text, size) : sprintf(at, "set %s 0 %d %u\r\n", text, ask.exptime, size);
        memcpy(at, value_of(key), size);
        at += size;
        *at++ = '\r';
        *at++ = '\n';
    } else if (ask.meta) {
        at += sprintf(at, "mg %s k v\r\n", text);
    } else {
        at += sprintf(at, "get");
        for (int n = 0; n < ask.multiget; n++) {
            key_text(nth_key(key, (uint32_t)n), text);
            at += sprintf(at, " %s", text);
        }
        at += sprintf(at, "\r\n");
    }
    c->out_len = (size_t)(at - c->out);
    c->asked[(c->first + (uint32_t)c->open++) % (uint32_t)ask.pipeline] = (struct request){began, key, kind};
}

/* Whether the thread asks for nothing more. */
static int is_at_end(struct thread *t) { return is_over || (ask.requests && t->left == 0); }

static void fill_pipeline(struct thread *t, struct connection *c) {
    while (c->open < ask.pipeline && !is_at_end(t)) {
        uint64_t now = now_ns();
        if (c->missed_len) {
            put_request(t, c, SET, c->missed[--c->missed_len], now);
            continue;
        }
        if (ask.fill) {
            if (t->fill_from >= t->fill_to) return;
            put_request(t, c, SET, t->fill_from++, now);
            continue;
        }
        if (ask.rate > 0) {
            if ((double)now < t->due) return;
            uint64_t due = (uint64_t)t->due;
            t->due += 1e9 * ask.threads / ask.rate;
            now = due;
        }
        int kind = (double)(next_random(&t->seed) >> 11) / 9007199254740992.0 < ask.sets ? SET : GET;
        put_request(t, c, kind, some_key(t), now);
        t->left--;
    }
}

static void fault(struct thread *t, const char *what, const char *at, size_t len) {
    if (t->faults++ == 0) fprintf(stderr, "load: %s: %.*s\n", what, (int)(len < 80 ? len : 80), at);
}

static int begins(const char *at, size_t len, const char *word) { return len >= strlen(word) && !memcmp(at, word, strlen(word)); }

static void done(struct thread *t, struct connection *c, struct request *r) {
    record(t, now_ns() - r->began);
    t->requests++;
    c->first = (c->first + 1) % (uint32_t)ask.pipeline;
    c->open--;
    c->next_item = 0;
}

/* Whether the key is one of those that are still asked, in order; then those before it were misses. */
static int is_asked(struct thread *t, struct connection *c, struct request *r, const char *key) {
    char text[KEY_ROOM];
    for (; c->next_item < (uint32_t)(r->kind == GET && !ask.meta ? ask.multiget : 1); t->misses++, c->next_item++) {
        key_text(nth_key(r->key, c->next_item), text);
        if (!strcmp(text, key)) return 1;
    }
    return 0;
}

/* Reads one reply, or one item of it, and returns its length in bytes; 0 if it is incomplete. */
static size_t read_reply(struct thread *t, struct connection *c, const char *at, size_t len) {
    const char *end = memchr(at, '\n', len);
    if (!end) return 0;
    size_t line = (size_t)(end - at) + 1;
    if (c->open == 0) {
        fault(t, "a reply that nobody asked for", at, line);
        return line;
    }
    struct request *r = &c->asked[c->first];
    if (r->kind == SET) {
        if (!begins(at, line, ask.meta ? "HD\r\n" : "STORED\r\n")) fault(t, "a set was answered", at, line);
        done(t, c, r);
        return line;
    }
    int is_item = begins(at, line, ask.meta ? "VA " : "VALUE ");
    if (!is_item) {
        if (!begins(at, line, ask.meta ? "EN\r\n" : "END\r\n")) fault(t, "a get was answered", at, line);
        t->misses += (uint32_t)(ask.meta ? 1 : ask.multiget) - c->next_item;
        if (ask.aside && c->next_item == 0) c->missed[c->missed_len++] = r->key;
        done(t, c, r);
        return line;
    }
    char key[KEY_ROOM] = "";
    unsigned size = 0;
    int read = ask.meta ? sscanf(at, "VA %u k%255s", &size, key) : sscanf(at, "VALUE %255s %*u %u", key, &size);
    size_t whole = line + size + 2;
    if (len < whole) return 0;
    if (read != 2 || !is_asked(t, c, r, key) || size != size_of(nth_key(r->key, c->next_item))) {
        fault(t, "an item that was not asked", at, line);
    } else {
        uint32_t found = nth_key(r->key, c->next_item);
        if (memcmp(at + line, value_of(found), size)) fault(t, "another value", at, line);
        t->hits++;
        c->next_item++;
    }
    if (ask.meta) done(t, c, r);
    return whole;
}

static void take_input(struct thread *t, struct connection *c) {
    room_for(&c->in, &c->in_room, c->in_len + (1 << 16));
    ssize_t got = read(c->fd, c->in + c->in_len, c->in_room - c->in_len);
    if (got <= 0) {
        if (got < 0 && errno == EAGAIN) return;
        fault(t, "the connection was closed", "", 0);
        close(c->fd);
        c->fd = -1;
        return;
    }
    c->in_len += (size_t)got;
    t->bytes_in += (uint64_t)got;
    size_t at = 0, used;
    while (at < c->in_len && (used = read_reply(t, c, c->in + at, c->in_len - at)) > 0) at += used;
    memmove(c->in, c->in + at, c->in_len - at);
    c->in_len -= at;
}

static void send_output(struct thread *t, struct connection *c) {
    while (c->out_sent < c->out_len) {
        ssize_t sent = write(c->fd, c->out + c->out_sent, c->out_len - c->out_sent);
        if (sent < 0) {
            if (errno != EAGAIN) fault(t, "a write failed", strerror(errno), 40);
            return;
        }
        c->out_sent += (size_t)sent;
    }
    c->out_len = c->out_sent = 0;
}

static int open_connection(void) {
    struct sockaddr_in to = {.sin_family = AF_INET, .sin_port = htons((uint16_t)ask.port)};
    inet_pton(AF_INET, ask.host, &to.sin_addr);
    int fd = socket(AF_INET, SOCK_STREAM, 0), one = 1;
    if (fd < 0 || connect(fd, (struct sockaddr *)&to, sizeof to) != 0) {
        perror("load: connect");
        exit(1);
    }
    setsockopt(fd, IPPROTO_TCP, TCP_NODELAY, &one, sizeof one);
    fcntl(fd, F_SETFL, fcntl(fd, F_GETFL) | O_NONBLOCK);
    return fd;
}

static int is_waiting(struct thread *t) {
    if (ask.fill && t->fill_from < t->fill_to) return 1;
    for (int i = 0; i < t->count; i++) {
        if (t->connections[i].fd >= 0 && t->connections[i].open > 0) return 1;
    }
    return 0;
}

static void *run(void *given) {
    struct thread *t = given;
    struct epoll_event events[64];
    t->due = (double)now_ns();
    while (!(is_at_end(t) || ask.fill) || is_waiting(t)) {
        for (int i = 0; i < t->count; i++) {
            struct connection *c = &t->connections[i];
            if (c->fd < 0) continue;
            fill_pipeline(t, c);
            send_output(t, c);
        }
        int ready = epoll_wait(t->epoll, events, 64, ask.rate > 0 ? 0 : 10);
        for (int i = 0; i < ready; i++) take_input(t, events[i].data.ptr);
        if (t->faults > 1000) break;
    }
    return NULL;
}

static uint64_t percentile(struct thread *all, double share) {
    uint64_t total = 0, seen = 0;
    for (int t = 0; t < ask.threads; t++) total += all[t].requests;
    for (int b = 0; b < BUCKETS; b++) {
        for (int t = 0; t < ask.threads; t++) seen += all[t].buckets[b];
        if (seen >= (uint64_t)(share * (double)total) && seen > 0) {
            int top = b / 64;
            return top < 6 ? (uint64_t)(b % 64) : ((uint64_t)1 << top) + ((uint64_t)(b % 64) << (top - 6));
        }
    }
    return 0;
}

static void read_options(int argc, char **argv) {
    static const struct option names[] = {
        {"host", 1, 0, 'h'}, {"port", 1, 0, 'p'}, {"connections", 1, 0, 'c'}, {"threads", 1, 0, 't'}, {"pipeline", 1, 0, 'n'},
        {"multiget", 1, 0, 'm'}, {"meta", 0, 0, 'M'}, {"zipf", 0, 0, 'z'}, {"fill", 0, 0, 'f'}, {"seconds", 1, 0, 's'},
        {"sets", 1, 0, 'S'}, {"rate", 1, 0, 'r'}, {"keys", 1, 0, 'k'}, {"value-size", 1, 0, 'v'}, {"key-size", 1, 0, 'K'},
        {"sigma", 1, 0, 'g'}, {"theta", 1, 0, 'T'}, {"requests", 1, 0, 'R'}, {"aside", 0, 0, 'a'}, {"seed", 1, 0, 'e'},
        {"exptime", 1, 0, 'x'}, {0, 0, 0, 0}};
    int it;
    while ((it = getopt_long(argc, argv, "", names, NULL)) != -1) {
        switch (it) {
        case 'h': ask.host = optarg; break;
        case 'p': ask.port = atoi(optarg); break;
        case 'c': ask.connections = atoi(optarg); break;
        case 't': ask.threads = atoi(optarg); break;
        case 'n': ask.pipeline = atoi(optarg); break;
        case 'm': ask.multiget = atoi(optarg); break;
        case 'M': ask.meta = 1; break;
        case 'z': ask.zipf = 1; break;
        case 'f': ask.fill = 1; break;
        case 's': ask.seconds = atof(optarg); break;
        case 'S': ask.sets = atof(optarg); break;
        case 'r': ask.rate = atof(optarg); break;
        case 'k': ask.keys = (uint32_t)atol(optarg); break;
        case 'v': ask.value_size = (uint32_t)atol(optarg); break;
        case 'K': ask.key_size = atoi(optarg); break;
        case 'g': ask.sigma = atof(optarg); break;
        case 'T': ask.theta = atof(optarg); break;
        case 'R': ask.requests = strtoull(optarg, NULL, 10); break;
        case 'a': ask.aside = 1; break;
        case 'e': ask.seed = strtoull(optarg, NULL, 10); break;
        case 'x': ask.exptime = atoi(optarg); break;
        default: exit(2);
        }
    }
    if (ask.threads > ask.connections) ask.threads = ask.connections;
}

static void prepare(void) {
    size_t length = PATTERN + (ask.sigma == 0 ? ask.value_size : LONGEST);
    pattern = malloc(length);
    uint64_t seed = 1;
    for (size_t i = 0; i < length; i++) pattern[i] = (char)('a' + next_random(&seed) % 26);
    if (!ask.zipf) return;
    zipf_sums = malloc(sizeof *zipf_sums * ask.keys);
    double sum = 0;
    for (uint32_t i = 0; i < ask.keys; i++) zipf_sums[i] = sum += 1 / pow(i + 1, ask.theta);
    for (uint32_t i = 0; i < ask.keys; i++) zipf_sums[i] /= sum;
}

int main(int argc, char **argv) {
    read_options(argc, argv);
    prepare();
    struct thread *all = calloc((size_t)ask.threads, sizeof *all);
    for (int i = 0; i < ask.threads; i++) {
        struct thread *t = &all[i];
        t->seed = (uint64_t)i * 77 + 5 + (ask.seed << 32);
        t->left = ask.requests / (uint64_t)ask.threads;
        t->epoll = epoll_create1(0);
        t->count = ask.connections / ask.threads + (i < ask.connections % ask.threads);
        t->connections = calloc((size_t)t->count, sizeof *t->connections);
        t->fill_from = (uint32_t)((uint64_t)ask.keys * (uint64_t)i / (uint64_t)ask.threads);
        t->fill_to = (uint32_t)((uint64_t)ask.keys * (uint64_t)(i + 1) / (uint64_t)ask.threads);
        for (int n = 0; n < t->count; n++) {
            struct connection *c = &t->connections[n];
            c->fd = open_connection();
            c->asked = calloc((size_t)ask.pipeline, sizeof *c->asked);
            c->missed = calloc((size_t)ask.pipeline, sizeof *c->missed);
            struct epoll_event wanted = {.events = EPOLLIN, .data.ptr = c};
            epoll_ctl(t->epoll, EPOLL_CTL_ADD, c->fd, &wanted);
        }
    }
    uint64_t began = now_ns();
    for (int i = 0; i < ask.threads; i++) pthread_create(&all[i].id, NULL, run, &all[i]);
    if (!ask.fill && !ask.requests) {
        usleep((useconds_t)(ask.seconds * 1e6));
        is_over = 1;
    }
    uint64_t requests = 0, hits = 0, misses = 0, faults = 0, bytes = 0, most = 0;
    for (int i = 0; i < ask.threads; i++) {
        pthread_join(all[i].id, NULL);
        requests += all[i].requests, hits += all[i].hits, misses += all[i].misses, faults += all[i].faults, bytes += all[i].bytes_in;
        if (all[i].most > most) most = all[i].most;
    }
    double seconds = (double)(now_ns() - began) / 1e9;
    printf("{\"requests\": %llu, \"seconds\": %.3f, \"rate\": %.0f, \"hits\": %llu, \"misses\": %llu, \"faults\": %llu, "
           "\"megabytes_in\": %.1f, \"p50_us\": %.1f, \"p99_us\": %.1f, \"p999_us\": %.1f, \"most_us\": %.1f}\n",
           (unsigned long long)requests, seconds, (double)requests / seconds, (unsigned long long)hits, (unsigned long long)misses,
           (unsigned long long)faults, (double)bytes / 1e6, (double)percentile(all, 0.5) / 1e3, (double)percentile(all, 0.99) / 1e3,
           (double)percentile(all, 0.999) / 1e3, (double)most / 1e3);
    return faults != 0;
}
