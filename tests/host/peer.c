/* Ends of a line that a seat must be proof against, for tests/host. Each ends by itself.
 *
 *     peer key FOLDER FROM UNTIL              a key with a certificate that is good between two times, in seconds from now
 *     peer dial WHAT DESCRIPTION SEAT KEY ... calls a seat and prints what comes of it; KEY `-` is no certificate. WHAT is
 *          ask LETTER NUMBER    a request: prints the answer's letter and its other bytes
 *          other-run            a request for another run
 *          tls12                likewise by TLS 1.2
 *          plain                a text that is no TLS
 *          half SECONDS         half a request, and then nothing
 *          huge                 a message that is announced with 4,294,967,295 bytes
 *          silent COUNT SECONDS so many connections on which nothing is said
 *     peer serve WHAT DESCRIPTION SEAT KEY    takes a seat's place, for at most a minute. WHAT is
 *          yes, tls12, plain, half, huge, silent, not-yet; closing: it prints a line for each call, and closes it
 *     peer relay FROM TO FILE                 takes the calls for the seats of description FROM and hands them on to those of description TO;
 *                                             all bytes, both ways, go to FILE */
#include <errno.h>
#include <fcntl.h>
#include <netdb.h>
#include <netinet/tcp.h>
#include <openssl/err.h>
#include <pthread.h>
#include <signal.h>
#include <stdarg.h>
#include <stdio.h>
#include <stdlib.h>
#include <string.h>
#include <sys/socket.h>
#include <unistd.h>

#include "record.h"
#include "tls.h"

enum { REQUEST = 1 + DIGEST + TOKEN + SHORT, LIFE_S = 60 };

static _Noreturn void end(const char *format, va_list args)
{
    vfprintf(stderr, format, args);
    fputc('\n', stderr);
    exit(2);
}

_Noreturn void fail(enum fault fault, const char *format, ...)
{
    (void)fault;
    va_list args;
    va_start(args, format);
    end(format, args);
}

_Noreturn void refuse(const char *format, ...)
{
    va_list args;
    va_start(args, format);
    end(format, args);
}

static int connected(const struct place *to)
{
    struct addrinfo how = {.ai_socktype = SOCK_STREAM}, *at;
    int one = 1;
    if (getaddrinfo(to->address, to->port, &how, &at))
        fail(NOT_POSSIBLE, "no address");
    int fd = socket(at->ai_family, SOCK_STREAM, 0);
    if (connect(fd, at->ai_addr, at->ai_addrlen)) {
        close(fd);
        fd = -1;
    }
    freeaddrinfo(at);
    setsockopt(fd, IPPROTO_TCP, TCP_NODELAY, &one, sizeof one);
    return fd;
}

/* ---- TLS with any settings, and a certificate that nobody judges */

static int anybody(X509_STORE_CTX *store, void *unused)
{
    (void)store;
    (void)unused;
    return 1;
}

static SSL *wrapped(int fd, const char *key, int version)
{
    char path[4096];
    SSL_CTX *context = SSL_CTX_new(TLS_method());
    SSL_CTX_set_min_proto_version(context, version);
    SSL_CTX_set_max_proto_version(context, version);
    SSL_CTX_set_verify(context, SSL_VERIFY_PEER, NULL);
    SSL_CTX_set_cert_verify_callback(context, anybody, NULL);
    if (strcmp(key, "-")) {
        snprintf(path, sizeof path, "%s/certificate.pem", key);
        if (SSL_CTX_use_certificate_file(context, path, SSL_FILETYPE_PEM) != 1)
            fail(NOT_POSSIBLE, "no certificate %s", path);
        snprintf(path, sizeof path, "%s/key.pem", key);
        if (SSL_CTX_use_PrivateKey_file(context, path, SSL_FILETYPE_PEM) != 1)
            fail(NOT_POSSIBLE, "no key %s", path);
    }
    SSL *ssl = SSL_new(context);
    SSL_set_fd(ssl, fd);
    return ssl;
}

/* Prints how a line ended. */
static void print_end(void)
{
    unsigned long error = ERR_peek_error();
    printf("closed: %s\n", error ? ERR_reason_error_string(error) : "cut");
    exit(0);
}

/* The token of the seat whose key is FOLDER/key-I, from its record in FOLDER/home-I; some other one where it has none. */
static void put_token(uint8_t *to, const char *key)
{
    char path[4096];
    struct bytes all;
    const char *name = strstr(key, "/key-");
    memset(to, 1, TOKEN);
    snprintf(path, sizeof path, "%.*s/home-%s/record", name ? (int)(name - key) : 0, key, name ? name + 5 : "");
    if (!name || !read_file(path, &all))
        return;
    size_t at = 19, seat = 0;
    for (int part = 0; part < 4; part++) {
        size_t len = all.at[at] + 256u * all.at[at + 1];
        seat = all.at[at + 4];
        at += 4 + len;
    }
    memcpy(to, all.at + at + 4 + TOKEN * seat, TOKEN);
}

static void put_request(uint8_t *to, const struct description *d, const char *key, char letter, unsigned number)
{
    const uint8_t head[4] = {REQUEST};
    memcpy(to, head, 4);
    to[4] = (uint8_t)letter;
    memcpy(to + 5, d->run, DIGEST);
    put_token(to + 5 + DIGEST, key);
    put_short(to + 4 + REQUEST - SHORT, number);
}

static void read_exactly(SSL *ssl, uint8_t *to, size_t len)
{
    for (size_t got; len; to += got, len -= got)
        if (!SSL_read_ex(ssl, to, len, &got))
            print_end();
}

static void print_answer(SSL *ssl)
{
    uint8_t head[4], answer[4096];
    read_exactly(ssl, head, sizeof head);
    size_t len = head[0] + 256u * head[1];
    if (head[2] || head[3] || !len || len > sizeof answer)
        fail(NOT_POSSIBLE, "an answer that no seat gives");
    read_exactly(ssl, answer, len);
    printf("%c", answer[0]);
    for (size_t i = 1 + TOKEN; i < len; i++)
        printf("%s%02x", i == 1 + TOKEN ? " " : "", answer[i]);
    printf("\n");
}

static void dial_plain(int fd)
{
    static const char text[] = "GET / HTTP/1.0\r\n\r\n";
    uint8_t all[256];
    send(fd, text, sizeof text - 1, 0);
    ssize_t got = read(fd, all, sizeof all);
    printf("closed: %zd bytes\n", got < 7 || all[0] == 21 ? 0 : got); /* a TLS alert of 7 bytes is no answer */
}

static void dial_silent(const struct place *to, int count, int seconds)
{
    for (int i = 0; i < count; i++)
        if (connected(to) < 0)
            fail(NOT_POSSIBLE, "not connected");
    printf("%d silent\n", count);
    fflush(stdout);
    sleep((unsigned)seconds);
}

static void dial_seat(const char *what, const struct description *d, const struct place *to, char **args)
{
    uint8_t request[4 + REQUEST];
    int fd = connected(to);
    if (fd < 0)
        fail(NOT_POSSIBLE, "nobody is there");
    if (!strcmp(what, "plain")) {
        dial_plain(fd);
        return;
    }
    SSL *ssl = wrapped(fd, args[0], strcmp(what, "tls12") ? TLS1_3_VERSION : TLS1_2_VERSION);
    if (SSL_connect(ssl) != 1)
        print_end();
    put_request(request, d, args[0], strcmp(what, "ask") ? 'M' : args[1][0], strcmp(what, "ask") ? 0 : (unsigned)atoi(args[2]));
    if (!strcmp(what, "other-run"))
        request[5] ^= 1;
    if (!strcmp(what, "huge"))
        memset(request, 255, 4);
    size_t sent, len = strcmp(what, "half") ? sizeof request : sizeof request / 2;
    if (!SSL_write_ex(ssl, request, len, &sent))
        print_end();
    if (strcmp(what, "half"))
        print_answer(ssl);
    else
        sleep((unsigned)atoi(args[1]));
}

/* ---- in a seat's place */

static void serve_call(const char *what, int fd, const char *key)
{
    static const uint8_t huge[4] = {255, 255, 255, 255}, half[4] = {3}, not_yet[5] = {1, 0, 0, 0, 'N'};
    uint8_t request[4 + REQUEST];
    size_t sent;
    if (!strcmp(what, "plain") && write(fd, "220 mail at your service\r\n", 26) < 0)
        return;
    if (!strcmp(what, "silent") || !strcmp(what, "plain"))
        return;
    if (!strcmp(what, "closing")) {
        printf("call\n");
        fflush(stdout);
        close(fd);
        return;
    }
    SSL *ssl = wrapped(fd, key, strcmp(what, "tls12") ? TLS1_3_VERSION : TLS1_2_VERSION);
    size_t got;
    if (SSL_accept(ssl) != 1 || !SSL_read_ex(ssl, request, sizeof request, &got))
        return;
    if (!strcmp(what, "huge"))
        SSL_write_ex(ssl, huge, sizeof huge, &sent);
    if (!strcmp(what, "half"))
        SSL_write_ex(ssl, half, sizeof half, &sent);
    if (!strcmp(what, "not-yet"))
        SSL_write_ex(ssl, not_yet, sizeof not_yet, &sent);
}

static void serve_place(const char *what, const struct place *at, const char *key)
{
    int listener = listen_at(at->address, at->port);
    for (;;)
        serve_call(what, accept(listener, NULL, NULL), key); /* connections stay open until this process ends */
}

/* ---- a relay */

static int capture;

struct pipe {
    int from, to;
};

static void *pump(void *arg)
{
    struct pipe p = *(struct pipe *)arg;
    uint8_t some[16384];
    ssize_t got;
    while ((got = read(p.from, some, sizeof some)) > 0)
        if (write(capture, some, (size_t)got) != got || send(p.to, some, (size_t)got, MSG_NOSIGNAL) != got)
            break;
    shutdown(p.to, SHUT_WR);
    shutdown(p.from, SHUT_RD);
    return NULL;
}

struct relay {
    int listener;
    const struct place *to;
};

static void *relay_seat(void *arg)
{
    struct relay *r = arg;
    for (;;) {
        pthread_t thread;
        struct pipe *pipes = (struct pipe *)fresh_bytes(2 * sizeof *pipes).at;
        int in = accept(r->listener, NULL, NULL), out = connected(r->to);
        if (out < 0) {
            close(in);
            continue;
        }
        pipes[0] = (struct pipe){in, out};
        pipes[1] = (struct pipe){out, in};
        pthread_create(&thread, NULL, pump, pipes);
        pthread_create(&thread, NULL, pump, pipes + 1);
    }
    return NULL;
}

static void relay(const char *from, const char *to, const char *file)
{
    static struct description front, back;
    static struct relay relays[MOST_SEATS + 1];
    open_description(&front, from);
    open_description(&back, to);
    capture = open(file, O_WRONLY | O_CREAT | O_APPEND, 0600);
    for (unsigned seat = 1; seat <= front.seats; seat++) {
        pthread_t thread;
        relays[seat] = (struct relay){listen_at(front.places[seat].address, front.places[seat].port), back.places + seat};
        pthread_create(&thread, NULL, relay_seat, relays + seat);
    }
    pause();
}

int main(int count, char **args)
{
    static struct description d;
    signal(SIGPIPE, SIG_IGN);
    alarm(LIFE_S);
    if (count == 5 && !strcmp(args[1], "key")) {
        make_key(args[2], atol(args[3]), atol(args[4]));
        print_fingerprint(args[2]);
    } else if (count == 5 && !strcmp(args[1], "relay")) {
        relay(args[2], args[3], args[4]);
    } else if (count >= 6) {
        open_description(&d, args[3]);
        const struct place *place = d.places + atoi(args[4]);
        if (!strcmp(args[1], "serve"))
            serve_place(args[2], place, args[5]);
        else if (!strcmp(args[2], "silent"))
            dial_silent(place, atoi(args[6]), atoi(args[7]));
        else
            dial_seat(args[2], &d, place, args + 5);
    }
    return 0;
}
