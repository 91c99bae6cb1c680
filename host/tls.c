#define _GNU_SOURCE /* POLLRDHUP */
#include "tls.h"

#include <errno.h>
#include <fcntl.h>
#include <netdb.h>
#include <netinet/tcp.h>
#include <openssl/err.h>
#include <poll.h>
#include <stdio.h>
#include <stdlib.h>
#include <string.h>
#include <sys/socket.h>
#include <time.h>
#include <unistd.h>

enum { HEAD = 4, WAITING_CALLS = 64 };

static const struct description *run;
static unsigned own; /* this seat */
static SSL_CTX *context;

int64_t now_ms(void)
{
    struct timespec now;
    clock_gettime(CLOCK_MONOTONIC, &now);
    return (int64_t)now.tv_sec * 1000 + now.tv_nsec / 1000000;
}

/* ---- who is at the other end */

/* Judges the other end's certificate: its fingerprint alone says whose it is, no authority does. */
static int judge(X509_STORE_CTX *store, void *unused)
{
    (void)unused;
    SSL *ssl = X509_STORE_CTX_get_ex_data(store, SSL_get_ex_data_X509_STORE_CTX_idx());
    struct line *l = SSL_get_app_data(ssl);
    X509 *x = X509_STORE_CTX_get0_cert(store);
    uint8_t fingerprint[DIGEST];
    char text[DIGEST_TEXT];
    fingerprint_of(x, fingerprint);
    write_digest(text, fingerprint);
    unsigned seat = seat_with(run, fingerprint);
    const char *date = out_of_date(x);
    X509_STORE_CTX_set_error(store, X509_V_ERR_CERT_REJECTED);
    if (!seat)
        snprintf(l->trouble, sizeof l->trouble, "its certificate is not in the description; its fingerprint is %s", text);
    else if (seat == own)
        snprintf(l->trouble, sizeof l->trouble, "it shows this seat's own certificate; if that is not this seat itself, its key was stolen");
    else if (l->expected && seat != l->expected)
        snprintf(l->trouble, sizeof l->trouble, "seat %u's certificate answers at seat %u's address", seat, l->expected);
    else if (date) {
        snprintf(l->trouble, sizeof l->trouble, "seat %u's certificate %s, by this machine's clock", seat, date);
        X509_STORE_CTX_set_error(store, X509_V_ERR_CERT_HAS_EXPIRED);
    } else {
        l->seat = seat;
        X509_STORE_CTX_set_error(store, X509_V_OK);
    }
    return l->seat != 0;
}

unsigned open_tls(const struct description *d, const char *folder)
{
    uint8_t fingerprint[DIGEST];
    char text[DIGEST_TEXT];
    run = d;
    context = SSL_CTX_new(TLS_method());
    if (!context || !SSL_CTX_set_min_proto_version(context, TLS1_3_VERSION) || !SSL_CTX_set_max_proto_version(context, TLS1_3_VERSION)
        || !SSL_CTX_set_ciphersuites(context, "TLS_AES_256_GCM_SHA384:TLS_CHACHA20_POLY1305_SHA256")
        || !SSL_CTX_set1_groups_list(context, "X25519:P-256") || !SSL_CTX_set_num_tickets(context, 0))
        fail(NOT_POSSIBLE, "this OpenSSL cannot do TLS 1.3");
    SSL_CTX_set_options(context, SSL_OP_NO_TICKET);
    SSL_CTX_set_session_cache_mode(context, SSL_SESS_CACHE_OFF);
    SSL_CTX_set_mode(context, SSL_MODE_ENABLE_PARTIAL_WRITE | SSL_MODE_ACCEPT_MOVING_WRITE_BUFFER);
    SSL_CTX_set_verify(context, SSL_VERIFY_PEER | SSL_VERIFY_FAIL_IF_NO_PEER_CERT, NULL);
    SSL_CTX_set_cert_verify_callback(context, judge, NULL);
    load_key(context, folder);
    fingerprint_of(SSL_CTX_get0_certificate(context), fingerprint);
    own = seat_with(d, fingerprint);
    write_digest(text, fingerprint);
    if (!own)
        refuse("the certificate in %s is not in the description; its fingerprint is %s", folder, text);
    return own;
}

/* ---- what goes wrong, in words */

static void note(struct line *l, const char *words)
{
    if (!*l->trouble)
        snprintf(l->trouble, sizeof l->trouble, "%s", words);
}

static void note_error(struct line *l, int error)
{
    int why = errno;
    unsigned long queued = ERR_peek_error();
    const char *reason = ERR_reason_error_string(queued);
    l->ended = error == SSL_ERROR_ZERO_RETURN;
    switch (ERR_GET_REASON(queued)) {
    case SSL_R_SSLV3_ALERT_BAD_CERTIFICATE:
        note(l, "it does not take this seat's certificate: its description has another fingerprint for this seat, or another run's");
        break;
    case SSL_R_SSLV3_ALERT_CERTIFICATE_EXPIRED:
        note(l, "by its clock this seat's certificate has run out or is not yet good");
        break;
    case SSL_R_PEER_DID_NOT_RETURN_A_CERTIFICATE:
        note(l, "it has no certificate");
        break;
    case SSL_R_UNSUPPORTED_PROTOCOL:
    case SSL_R_TLSV1_ALERT_PROTOCOL_VERSION:
        note(l, "it does not speak TLS 1.3");
        break;
    case SSL_R_HTTP_REQUEST:
    case SSL_R_WRONG_VERSION_NUMBER:
    case SSL_R_PACKET_LENGTH_TOO_LONG:
        note(l, "it does not speak TLS");
        break;
    case SSL_R_UNEXPECTED_EOF_WHILE_READING:
        note(l, "it cut the connection");
        break;
    default:
        note(l, l->ended ? "it closed the connection" : reason ? reason : why ? strerror(why) : "it cut the connection");
    }
}

/* ---- connections */

/* Waits until a socket is ready for these events; false where the time is over first. */
static bool wait_ready(struct line *l, short events, int64_t until)
{
    struct pollfd p = {l->fd, events, 0};
    for (;;) {
        int64_t left = until - now_ms();
        int ready = left > 0 ? poll(&p, 1, (int)left) : 0;
        if (ready > 0)
            return true;
        if (!ready || errno != EINTR) {
            note(l, "nothing comes from there in time");
            return false;
        }
    }
}

/* Whether an operation that answered `got` is to be tried again, now that the connection is ready for it. */
static bool again(struct line *l, int got, int64_t until)
{
    int error = SSL_get_error(l->ssl, got);
    if (error == SSL_ERROR_WANT_READ)
        return wait_ready(l, POLLIN, until);
    if (error == SSL_ERROR_WANT_WRITE)
        return wait_ready(l, POLLOUT, until);
    note_error(l, error);
    return false;
}

static bool shake_hands(struct line *l, int64_t until)
{
    int got, one = 1;
    setsockopt(l->fd, IPPROTO_TCP, TCP_NODELAY, &one, sizeof one);
    setsockopt(l->fd, SOL_SOCKET, SO_KEEPALIVE, &one, sizeof one);
    l->ssl = SSL_new(context);
    if (!l->ssl || !SSL_set_fd(l->ssl, l->fd))
        fail(NOT_POSSIBLE, "no memory");
    SSL_set_app_data(l->ssl, l);
    do {
        ERR_clear_error();
        errno = 0;
        got = l->expected ? SSL_connect(l->ssl) : SSL_accept(l->ssl);
    } while (got != 1 && again(l, got, until));
    return got == 1;
}

static bool connect_to(struct line *l, const struct addrinfo *to, int64_t until)
{
    int error = 0;
    socklen_t len = sizeof error;
    l->fd = socket(to->ai_family, to->ai_socktype | SOCK_NONBLOCK | SOCK_CLOEXEC, 0);
    if (l->fd >= 0 && connect(l->fd, to->ai_addr, to->ai_addrlen) && errno != EINPROGRESS)
        error = errno;
    else if (l->fd < 0 || !wait_ready(l, POLLOUT, until) || getsockopt(l->fd, SOL_SOCKET, SO_ERROR, &error, &len))
        error = ETIMEDOUT;
    if (!error)
        return true;
    snprintf(l->trouble, sizeof l->trouble, "%s", strerror(error));
    if (l->fd >= 0)
        close(l->fd);
    return false;
}

bool dial(struct line *l, unsigned seat, int seconds)
{
    struct addrinfo how = {.ai_socktype = SOCK_STREAM}, *all;
    int64_t until = now_ms() + 1000 * seconds;
    memset(l, 0, sizeof *l);
    l->expected = seat;
    int error = getaddrinfo(run->places[seat].address, run->places[seat].port, &how, &all);
    if (error) {
        snprintf(l->trouble, sizeof l->trouble, "no such address: %s", gai_strerror(error));
        return false;
    }
    bool there = false;
    for (const struct addrinfo *to = all; to && !there; to = to->ai_next)
        there = connect_to(l, to, until);
    freeaddrinfo(all);
    if (!there)
        return false;
    *l->trouble = 0;
    if (shake_hands(l, until))
        return true;
    hang_up(l, false);
    return false;
}

/* Reads what the other end still sends, for a second: closing at once would cut off the alert that says why the call was refused. */
static void let_finish(struct line *l)
{
    uint8_t rest[4096];
    int64_t until = now_ms() + 1000;
    struct line quiet = {.fd = l->fd};
    shutdown(l->fd, SHUT_WR);
    while (wait_ready(&quiet, POLLIN, until) && read(l->fd, rest, sizeof rest) > 0)
        ;
}

bool take_call(struct line *l, int fd, int seconds)
{
    memset(l, 0, sizeof *l);
    l->fd = fd;
    fcntl(fd, F_SETFL, fcntl(fd, F_GETFL) | O_NONBLOCK);
    if (shake_hands(l, now_ms() + 1000 * seconds))
        return true;
    let_finish(l);
    return false;
}

int listen_at(const char *address, const char *port)
{
    struct addrinfo how = {.ai_socktype = SOCK_STREAM, .ai_flags = AI_PASSIVE}, *at;
    int error = getaddrinfo(address, port, &how, &at), one = 1;
    if (error)
        fail(NOT_POSSIBLE, "cannot listen at %s port %s: %s", address, port, gai_strerror(error));
    int fd = socket(at->ai_family, at->ai_socktype | SOCK_CLOEXEC, 0);
    if (fd < 0 || setsockopt(fd, SOL_SOCKET, SO_REUSEADDR, &one, sizeof one) || bind(fd, at->ai_addr, at->ai_addrlen) || listen(fd, WAITING_CALLS))
        fail(NOT_POSSIBLE, "cannot listen at %s port %s: %s%s", address, port, strerror(errno),
             errno == EADDRNOTAVAIL ? "; where this machine has another address, `--listen ADDRESS PORT` names it" : "");
    freeaddrinfo(at);
    return fd;
}

/* ---- messages */

static bool move_all(struct line *l, uint8_t *at, size_t len, bool out, int64_t until)
{
    while (len) {
        size_t moved = 0;
        ERR_clear_error();
        errno = 0;
        int got = out ? SSL_write_ex(l->ssl, at, len, &moved) : SSL_read_ex(l->ssl, at, len, &moved);
        if (got != 1 && !again(l, got, until))
            return false;
        at += moved;
        len -= moved;
    }
    return true;
}

bool send_message(struct line *l, const uint8_t *message, size_t len, int seconds)
{
    struct bytes all = fresh_bytes(HEAD + len);
    for (int i = 0; i < HEAD; i++)
        all.at[i] = (uint8_t)(len >> (8 * i));
    memcpy(all.at + HEAD, message, len);
    bool ok = move_all(l, all.at, all.len, true, now_ms() + 1000 * seconds);
    OPENSSL_cleanse(all.at, all.len);
    free(all.at);
    return ok;
}

long receive_message(struct line *l, uint8_t *message, size_t least, size_t most, int seconds)
{
    uint8_t head[HEAD];
    size_t len = 0;
    int64_t until = now_ms() + 1000 * seconds;
    if (!move_all(l, head, HEAD, false, until))
        return -1;
    for (int i = 0; i < HEAD; i++)
        len |= (size_t)head[i] << (8 * i);
    if (len < least || len > most) {
        l->broken = true;
        snprintf(l->trouble, sizeof l->trouble, "it announces a message of %zu bytes where one of %zu to %zu is expected", len, least, most);
        return -1;
    }
    return move_all(l, message, len, false, until) ? (long)len : -1;
}

bool is_gone(const struct line *l)
{
    struct pollfd p = {l->fd, POLLRDHUP, 0};
    return poll(&p, 1, 0) > 0;
}

void hang_up(struct line *l, bool in_order)
{
    if (!l->ssl)
        return;
    if (in_order)
        SSL_shutdown(l->ssl);
    SSL_free(l->ssl);
    close(l->fd);
    l->ssl = NULL;
}
