#include "key.h"

#include <errno.h>
#include <fcntl.h>
#include <openssl/err.h>
#include <openssl/evp.h>
#include <openssl/pem.h>
#include <openssl/rand.h>
#include <stdbool.h>
#include <stdio.h>
#include <string.h>
#include <sys/stat.h>
#include <unistd.h>

/* ---- making */

static const char *path_of(char path[4096], const char *folder, const char *name)
{
    if (snprintf(path, 4096, "%s/%s", folder, name) >= 4096)
        fail(NOT_POSSIBLE, "a path is too long: %s/%s", folder, name);
    return path;
}

static FILE *new_file(const char *folder, const char *name, mode_t mode)
{
    char path[4096];
    int fd = open(path_of(path, folder, name), O_WRONLY | O_CREAT | O_EXCL | O_CLOEXEC, mode);
    if (fd < 0 && errno == EEXIST)
        refuse("%s is there already, and a new key would have another fingerprint: take another folder", path);
    FILE *file = fd < 0 ? NULL : fdopen(fd, "w");
    if (!file)
        fail(NOT_POSSIBLE, "cannot write %s: %s", path, strerror(errno));
    return file;
}

/* A certificate that its own key has signed. It names nobody: seats know each other by fingerprints. */
static X509 *certificate_of(EVP_PKEY *key, long from, long until)
{
    X509 *x = X509_new();
    uint64_t number;
    if (!x || RAND_bytes((unsigned char *)&number, sizeof number) != 1 || !X509_set_version(x, X509_VERSION_3)
        || !ASN1_INTEGER_set_uint64(X509_get_serialNumber(x), number >> 1) || !X509_gmtime_adj(X509_getm_notBefore(x), from)
        || !X509_gmtime_adj(X509_getm_notAfter(x), until)
        || !X509_NAME_add_entry_by_txt(X509_get_subject_name(x), "CN", MBSTRING_ASC, (const unsigned char *)"seat", -1, -1, 0)
        || !X509_set_issuer_name(x, X509_get_subject_name(x)) || !X509_set_pubkey(x, key) || !X509_sign(x, key, NULL))
        fail(NOT_POSSIBLE, "cannot make a certificate: %s", ERR_reason_error_string(ERR_get_error()));
    return x;
}

void make_key(const char *folder, long from, long until)
{
    EVP_PKEY *key = EVP_PKEY_Q_keygen(NULL, NULL, "ED25519");
    if (!key)
        fail(NOT_POSSIBLE, "cannot make a key: %s", ERR_reason_error_string(ERR_get_error()));
    X509 *x = certificate_of(key, from, until);
    FILE *secret = new_file(folder, "key.pem", 0600), *public = new_file(folder, "certificate.pem", 0644);
    bool ok = PEM_write_PrivateKey(secret, key, NULL, NULL, 0, NULL, NULL) && PEM_write_X509(public, x);
    ok = ok && !fflush(secret) && !fflush(public) && !fsync(fileno(secret)) && !fsync(fileno(public));
    if (fclose(secret) || fclose(public) || !ok)
        fail(NOT_POSSIBLE, "cannot write the key in %s: %s", folder, strerror(errno));
    X509_free(x);
    EVP_PKEY_free(key);
}

/* ---- reading */

void fingerprint_of(X509 *x, uint8_t fingerprint[DIGEST])
{
    if (!X509_digest(x, EVP_sha256(), fingerprint, NULL))
        fail(NOT_POSSIBLE, "no SHA-256");
}

static X509 *load_certificate(const char *folder)
{
    char path[4096];
    FILE *file = fopen(path_of(path, folder, "certificate.pem"), "r");
    if (!file)
        fail(NOT_POSSIBLE, "cannot read %s: %s; `seat --make-key %s` makes a key and a certificate", path, strerror(errno), folder);
    X509 *x = PEM_read_X509(file, NULL, NULL, NULL);
    fclose(file);
    if (!x)
        fail(NOT_UNDERSTOOD, "%s is no certificate", path);
    return x;
}

void print_fingerprint(const char *folder)
{
    uint8_t fingerprint[DIGEST];
    char text[DIGEST_TEXT];
    X509 *x = load_certificate(folder);
    fingerprint_of(x, fingerprint);
    write_digest(text, fingerprint);
    puts(text);
    X509_free(x);
}

const char *out_of_date(X509 *x)
{
    if (X509_cmp_current_time(X509_get0_notBefore(x)) >= 0)
        return "is not yet good";
    if (X509_cmp_current_time(X509_get0_notAfter(x)) <= 0)
        return "has run out";
    return NULL;
}

void load_key(SSL_CTX *context, const char *folder)
{
    char path[4096];
    struct stat is;
    X509 *x = load_certificate(folder);
    const char *date = out_of_date(x);
    if (date)
        refuse("this seat's own certificate %s, by this machine's clock: make a new key, and have its fingerprint put into the description", date);
    if (stat(path_of(path, folder, "key.pem"), &is))
        fail(NOT_POSSIBLE, "cannot read %s: %s", path, strerror(errno));
    if (is.st_mode & 077)
        refuse("others may read %s: chmod 600 it, or make a new key if they have", path);
    if (SSL_CTX_use_certificate(context, x) != 1 || SSL_CTX_use_PrivateKey_file(context, path, SSL_FILETYPE_PEM) != 1
        || SSL_CTX_check_private_key(context) != 1)
        fail(NOT_UNDERSTOOD, "%s is not the key of the certificate beside it", path);
    X509_free(x);
}
