/* A plant's key and its certificate: FOLDER/key.pem, which its owner alone can read, and FOLDER/certificate.pem. */
#ifndef KEY_H
#define KEY_H

#include <openssl/ssl.h>

#include "description.h"

/* Makes a key, and a certificate that is good between two times in seconds from now. What is there is not replaced. */
void make_key(const char *folder, long from, long until);

/* Prints the certificate's fingerprint. */
void print_fingerprint(const char *folder);

/* Loads both for the connections of a context. */
void load_key(SSL_CTX *context, const char *folder);

/* A certificate's SHA-256. */
void fingerprint_of(X509 *certificate, uint8_t fingerprint[DIGEST]);

/* What is wrong with a certificate's times, by this machine's clock; null where they hold. */
const char *out_of_date(X509 *certificate);

#endif
