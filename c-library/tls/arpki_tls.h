/*
 * arpki_tls.h: the client's rule inside a TLS handshake, for programs in C over OpenSSL 3 and libarpki.
 *
 * A server shows, beside its certificate, that its TLS key is the name's: a proof of arpki, which arpki_staple judges. A client
 * that has a context of arpki_tls_use refuses a server within the handshake, before a byte of a request is sent. docs/TLS.md has the
 * bytes, and says what is refused when; what it says of a client is what arpki_tls_client.c does.
 *
 * A client, for each program: fill in arpki_tls_settings, and call arpki_tls_client_new. For each SSL_CTX: arpki_tls_use. For each
 * SSL: SSL_new, SSL_set_session (if it has one), arpki_tls_expect with the name, SSL_connect, and then arpki_tls_finish. Go on only
 * where this answers ARPKI_TLS_ACCEPTED, or ARPKI_TLS_UNPROVED where the name need not be proved. Whatever is refused is refused
 * in the handshake already; arpki_tls_finish keeps what was learnt and pinned, and tells what was found.
 *
 * A server: arpki_tls_serve for each SSL_CTX, with a function that gives the bytes for a TLS key. arpki_tls_read_name, _read_answer
 * and the others of the first part read and write the bytes; a server needs arpki_tls_form.c and arpki_tls_server.c alone, and no
 * libarpki.
 *
 * OWNERSHIP. What a call is given stays the caller's, unless it says otherwise. THREADS. One client, and one SSL_CTX, serve any number
 * of threads at once, each with an SSL of its own; the functions of the settings are then called by several threads at once.
 */
#ifndef ARPKI_TLS_H
#define ARPKI_TLS_H

#include <stddef.h>
#include <stdint.h>
#include <openssl/ssl.h>

#ifdef __cplusplus
extern "C" {
#endif

/* ---- the bytes (docs/TLS.md). No function of this part takes memory or keeps anything. */

enum {
    ARPKI_TLS_EXTENSION = 65280,     /* the number of the extension */
    ARPKI_TLS_VERSION = 1,           /* the one version there is */
    ARPKI_TLS_MOST = 65531,          /* bytes of an extension: with its number and its length, all extensions of a certificate have at
                                      * most 65,535 */
    ARPKI_TLS_ROOM = 61440,          /* bytes that a server writes at most, so that other extensions have room beside it */
    ARPKI_TLS_MOST_KNOWN = 32,       /* generations that a client may say */
    ARPKI_TLS_MOST_HELLO = 514,      /* bytes that a client may say */
    ARPKI_TLS_MOST_NOTES = 255,      /* RollNotes of an answer */
    ARPKI_TLS_MOST_SIGNERS = 48,     /* parties of which a confirmation and its links may want a RollNote, as far as they are told */
    ARPKI_TLS_DIGEST = 32
};

/* Bytes that are somebody else's. `at` is never null, also where `len` is 0. */
typedef struct arpki_tls_bytes {
    const uint8_t *at;
    size_t len;
} arpki_tls_bytes;

/* A generation of a party's key. */
typedef struct arpki_tls_generation {
    uint8_t role;    /* 1 log, 2 authority */
    uint16_t number;
    uint32_t generation;
} arpki_tls_generation;

/* What a client says in its ClientHello. */
typedef struct arpki_tls_hello {
    int says_pin;                    /* whether `pin` is said */
    uint8_t pin[ARPKI_TLS_DIGEST];   /* the digest of the newest certificate that it has pinned of the name */
    int says_known;                  /* whether `known` is said: it wants RollNotes */
    size_t known_len;
    arpki_tls_generation known[ARPKI_TLS_MOST_KNOWN]; /* ascending; a party that is not among them is at generation 0 */
} arpki_tls_hello;

/* What a server answers, as lent by arpki_tls_read_answer. */
typedef struct arpki_tls_answer {
    arpki_tls_bytes confirmation;
    arpki_tls_bytes staple;
    arpki_tls_bytes links;           /* changes, one behind the other */
    arpki_tls_bytes notes;           /* for arpki_tls_next_note */
    unsigned notes_len;
} arpki_tls_answer;

/* Writes what a client says, and returns how many bytes it has. 0: `hello` is not of its form. */
size_t arpki_tls_write_hello(const arpki_tls_hello *hello, uint8_t out[ARPKI_TLS_MOST_HELLO]);

/* Reads it. 1: read. 0: not of the form, or of other versions alone. */
int arpki_tls_read_hello(const uint8_t *in, size_t len, arpki_tls_hello *hello);

/* Reads a proof, as a site's folder has it: a confirmation and a staple, each behind its length. 1: read; 0: not of the form. */
int arpki_tls_read_proof(const uint8_t *in, size_t len, arpki_tls_answer *proof);

/* Writes an answer: the proof, the notes as far as they fit, and the links, change by change, as far as they fit beside them.
 * `out` has room for ARPKI_TLS_ROOM bytes. Returns how many were written; 0 where the proof is not of its form, or does not fit. */
size_t arpki_tls_write_answer(arpki_tls_bytes proof, arpki_tls_bytes links, const arpki_tls_bytes *notes, size_t notes_len,
                              uint8_t *out);

/* Reads an answer. 1: read; 0: not of the form; -1: of a version that was not offered. */
int arpki_tls_read_answer(const uint8_t *in, size_t len, arpki_tls_answer *answer);

/* Takes the next RollNote off the front of `notes`. 1: taken; 0: there is none. */
int arpki_tls_next_note(arpki_tls_bytes *notes, arpki_tls_bytes *note);

/* Takes the next change off the front of `changes`, and lends it and its certificate's bytes. 1: taken; 0: there is none, or what
 * is there begins with no change. */
int arpki_tls_next_change(arpki_tls_bytes *changes, arpki_tls_bytes *change, arpki_tls_bytes *certificate);

/* The epoch of a confirmation; 0 where the bytes are not long enough to have one. */
uint64_t arpki_tls_epoch_of(arpki_tls_bytes confirmation);

/* By which keys the signatures of a confirmation, and of the endorsements in links, are: for each party the newest generation.
 * Returns how many parties stand in `signers`. Bytes that are no confirmation give none. */
size_t arpki_tls_signers(arpki_tls_bytes confirmation, arpki_tls_bytes links,
                         arpki_tls_generation signers[ARPKI_TLS_MOST_SIGNERS]);

/* The generation of a party that a client knows, as it says. */
uint32_t arpki_tls_known_of(const arpki_tls_hello *hello, uint8_t role, uint16_t number);

/* The digest of the newest certificate of a pin. 1: written; 0: the bytes are no changes, or none. */
int arpki_tls_newest(const uint8_t *pin, size_t len, uint8_t digest[ARPKI_TLS_DIGEST]);

/* Makes the name that a client asks for out of a host name: lower case, without a dot at its end. `out` has room for 254 bytes.
 * 1: it is a name; 0: it is none, or an address. */
int arpki_tls_read_name(const char *host, char out[254]);

/* SHA-256 of the SubjectPublicKeyInfo of a certificate's key. 1: written; 0: it has none that can be written. */
int arpki_tls_channel(X509 *certificate, uint8_t channel[ARPKI_TLS_DIGEST]);

/* ---- a server */

/* What a server's function is asked. All of it is lent for the call. */
typedef struct arpki_tls_asked {
    const uint8_t *channel;          /* 32 bytes: which TLS key the server uses on this connection */
    const char *name;                /* which name the client told in its SNI; "" where it told none */
    const arpki_tls_hello *hello;
} arpki_tls_asked;

/* Gives an answer: OPENSSL_malloc'd bytes, as arpki_tls_write_answer writes them, which the library frees. 1: given; 0: there is
 * none, and the handshake goes on without. */
typedef int (*arpki_tls_giver)(void *arg, const arpki_tls_asked *asked, uint8_t **bytes, size_t *len);

/* Has a server's context show proofs to the clients that ask. Call it once for each context. 1: done; 0: it could not be. */
int arpki_tls_serve(SSL_CTX *ctx, arpki_tls_giver give, void *arg);

/* ---- a client */

struct arpki_keys;
struct arpki_entry;

/* What arpki_tls_finish and the callback `tell` answer. */
enum {
    ARPKI_TLS_ACCEPTED = 0,   /* the server proved that its TLS key is the name's */
    ARPKI_TLS_UNPROVED = 1,   /* it showed no proof, or one that the name has no certificate, and the name need not have one: go on
                               * as without arpki */
    ARPKI_TLS_REFUSED = 2     /* do not go on; `reason` says why */
};

/* Why a server is refused. */
enum {
    ARPKI_TLS_NO_REASON = 0,
    ARPKI_TLS_NO_NAME = 1,       /* no name was told for the connection, or it is none */
    ARPKI_TLS_TWO_NAMES = 2,     /* the name that is told to the server is another than the one that is verified */
    ARPKI_TLS_OLD_TLS = 3,       /* the name has to be proved, and the handshake is of a version below TLS 1.3 */
    ARPKI_TLS_NO_PROOF = 4,      /* the name has to be proved, and the server showed no proof */
    ARPKI_TLS_FORM = 5,          /* what the server showed is not of the form */
    ARPKI_TLS_BAD_PROOF = 6,     /* arpki_staple did not accept it: `outcome` and `check` are its own */
    ARPKI_TLS_BAD_PIN = 7,       /* arpki_follow did not: `outcome` and `check` are its own */
    ARPKI_TLS_GONE = 8,          /* it is proved that the name has no certificate, and it has to have one */
    ARPKI_TLS_OTHER_KEY = 9,     /* a party signed two next keys: believe it no more */
    ARPKI_TLS_SESSION = 10,      /* the connection was resumed, or keyed beforehand, and not by a session that was judged */
    ARPKI_TLS_STORE = 11,        /* pins or keys could not be read or kept */
    ARPKI_TLS_MEMORY = 12,       /* there was no memory */
    ARPKI_TLS_UNFINISHED = 13,   /* the handshake is not over, or failed for a reason of TLS's own */
    ARPKI_TLS_CERTIFICATE = 14   /* the certificate has no key that can be read */
};

/* What was found of a server. */
typedef struct arpki_tls_report {
    const char *name;                     /* lent as long as the SSL is there */
    int verdict;                          /* ARPKI_TLS_ACCEPTED, ARPKI_TLS_UNPROVED or ARPKI_TLS_REFUSED */
    int reason;                           /* of ARPKI_TLS_REFUSED */
    uint32_t outcome, check;              /* of ARPKI_TLS_BAD_PROOF and ARPKI_TLS_BAD_PIN */
    int must_be_proved;                   /* whether the name was pinned or listed */
    int resumed;                          /* whether the proof is that of an earlier connection, judged anew */
    uint64_t epoch, serial;               /* of ARPKI_TLS_ACCEPTED */
    uint8_t certificate[ARPKI_TLS_DIGEST];
} arpki_tls_report;

/* What a client trusts, and where it keeps what it learns. Functions that may be null say so; `arg` is handed to each. */
typedef struct arpki_tls_settings {
    /* The directory, and the entries learnt so far. It is copied. */
    const struct arpki_keys *keys;
    /* The schedule: when epoch 0 begins and how long an epoch is, in milliseconds, and how many epochs old a proof may be. */
    uint64_t zero, length, age;
    /* Milliseconds since 1970, by a clock that is trusted. Null: the system's. */
    uint64_t (*clock)(void *arg);
    /* Whether a name has to be proved though it is not pinned: it is on a list. Null: none is. */
    int (*is_listed)(void *arg, const char *name);
    /* The pin of a name, in a block of malloc that the library frees; `len` 0 where there is none. 1: told; 0: the store failed.
     * Null, with `keep_pin`: nothing is pinned. */
    int (*pin_of)(void *arg, const char *name, uint8_t **pin, size_t *len);
    /* Puts `pin` in the place of `old`, as a whole. 1: kept; 2: the pin is not `old` any more, and nothing is changed; 0: the store
     * failed. */
    int (*keep_pin)(void *arg, const char *name, arpki_tls_bytes old, arpki_tls_bytes pin);
    /* Links behind the pin that the caller has from elsewhere, which stand in the place of the server's: a block of malloc. 1: given;
     * 0: there are none. May be null. */
    int (*links_of)(void *arg, const char *name, const uint8_t *newest, uint8_t **links, size_t *len);
    /* Keeps an entry behind the others. 1: kept; 0: the store failed. Null: entries are known to this client alone. */
    int (*keep_entry)(void *arg, const struct arpki_entry *entry);
    /* Is told of each connection once, when it is refused or finished. May be null. */
    void (*tell)(void *arg, const arpki_tls_report *report);
    /* Verifies the certificate by today's rules, where the connection is not refused. Null: X509_verify_cert. */
    int (*verify)(void *arg, SSL *ssl, X509_STORE_CTX *store);
    void *arg;
    /* Whether to say the pinned certificate's digest, and the generations of keys, in the ClientHello, where whoever is on the wire
     * reads it. Say 0 at first, and 1 where a server was refused for want of links, or of a key. */
    int say_pin, say_known;
    /* Whether an SSL of which arpki_tls_expect was not called takes the name that it tells in its SNI, and that alone. Where this is 0,
     * its handshake fails. */
    int names_by_sni;
} arpki_tls_settings;

typedef struct arpki_tls_client arpki_tls_client;

/* Makes a client. NULL: no memory, or a setting is missing. */
arpki_tls_client *arpki_tls_client_new(const arpki_tls_settings *settings);

/* Frees a client. No context of it may be in use. */
void arpki_tls_client_free(arpki_tls_client *client);

/* Has a context judge servers: it gets the extension, and a certificate callback (SSL_CTX_set_cert_verify_callback), so set none of
 * your own. Call it for each context, before the first SSL_new; a second call changes nothing. 1: done; 0: it could not be. */
int arpki_tls_use(arpki_tls_client *client, SSL_CTX *ctx);

/* Tells which name a connection is to; NULL, where `names_by_sni` is set: the one that is told in its SNI. It sets the SNI and the host that OpenSSL verifies, reads the pin, and takes away a session
 * that is not to be resumed. Call it before the handshake, behind SSL_set_session. 1: done; 0: the connection is refused
 * (arpki_tls_finish says why), and a handshake will fail. */
int arpki_tls_expect(SSL *ssl, const char *name);

/* Behind the handshake: says what was found, and keeps what was pinned and learnt. Call it before the first write, and also where
 * the handshake failed. Returns report->verdict. */
int arpki_tls_finish(SSL *ssl, arpki_tls_report *report);

/* What a report says, for people, in one line without an end. Returns `line`. */
const char *arpki_tls_say(const arpki_tls_report *report, char *line, size_t len);

#ifdef __cplusplus
}
#endif

#endif
