/* A client that judges in the handshake: docs/TLS.md, "A client". What is refused is refused by a callback of the handshake: `take`
 * where the server shows a proof, `verify` where it shows none, `say` before anything is sent. */
#include "arpki_tls.h"

#include <arpki.h>
#include <inttypes.h>
#include <pthread.h>
#include <stdio.h>
#include <stdlib.h>
#include <string.h>
#include <time.h>
#include <openssl/err.h>
#include <openssl/x509_vfy.h>

struct arpki_tls_client {
    arpki_tls_settings is;
    pthread_mutex_t lock; /* over `learnt` and `learnt_len` */
    arpki_key *logs, *authorities;
    size_t logs_len, authorities_len, quorum;
    arpki_entry *learnt;
    size_t learnt_len;
};

/* Keys as they stand at one moment, for one judgement, with what its notes taught behind them. */
typedef struct known {
    arpki_keys keys;
    arpki_entry *learnt; /* owned */
    size_t old_len;      /* how many were learnt before */
} known;

/* What was found of a proof. */
typedef struct found {
    int is_proved;       /* accepted, by the staple and by the pin */
    int is_absent;       /* the name has no certificate */
    arpki_answer answer;
    uint32_t keep;
    size_t first_len;
    uint8_t first[ARPKI_FIRST_SIZE];
} found;

/* What is known of one connection. */
typedef struct connection {
    arpki_tls_client *client;
    char name[254];
    int must_be_proved;
    uint8_t *pin;          /* of malloc; none where pin_len is 0 */
    size_t pin_len;
    uint8_t newest[ARPKI_TLS_DIGEST];
    int came;              /* whether the server showed something */
    found shown;           /* by this handshake */
    found before;          /* by the session that is resumed */
    SSL_SESSION *session;  /* the one that may be resumed; owned */
    uint8_t *bytes;        /* what the server showed; of malloc */
    arpki_tls_bytes confirmation, links; /* what was judged, in `bytes` or in `elsewhere` */
    uint8_t *elsewhere;    /* links that the caller gave; of malloc */
    uint64_t now;
    arpki_entry *fresh;    /* what notes taught; of malloc */
    size_t fresh_len;
    int reason;            /* why it is refused, or ARPKI_TLS_NO_REASON */
    uint32_t outcome, check;
    int is_told, is_kept;
} connection;

static pthread_once_t once = PTHREAD_ONCE_INIT;
static int connection_index = -1; /* of an SSL */
static int client_index = -1;     /* of an SSL_CTX */

static void free_connection(connection *c)
{
    if (c == NULL)
        return;
    free(c->pin);
    free(c->bytes);
    free(c->elsewhere);
    free(c->fresh);
    SSL_SESSION_free(c->session);
    free(c);
}

static void drop_connection(void *parent, void *c, CRYPTO_EX_DATA *data, int index, long argl, void *argp)
{
    (void)parent, (void)data, (void)index, (void)argl, (void)argp;
    free_connection(c);
}

/* A copy of an SSL has no connection yet. */
static int copy_connection(CRYPTO_EX_DATA *to, const CRYPTO_EX_DATA *from, void **c, int index, long argl, void *argp)
{
    (void)to, (void)from, (void)index, (void)argl, (void)argp;
    *c = NULL;
    return 1;
}

static void take_indexes(void)
{
    connection_index = SSL_get_ex_new_index(0, NULL, NULL, copy_connection, drop_connection);
    client_index = SSL_CTX_get_ex_new_index(0, NULL, NULL, NULL, NULL);
}

static connection *connection_of(const SSL *ssl)
{
    return connection_index < 0 ? NULL : SSL_get_ex_data(ssl, connection_index);
}

/* ---- what is told */

static void report_of(const connection *c, int verdict, const found *what, arpki_tls_report *report)
{
    memset(report, 0, sizeof *report);
    report->name = c->name;
    report->verdict = verdict;
    report->reason = c->reason;
    report->outcome = c->outcome;
    report->check = c->check;
    report->must_be_proved = c->must_be_proved;
    report->resumed = what == &c->before;
    if (verdict == ARPKI_TLS_ACCEPTED) {
        report->epoch = what->answer.epoch;
        report->serial = what->answer.serial;
        memcpy(report->certificate, what->answer.certificate, ARPKI_TLS_DIGEST);
    }
}

static void tell(connection *c, const arpki_tls_report *report)
{
    if (!c->is_told && c->client->is.tell != NULL)
        c->client->is.tell(c->client->is.arg, report);
    c->is_told = 1;
}

/* Refuses a connection for a reason; the first one stays. Answers 0. */
static int refuse(connection *c, int reason, uint32_t outcome, uint32_t check)
{
    arpki_tls_report report;
    if (c->reason == ARPKI_TLS_NO_REASON) {
        c->reason = reason;
        c->outcome = outcome;
        c->check = check;
    }
    report_of(c, ARPKI_TLS_REFUSED, &c->shown, &report);
    tell(c, &report);
    return 0;
}

/* ---- what a client is */

static int is_new(const arpki_entry *learnt, size_t len, const arpki_entry *entry)
{
    for (size_t i = 0; i < len; i++)
        if (memcmp(&learnt[i], entry, sizeof *entry) == 0)
            return 0;
    return 1;
}

static void *copy_of(const void *from, size_t count, size_t size)
{
    void *to = calloc(count + 1, size);
    if (to != NULL && count != 0)
        memcpy(to, from, count * size);
    return to;
}

arpki_tls_client *arpki_tls_client_new(const arpki_tls_settings *settings)
{
    arpki_tls_client *client;
    if (settings->keys == NULL || settings->length == 0 || (settings->pin_of == NULL) != (settings->keep_pin == NULL)
        || pthread_once(&once, take_indexes) != 0 || connection_index < 0 || client_index < 0)
        return NULL;
    client = calloc(1, sizeof *client);
    if (client == NULL)
        return NULL;
    client->is = *settings;
    client->is.keys = NULL;
    client->logs_len = settings->keys->logs_len;
    client->authorities_len = settings->keys->authorities_len;
    client->learnt_len = settings->keys->learnt_len;
    client->quorum = settings->keys->quorum;
    client->logs = copy_of(settings->keys->logs, client->logs_len, sizeof(arpki_key));
    client->authorities = copy_of(settings->keys->authorities, client->authorities_len, sizeof(arpki_key));
    client->learnt = copy_of(settings->keys->learnt, client->learnt_len, sizeof(arpki_entry));
    if (client->logs == NULL || client->authorities == NULL || client->learnt == NULL
        || pthread_mutex_init(&client->lock, NULL) != 0) {
        free(client->logs);
        free(client->authorities);
        free(client->learnt);
        free(client);
        return NULL;
    }
    return client;
}

void arpki_tls_client_free(arpki_tls_client *client)
{
    if (client == NULL)
        return;
    pthread_mutex_destroy(&client->lock);
    free(client->logs);
    free(client->authorities);
    free(client->learnt);
    free(client);
}

/* Copies the keys, with room for `more` entries. 0: no memory. */
static int take_keys(arpki_tls_client *client, size_t more, known *k)
{
    pthread_mutex_lock(&client->lock);
    k->old_len = client->learnt_len;
    k->learnt = calloc(k->old_len + more + 1, sizeof *k->learnt);
    if (k->learnt != NULL && k->old_len != 0)
        memcpy(k->learnt, client->learnt, k->old_len * sizeof *k->learnt);
    pthread_mutex_unlock(&client->lock);
    k->keys = (arpki_keys){client->logs, client->logs_len, client->authorities, client->authorities_len, k->learnt, k->old_len,
                           client->quorum};
    return k->learnt != NULL;
}

/* Puts an entry behind those of the client, unless it is there. 0: no memory, or the store failed. */
static int add_entry(arpki_tls_client *client, const arpki_entry *entry)
{
    int done = 1;
    pthread_mutex_lock(&client->lock);
    if (is_new(client->learnt, client->learnt_len, entry)) {
        arpki_entry *more = realloc(client->learnt, (client->learnt_len + 2) * sizeof *more);
        done = more != NULL;
        if (done) {
            client->learnt = more;
            done = client->is.keep_entry == NULL || client->is.keep_entry(client->is.arg, entry);
            if (done)
                client->learnt[client->learnt_len++] = *entry;
        }
    }
    pthread_mutex_unlock(&client->lock);
    return done;
}

static uint64_t milliseconds(const arpki_tls_client *client)
{
    struct timespec now;
    if (client->is.clock != NULL)
        return client->is.clock(client->is.arg);
    if (clock_gettime(CLOCK_REALTIME, &now) != 0)
        return 0;
    return (uint64_t)now.tv_sec * 1000 + (uint64_t)now.tv_nsec / 1000000;
}

/* The clock's epoch, or the confirmation's where that is one or two later. */
static uint64_t now_for(const arpki_tls_client *client, arpki_tls_bytes confirmation)
{
    uint64_t time = milliseconds(client), shown = arpki_tls_epoch_of(confirmation);
    uint64_t clock = time < client->is.zero ? 0 : (time - client->is.zero) / client->is.length;
    return shown > clock && shown - clock <= 2 ? shown : clock;
}

/* ---- judging */

/* Learns the notes of an answer. What is no note of a known party teaches nothing. 0: refused. */
static int learn_notes(connection *c, known *k, const arpki_tls_answer *answer)
{
    arpki_tls_bytes notes = answer->notes, note;
    arpki_lesson lesson;
    while (arpki_tls_next_note(&notes, &note)) {
        uint32_t outcome = arpki_learn(&k->keys, note.at, note.len, &lesson);
        if (outcome == ARPKI_LEARNT)
            k->learnt[k->keys.learnt_len++] = lesson.entry;
        else if (outcome == ARPKI_OTHER_KEY)
            return refuse(c, ARPKI_TLS_OTHER_KEY, outcome, lesson.check);
        else if (outcome == ARPKI_NO_MEMORY)
            return refuse(c, ARPKI_TLS_MEMORY, 0, 0);
    }
    return 1;
}

static arpki_question question_of(const connection *c, arpki_tls_bytes confirmation)
{
    return (arpki_question){(const uint8_t *)c->name, strlen(c->name), confirmation.at, confirmation.len, c->now, c->client->is.age};
}

/* Why a judgement is refused: want of memory is a reason of its own. */
static int reason_of(uint32_t outcome, int reason)
{
    return outcome == ARPKI_NO_MEMORY ? ARPKI_TLS_MEMORY : reason;
}

/* Holds a certificate that the staple proved against the pin. 0: refused, with the reason in `outcome` and `check`. */
static int follow(connection *c, const known *k, arpki_tls_bytes confirmation, arpki_tls_bytes links, found *f, uint32_t *outcome,
                  uint32_t *check)
{
    static const uint8_t nothing[1];
    arpki_question question = question_of(c, confirmation);
    arpki_followed followed;
    *outcome = arpki_follow(&k->keys, &question, c->pin_len == 0 ? nothing : c->pin, c->pin_len, links.at, links.len, &followed);
    *check = followed.answer.check;
    if (*outcome != ARPKI_ACCEPTED || memcmp(followed.answer.certificate, f->answer.certificate, ARPKI_TLS_DIGEST) != 0)
        return 0;
    f->keep = followed.keep;
    f->first_len = followed.first_len;
    memcpy(f->first, followed.first, sizeof f->first);
    return 1;
}

/* Judges a confirmation and a staple under keys, for a TLS key. 1: proved, or it is shown that the name has no certificate and it need
 * not have one. 0: not; then the reason, the outcome and the check say why. */
static int judge(connection *c, const known *k, arpki_tls_bytes confirmation, arpki_tls_bytes staple, arpki_tls_bytes links,
                 const uint8_t channel[ARPKI_TLS_DIGEST], found *f, int *reason, uint32_t *outcome, uint32_t *check)
{
    arpki_question question = question_of(c, confirmation);
    memset(f, 0, sizeof *f);
    *outcome = arpki_staple(&k->keys, &question, channel, staple.at, staple.len, &f->answer);
    *check = f->answer.check;
    *reason = ARPKI_TLS_BAD_PROOF;
    if (*outcome == ARPKI_ABSENT) {
        *reason = ARPKI_TLS_GONE;
        f->is_absent = 1;
        return !c->must_be_proved;
    }
    if (*outcome == ARPKI_ACCEPTED) {
        *reason = ARPKI_TLS_BAD_PIN;
        f->is_proved = c->client->is.pin_of == NULL || follow(c, k, confirmation, links, f, outcome, check);
        if (f->is_proved)
            return 1;
    }
    *reason = reason_of(*outcome, *reason);
    return 0;
}

/* Takes links from elsewhere, or else the server's; they are kept until the handshake is over. */
static void take_links(connection *c, const arpki_tls_answer *answer)
{
    const arpki_tls_settings *is = &c->client->is;
    size_t len = 0;
    c->links = answer->links;
    if (c->pin_len != 0 && is->links_of != NULL && is->links_of(is->arg, c->name, c->newest, &c->elsewhere, &len)
        && c->elsewhere != NULL)
        c->links = (arpki_tls_bytes){c->elsewhere, len};
}

/* ---- the session that a connection would resume: it keeps the proof, which is judged anew */

static const char MARK[8] = "arpkiTLS";

/* Puts a proof to the session of a handshake: a mark, the TLS key's digest, the name behind its length, and confirmation and staple,
 * each behind its length. Where there is no memory nothing is kept, and the session will not be resumed. */
static void keep_in_session(const connection *c, SSL *ssl, const uint8_t channel[ARPKI_TLS_DIGEST], const arpki_tls_answer *answer)
{
    SSL_SESSION *session = SSL_get_session(ssl);
    size_t name_len = strlen(c->name), proof_len = 8 + answer->confirmation.len + answer->staple.len;
    size_t len = sizeof MARK + ARPKI_TLS_DIGEST + 1 + name_len + proof_len;
    uint8_t *data = malloc(len), *at = data;
    if (data != NULL && session != NULL) {
        memcpy(at, MARK, sizeof MARK);
        at += sizeof MARK;
        memcpy(at, channel, ARPKI_TLS_DIGEST);
        at += ARPKI_TLS_DIGEST;
        *at++ = (uint8_t)name_len;
        memcpy(at, c->name, name_len);
        at += name_len;
        /* confirmation and staple stand one behind the other in what the server showed, each behind its length */
        memcpy(at, answer->confirmation.at - 4, proof_len);
        SSL_SESSION_set1_ticket_appdata(session, data, len);
    }
    free(data);
}

/* Whether a session has a proof for this name that is still good; what is found of it is in `before`. */
static int is_proved_session(connection *c, SSL_SESSION *session)
{
    void *data = NULL;
    size_t len = 0, name_len = strlen(c->name), head = sizeof MARK + ARPKI_TLS_DIGEST + 1 + name_len;
    arpki_tls_answer proof;
    known k;
    int reason, done;
    uint32_t outcome, check;
    if (!SSL_SESSION_get0_ticket_appdata(session, &data, &len) || data == NULL || len < head)
        return 0;
    const uint8_t *at = data;
    if (memcmp(at, MARK, sizeof MARK) != 0 || at[sizeof MARK + ARPKI_TLS_DIGEST] != name_len
        || memcmp(at + head - name_len, c->name, name_len) != 0 || !arpki_tls_read_proof(at + head, len - head, &proof)
        || !take_keys(c->client, 0, &k))
        return 0;
    c->now = now_for(c->client, proof.confirmation);
    done = judge(c, &k, proof.confirmation, proof.staple, (arpki_tls_bytes){(const uint8_t *)"", 0}, at + sizeof MARK, &c->before,
                 &reason, &outcome, &check)
           && c->before.is_proved;
    free(k.learnt);
    return done;
}

/* Whether a session has data of ours. */
static int has_mark(SSL_SESSION *session)
{
    void *data = NULL;
    size_t len = 0;
    return SSL_SESSION_get0_ticket_appdata(session, &data, &len) && data != NULL && len >= sizeof MARK
           && memcmp(data, MARK, sizeof MARK) == 0;
}

/* Takes away a session that is not to be resumed. One with a proof is resumed without early data; one without, where the name need not
 * be proved. 0: it could not be done. */
static int choose_session(connection *c, SSL *ssl)
{
    SSL_SESSION *session = SSL_get_session(ssl), *copy;
    if (session == NULL)
        return 1;
    if (is_proved_session(c, session)) {
        copy = SSL_SESSION_dup(session);
        if (copy == NULL)
            return 0;
        c->session = copy;
        return (SSL_SESSION_set_max_early_data(copy, 0) && SSL_set_session(ssl, copy)) || SSL_set_session(ssl, NULL);
    }
    if (!c->must_be_proved && !has_mark(session)) {
        c->session = SSL_SESSION_up_ref(session) ? session : NULL;
        return c->session != NULL;
    }
    return SSL_set_session(ssl, NULL);
}

/* ---- the handshake */

/* Whether the name in the SNI is the one that is expected: an SSL may have been cleared and used again. */
static int is_told_still(const connection *c, const SSL *ssl)
{
    const char *sni = SSL_get_servername(ssl, TLSEXT_NAMETYPE_host_name);
    char name[254];
    return sni == NULL || (arpki_tls_read_name(sni, name) && strcmp(name, c->name) == 0);
}

/* What a client says of the keys that it knows: an entry names the generation that announced a key, so the one that is known is the
 * next; of a party the last entry counts. */
static int say_known(arpki_tls_client *client, arpki_tls_hello *hello)
{
    known k;
    if (!take_keys(client, 0, &k))
        return 0;
    hello->says_known = 1;
    for (size_t i = 0; i < k.old_len; i++) {
        arpki_tls_generation g = {(uint8_t)k.learnt[i].role, k.learnt[i].number, k.learnt[i].generation + 1};
        arpki_tls_generation *at = hello->known, *end = hello->known + hello->known_len;
        while (at < end && (at->role < g.role || (at->role == g.role && at->number < g.number)))
            at++;
        if (at < end && at->role == g.role && at->number == g.number) {
            *at = g;
        } else if (hello->known_len < ARPKI_TLS_MOST_KNOWN && (g.role == ARPKI_LOG || g.role == ARPKI_AUTHORITY)) {
            memmove(at + 1, at, (size_t)(end - at) * sizeof g);
            *at = g;
            hello->known_len++;
        }
    }
    free(k.learnt);
    return 1;
}

/* Before the ClientHello: whose it is, and what is said. */
static int say(SSL *ssl, unsigned int extension, unsigned int context, const unsigned char **out, size_t *len, X509 *x, size_t place,
               int *alert, void *arg)
{
    const arpki_tls_client *client = arg;
    connection *c = connection_of(ssl);
    arpki_tls_hello hello = {0};
    uint8_t *bytes;
    (void)extension, (void)x, (void)place;
    if (context != SSL_EXT_CLIENT_HELLO || SSL_is_server(ssl))
        return 0;
    *alert = SSL_AD_INTERNAL_ERROR;
    if (c == NULL && client->is.names_by_sni) {
        arpki_tls_expect(ssl, NULL);
        c = connection_of(ssl);
    }
    if (c == NULL || c->reason != ARPKI_TLS_NO_REASON)
        return -1;
    if (!is_told_still(c, ssl)) {
        refuse(c, ARPKI_TLS_TWO_NAMES, 0, 0);
        return -1;
    }
    SSL_SESSION *session = SSL_get_session(ssl);
    if (session != NULL && session != c->session && SSL_SESSION_is_resumable(session)) {
        refuse(c, ARPKI_TLS_SESSION, 0, 0);
        return -1;
    }
    if (client->is.say_pin && c->pin_len != 0) {
        hello.says_pin = 1;
        memcpy(hello.pin, c->newest, ARPKI_TLS_DIGEST);
    }
    if (client->is.say_known && !say_known(c->client, &hello))
        return -1;
    bytes = OPENSSL_malloc(ARPKI_TLS_MOST_HELLO);
    if (bytes == NULL)
        return -1;
    *len = arpki_tls_write_hello(&hello, bytes);
    *out = bytes;
    return *len == 0 ? -1 : 1;
}

static void said(SSL *ssl, unsigned int extension, unsigned int context, const unsigned char *out, void *arg)
{
    (void)ssl, (void)extension, (void)context, (void)arg;
    OPENSSL_free((void *)(uintptr_t)out);
}

/* Judges what a server showed for the key of its certificate. 0: refused. */
static int take_answer(connection *c, SSL *ssl, const uint8_t *in, size_t len, X509 *certificate, int *alert)
{
    arpki_tls_answer answer;
    uint8_t channel[ARPKI_TLS_DIGEST];
    known k;
    int reason, done;
    uint32_t outcome, check;
    *alert = SSL_AD_DECODE_ERROR;
    int read = arpki_tls_read_answer(in, len, &answer);
    if (read < 0)
        *alert = SSL_AD_ILLEGAL_PARAMETER;
    if (read <= 0)
        return refuse(c, ARPKI_TLS_FORM, 0, 0);
    *alert = SSL_AD_BAD_CERTIFICATE;
    if (!arpki_tls_channel(certificate, channel))
        return refuse(c, ARPKI_TLS_CERTIFICATE, 0, 0);
    *alert = SSL_AD_INTERNAL_ERROR;
    if (!take_keys(c->client, answer.notes_len, &k))
        return refuse(c, ARPKI_TLS_MEMORY, 0, 0);
    take_links(c, &answer);
    *alert = SSL_AD_BAD_CERTIFICATE;
    c->now = now_for(c->client, answer.confirmation);
    done = learn_notes(c, &k, &answer);
    if (done) {
        done = judge(c, &k, answer.confirmation, answer.staple, c->links, channel, &c->shown, &reason, &outcome, &check);
        if (!done)
            refuse(c, reason, outcome, check);
    }
    if (done) {
        c->confirmation = answer.confirmation;
        c->fresh_len = k.keys.learnt_len - k.old_len;
        memmove(k.learnt, k.learnt + k.old_len, c->fresh_len * sizeof *k.learnt);
        c->fresh = k.learnt;
        if (c->shown.is_proved)
            keep_in_session(c, ssl, channel, &answer);
    } else {
        free(k.learnt);
    }
    return done;
}

/* At the Certificate: what the server shows beside its own certificate, which is the first. */
static int take(SSL *ssl, unsigned int extension, unsigned int context, const unsigned char *in, size_t len, X509 *x, size_t place,
                int *alert, void *arg)
{
    connection *c = connection_of(ssl);
    (void)extension, (void)arg;
    if (context != SSL_EXT_TLS1_3_CERTIFICATE || SSL_is_server(ssl))
        return 1;
    *alert = SSL_AD_INTERNAL_ERROR;
    if (c == NULL || c->reason != ARPKI_TLS_NO_REASON)
        return 0;
    if (place != 0 || c->came) {
        *alert = SSL_AD_ILLEGAL_PARAMETER;
        return refuse(c, ARPKI_TLS_FORM, 0, 0);
    }
    c->came = 1;
    c->bytes = malloc(len + 1);
    if (c->bytes == NULL)
        return refuse(c, ARPKI_TLS_MEMORY, 0, 0);
    memcpy(c->bytes, in, len);
    return take_answer(c, ssl, c->bytes, len, x, alert);
}

/* Whether a handshake with these findings may go on. */
static int may_go_on(connection *c, const SSL *ssl)
{
    if (c->reason != ARPKI_TLS_NO_REASON)
        return 0;
    if (c->shown.is_proved || !c->must_be_proved)
        return 1;
    return refuse(c, SSL_version(ssl) < TLS1_3_VERSION ? ARPKI_TLS_OLD_TLS : ARPKI_TLS_NO_PROOF, 0, 0);
}

/* Behind the Certificate, in the handshake: where nothing was shown `take` was not called. A context that verifies nothing goes on
 * whatever this answers, so a connection that is refused is made to verify. */
static int verify(X509_STORE_CTX *store, void *arg)
{
    SSL *ssl = X509_STORE_CTX_get_ex_data(store, SSL_get_ex_data_X509_STORE_CTX_idx());
    connection *c = ssl == NULL ? NULL : connection_of(ssl);
    const arpki_tls_client *client = arg;
    if (ssl != NULL && (SSL_is_server(ssl) || (c != NULL && may_go_on(c, ssl))))
        return client->is.verify == NULL ? X509_verify_cert(store) : client->is.verify(client->is.arg, ssl, store);
    if (ssl != NULL)
        SSL_set_verify(ssl, SSL_VERIFY_PEER, SSL_get_verify_callback(ssl));
    X509_STORE_CTX_set_error(store, X509_V_ERR_APPLICATION_VERIFICATION);
    return 0;
}

int arpki_tls_use(arpki_tls_client *client, SSL_CTX *ctx)
{
    if (SSL_CTX_get_ex_data(ctx, client_index) == client)
        return 1;
    if (SSL_CTX_get_ex_data(ctx, client_index) != NULL || !SSL_CTX_set_ex_data(ctx, client_index, client)
        || !SSL_CTX_add_custom_ext(ctx, ARPKI_TLS_EXTENSION, SSL_EXT_CLIENT_HELLO | SSL_EXT_TLS1_3_CERTIFICATE, say, said, client,
                                   take, client))
        return 0;
    SSL_CTX_set_cert_verify_callback(ctx, verify, client);
    return 1;
}

/* ---- before the handshake */

/* The one name that a program told OpenSSL: for the SNI, to be verified, or both. 0: none, or two. */
static int told_name(connection *c, SSL *ssl)
{
    const char *sni = SSL_get_servername(ssl, TLSEXT_NAMETYPE_host_name);
    X509_VERIFY_PARAM *param = SSL_get0_param(ssl);
    const char *host = X509_VERIFY_PARAM_get0_host(param, 0);
    char other[254];
    if (sni == NULL && host == NULL)
        return refuse(c, ARPKI_TLS_NO_NAME, 0, 0);
    if (!arpki_tls_read_name(sni == NULL ? host : sni, c->name))
        return refuse(c, ARPKI_TLS_NO_NAME, 0, 0);
    if (X509_VERIFY_PARAM_get0_host(param, 1) != NULL
        || (host != NULL && (!arpki_tls_read_name(host, other) || strcmp(other, c->name) != 0)))
        return refuse(c, ARPKI_TLS_TWO_NAMES, 0, 0);
    return 1;
}

static int read_pin(connection *c)
{
    const arpki_tls_settings *is = &c->client->is;
    free(c->pin);
    c->pin = NULL;
    c->pin_len = 0;
    if (is->pin_of != NULL && !is->pin_of(is->arg, c->name, &c->pin, &c->pin_len))
        return refuse(c, ARPKI_TLS_STORE, 0, 0);
    if (c->pin_len != 0 && !arpki_tls_newest(c->pin, c->pin_len, c->newest))
        return refuse(c, ARPKI_TLS_BAD_PIN, ARPKI_BAD_PIN, ARPKI_PIN_FORM);
    return 1;
}

/* Whether a connection may be of TLS 1.3. */
static int has_tls_13(SSL *ssl)
{
    long most = SSL_get_max_proto_version(ssl);
    return (most == 0 || most >= TLS1_3_VERSION) && (SSL_get_options(ssl) & SSL_OP_NO_TLSv1_3) == 0;
}

/* What stands before a handshake to a name. 0: refused. */
static int prepare(connection *c, SSL *ssl, const char *name)
{
    const arpki_tls_settings *is = &c->client->is;
    if (name == NULL ? !told_name(c, ssl) : !arpki_tls_read_name(name, c->name))
        return refuse(c, ARPKI_TLS_NO_NAME, 0, 0);
    if (name != NULL && (!SSL_set_tlsext_host_name(ssl, c->name) || !SSL_set1_host(ssl, c->name)))
        return refuse(c, ARPKI_TLS_MEMORY, 0, 0);
    if (!read_pin(c))
        return 0;
    c->must_be_proved = c->pin_len != 0 || (is->is_listed != NULL && is->is_listed(is->arg, c->name));
    if (SSL_in_before(ssl) && !choose_session(c, ssl))
        return refuse(c, ARPKI_TLS_SESSION, 0, 0);
    if (c->must_be_proved && (!has_tls_13(ssl) || !SSL_set_min_proto_version(ssl, TLS1_3_VERSION)))
        return refuse(c, ARPKI_TLS_OLD_TLS, 0, 0);
    return 1;
}

int arpki_tls_expect(SSL *ssl, const char *name)
{
    arpki_tls_client *client = client_index < 0 ? NULL : SSL_CTX_get_ex_data(SSL_get_SSL_CTX(ssl), client_index);
    connection *c;
    if (client == NULL || (name == NULL && !client->is.names_by_sni))
        return 0;
    c = connection_of(ssl);
    if (!SSL_set_ex_data(ssl, connection_index, NULL))
        return 0;
    free_connection(c);
    c = calloc(1, sizeof *c);
    if (c == NULL)
        return 0;
    c->client = client;
    if (!SSL_set_ex_data(ssl, connection_index, c)) {
        free_connection(c);
        return 0;
    }
    return prepare(c, ssl, name);
}

/* ---- behind the handshake */

/* Whether the newest error of OpenSSL is that no version fits. */
static int no_version_fits(void)
{
    unsigned long error = ERR_peek_last_error();
    int reason = ERR_GET_REASON(error);
    return ERR_GET_LIB(error) == ERR_LIB_SSL
           && (reason == SSL_R_UNSUPPORTED_PROTOCOL || reason == SSL_R_TLSV1_ALERT_PROTOCOL_VERSION
               || reason == SSL_R_NO_PROTOCOLS_AVAILABLE || reason == SSL_R_UNSUPPORTED_SSL_VERSION);
}

/* Puts what is to be pinned in the place of the pin; where somebody else changed that meanwhile, it is judged again. 0: refused. */
static int keep_pin(connection *c)
{
    const arpki_tls_settings *is = &c->client->is;
    const arpki_tls_bytes links = c->links;
    uint32_t outcome = 0, check = 0;
    for (unsigned tries = 0; tries < 3; tries++) {
        int is_first = c->shown.keep == ARPKI_KEEP_FIRST;
        size_t len = is_first ? c->shown.first_len : c->pin_len + links.len;
        uint8_t *pin;
        known k;
        int kept, done;
        if (c->shown.keep == ARPKI_KEEP_NOTHING)
            return 1;
        pin = malloc(len + 1);
        if (pin == NULL)
            return refuse(c, ARPKI_TLS_MEMORY, 0, 0);
        if (is_first) {
            memcpy(pin, c->shown.first, len);
        } else {
            memcpy(pin, c->pin, c->pin_len);
            memcpy(pin + c->pin_len, links.at, links.len);
        }
        kept = is->keep_pin(is->arg, c->name, (arpki_tls_bytes){c->pin == NULL ? (const uint8_t *)"" : c->pin, c->pin_len},
                            (arpki_tls_bytes){pin, len});
        free(pin);
        if (kept == 1)
            return 1;
        if (kept != 2)
            break;
        if (!read_pin(c))
            return 0;
        if (!take_keys(c->client, 0, &k))
            return refuse(c, ARPKI_TLS_MEMORY, 0, 0);
        done = follow(c, &k, c->confirmation, links, &c->shown, &outcome, &check);
        free(k.learnt);
        if (!done)
            return refuse(c, reason_of(outcome, ARPKI_TLS_BAD_PIN), outcome, check);
    }
    return refuse(c, ARPKI_TLS_STORE, 0, 0);
}

/* Keeps what was learnt and pinned. 0: refused. */
static int keep(connection *c)
{
    for (size_t i = 0; i < c->fresh_len; i++)
        if (!add_entry(c->client, &c->fresh[i]))
            return refuse(c, ARPKI_TLS_STORE, 0, 0);
    return c->client->is.keep_pin == NULL || keep_pin(c);
}

/* What is found of a connection whose handshake is over. */
static int conclude(connection *c, SSL *ssl, const found **what)
{
    int is_reused = SSL_session_reused(ssl);
    *what = is_reused ? &c->before : &c->shown;
    if (c->reason != ARPKI_TLS_NO_REASON)
        return ARPKI_TLS_REFUSED;
    if (!SSL_is_init_finished(ssl)) {
        if (c->must_be_proved && no_version_fits())
            refuse(c, ARPKI_TLS_OLD_TLS, 0, 0);
        return ARPKI_TLS_REFUSED;
    }
    if (is_reused && c->must_be_proved && !c->before.is_proved) {
        refuse(c, ARPKI_TLS_SESSION, 0, 0);
        return ARPKI_TLS_REFUSED;
    }
    if (!is_reused && !may_go_on(c, ssl))
        return ARPKI_TLS_REFUSED;
    if (!is_reused && c->shown.is_proved && !c->is_kept) {
        if (!keep(c))
            return ARPKI_TLS_REFUSED;
        c->is_kept = 1;
    }
    return (*what)->is_proved ? ARPKI_TLS_ACCEPTED : ARPKI_TLS_UNPROVED;
}

int arpki_tls_finish(SSL *ssl, arpki_tls_report *report)
{
    connection *c = connection_of(ssl);
    const found *what;
    if (c == NULL) {
        memset(report, 0, sizeof *report);
        report->name = "";
        report->verdict = ARPKI_TLS_REFUSED;
        report->reason = ARPKI_TLS_NO_NAME;
        return report->verdict;
    }
    int verdict = conclude(c, ssl, &what);
    report_of(c, verdict, what, report);
    if (verdict == ARPKI_TLS_REFUSED && report->reason == ARPKI_TLS_NO_REASON)
        report->reason = ARPKI_TLS_UNFINISHED;
    else
        tell(c, report);
    return verdict;
}

/* ---- for people */

static const char *text_of(int reason)
{
    switch (reason) {
    case ARPKI_TLS_NO_NAME: return "no name was told for the connection";
    case ARPKI_TLS_TWO_NAMES: return "the name told to the server is not the one that is verified";
    case ARPKI_TLS_OLD_TLS: return "the name has to be proved, which takes TLS 1.3";
    case ARPKI_TLS_NO_PROOF: return "the name has to be proved, and the server showed no proof";
    case ARPKI_TLS_FORM: return "what the server showed is not of the form";
    case ARPKI_TLS_BAD_PROOF: return "the proof is not accepted";
    case ARPKI_TLS_BAD_PIN: return "the certificate does not follow the pinned one";
    case ARPKI_TLS_GONE: return "the name has no certificate any more";
    case ARPKI_TLS_OTHER_KEY: return "a log or authority signed two next keys";
    case ARPKI_TLS_SESSION: return "a session that was not judged was resumed";
    case ARPKI_TLS_STORE: return "the pins or keys could not be read or kept";
    case ARPKI_TLS_MEMORY: return "there is no memory";
    case ARPKI_TLS_UNFINISHED: return "the handshake failed by itself";
    case ARPKI_TLS_CERTIFICATE: return "the certificate's key cannot be read";
    default: return "no reason";
    }
}

const char *arpki_tls_say(const arpki_tls_report *report, char *line, size_t len)
{
    if (report->verdict == ARPKI_TLS_ACCEPTED)
        snprintf(line, len, "%s: proved, serial %" PRIu64 ", epoch %" PRIu64 "%s", report->name, report->serial, report->epoch,
                 report->resumed ? ", by a resumed session" : "");
    else if (report->verdict == ARPKI_TLS_UNPROVED)
        snprintf(line, len, "%s: not proved, and need not be", report->name);
    else if (report->reason == ARPKI_TLS_BAD_PROOF || report->reason == ARPKI_TLS_BAD_PIN)
        snprintf(line, len, "%s: refused: %s (outcome %" PRIu32 ", check %" PRIu32 ")", report->name, text_of(report->reason),
                 report->outcome, report->check);
    else
        snprintf(line, len, "%s: refused: %s", report->name, text_of(report->reason));
    return line;
}
