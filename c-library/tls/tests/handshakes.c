/* Handshakes between a client of arpki_tls_client.c and a server, in memory, one for each line of its input.
 *
 *     handshakes DIRECTORY ROOT < LINES
 *
 * A line has words `key=value`; `what` below says what each does. The client has the directory of the first file and trusts the
 * certificate of the second by today's rules. It sends 24 bytes once the handshake is over, without looking at what
 * arpki_tls_finish says, unless the line has `calm=1`: so what the server got tells whether it was refused in the handshake. For each line a line is written:
 *
 *     <verdict> <reason> <outcome> <check> got <bytes of requests> epoch <e> serial <s> resumed <0 or 1> said <hex> shown <bytes> alert <n>
 *
 * The alert is the last one that the server was sent, or 0. Epochs are seconds from zero on. The status is 1 where a line could not be done. */
#include "arpki_tls.h"
#include "trust.h"

#include <openssl/err.h>
#include <unistd.h>

/* The words of a line. */
typedef struct what {
    const char *cert, *key;     /* the server's, with its chain behind it, and its key */
    const char *cert2, *key2;   /* another pair of it */
    const char *raw;            /* what it shows, as bytes of a file */
    const char *place;          /* beside which certificate, from 0 */
    const char *proof, *links, *notes; /* what it shows otherwise: files; notes by `,` */
    const char *tls, *ctls;     /* the greatest version of server and client: 1.2 */
    const char *name, *sni, *host; /* what the client expects; or, without `name`, what it tells OpenSSL */
    const char *now, *age;      /* the epoch, and the greatest age */
    const char *listed;         /* 1: names have to be proved */
    const char *pins;           /* a folder of pins */
    const char *keep;           /* what keeping a pin answers: 0, or 2 for the first time */
    const char *learnt;         /* a file of entries */
    const char *say;            /* `pin`, `known` or `both` */
    const char *elsewhere;      /* a file of links that the client has */
    const char *verify;         /* none: today's rules are not asked */
    const char *hrr, *asks;     /* 1: the server retries; it asks for a certificate of the client */
    const char *save, *resume;  /* files of a session */
    const char *early;          /* 1: sends early data */
    const char *psk;            /* 1: keyed beforehand */
    const char *sigalgs;        /* of the client */
    const char *calm;           /* 1: sends where arpki_tls_finish lets it alone */
    const char *fail;           /* which allocation fails */
    const char *alpn;           /* 1: both speak h2 */
    const char *hello;          /* what a client says that judges nothing, in hex, or `-` for no bytes */
    const char *clear;          /* 1: the SSL is cleared and used again with another name in its SNI */
} what;

static const struct word {
    const char *name;
    size_t at;
} WORDS[] = {
#define WORD(field) {#field, offsetof(what, field)}
    WORD(cert), WORD(key), WORD(cert2), WORD(key2), WORD(raw), WORD(place), WORD(proof), WORD(links), WORD(notes), WORD(tls),
    WORD(ctls), WORD(name), WORD(sni), WORD(host), WORD(now), WORD(age), WORD(listed), WORD(pins), WORD(keep), WORD(learnt),
    WORD(say), WORD(elsewhere), WORD(verify), WORD(hrr), WORD(asks), WORD(save), WORD(resume), WORD(early), WORD(psk),
    WORD(sigalgs), WORD(calm), WORD(fail), WORD(alpn), WORD(hello), WORD(clear),
};

static arpki_tls_directory trusted;
static const char *root;

/* ---- memory that fails: the objects are linked with --wrap */

void *__real_malloc(size_t size);
void *__real_calloc(size_t count, size_t size);
void *__real_realloc(void *at, size_t size);
void *__wrap_malloc(size_t size);
void *__wrap_calloc(size_t count, size_t size);
void *__wrap_realloc(void *at, size_t size);

static long asked_for, fails_at; /* 0: none fails */
static int is_server;            /* whether the server is at work: its allocations do not count */

static int fails(void)
{
    return fails_at != 0 && !is_server && ++asked_for == fails_at;
}

void *__wrap_malloc(size_t size)
{
    return fails() ? NULL : __real_malloc(size);
}

void *__wrap_calloc(size_t count, size_t size)
{
    return fails() ? NULL : __real_calloc(count, size);
}

void *__wrap_realloc(void *at, size_t size)
{
    return fails() ? NULL : __real_realloc(at, size);
}

/* ---- the server */

typedef struct server {
    const what *w;
    uint8_t said[ARPKI_TLS_MOST_HELLO];
    size_t said_len, shown;
} server;

static int alerted;

static void note_alert(const SSL *ssl, int where, int value)
{
    (void)ssl;
    if ((where & SSL_CB_READ_ALERT) == SSL_CB_READ_ALERT && (value >> 8) == 2)
        alerted = value & 0xff;
}

static int give(void *arg, const arpki_tls_asked *asked, uint8_t **bytes, size_t *len)
{
    server *s = arg;
    arpki_tls_bytes proof, links = {(const uint8_t *)"", 0}, notes[8];
    size_t notes_len = 0;
    uint8_t *blocks[10] = {NULL};
    char *names = s->w->notes == NULL ? NULL : strdup(s->w->notes), *rest = NULL;
    s->said_len = arpki_tls_write_hello(asked->hello, s->said);
    proof.at = blocks[0] = s->w->proof == NULL ? NULL : read_file(s->w->proof, &proof.len);
    if (s->w->links != NULL)
        links.at = blocks[1] = read_file(s->w->links, &links.len);
    for (char *name = names == NULL ? NULL : strtok_r(names, ",", &rest); name != NULL; name = strtok_r(NULL, ",", &rest))
        if (notes_len < 8) {
            notes[notes_len].at = blocks[2 + notes_len] = read_file(name, &notes[notes_len].len);
            notes_len++;
        }
    *bytes = OPENSSL_malloc(ARPKI_TLS_MOST);
    *len = proof.at == NULL || links.at == NULL ? 0 : arpki_tls_write_answer(proof, links, notes, notes_len, *bytes);
    s->shown = *len;
    for (size_t i = 0; i < 10; i++)
        free(blocks[i]);
    free(names);
    if (*len == 0)
        OPENSSL_free(*bytes);
    return *len != 0;
}

/* A server that shows any bytes, beside any of its certificates. */
static int show_raw(SSL *ssl, unsigned int extension, unsigned int context, const unsigned char **out, size_t *len, X509 *x,
                    size_t place, int *alert, void *arg)
{
    server *s = arg;
    size_t at = s->w->place == NULL ? 0 : strtoul(s->w->place, NULL, 10);
    (void)ssl, (void)extension, (void)x, (void)alert;
    if (context != SSL_EXT_TLS1_3_CERTIFICATE || place != at)
        return 0;
    *out = read_file(s->w->raw, len);
    s->shown = *len;
    return *out != NULL;
}

static void free_raw(SSL *ssl, unsigned int extension, unsigned int context, const unsigned char *out, void *arg)
{
    (void)ssl, (void)extension, (void)context, (void)arg;
    free((void *)(uintptr_t)out);
}

static int hear_raw(SSL *ssl, unsigned int extension, unsigned int context, const unsigned char *in, size_t len, X509 *x, size_t place,
                    int *alert, void *arg)
{
    server *s = arg;
    (void)ssl, (void)extension, (void)context, (void)x, (void)place, (void)alert;
    s->said_len = len < sizeof s->said ? len : sizeof s->said;
    memcpy(s->said, in, s->said_len);
    return 1;
}

static int take_any(X509_STORE_CTX *store, void *arg)
{
    (void)store, (void)arg;
    return 1;
}

static int pick_h2(SSL *ssl, const unsigned char **out, unsigned char *len, const unsigned char *in, unsigned int in_len, void *arg)
{
    static const unsigned char h2[] = "\x02h2";
    (void)ssl, (void)arg;
    return SSL_select_next_proto((unsigned char **)(uintptr_t)out, len, h2, 3, in, in_len) == OPENSSL_NPN_NEGOTIATED ? SSL_TLSEXT_ERR_OK
                                                                                                        : SSL_TLSEXT_ERR_NOACK;
}

/* A key that both sides have beforehand. */
static SSL_SESSION *psk_session(void)
{
    static const unsigned char key[48] = {7}, suite[2] = {0x13, 0x02};
    SSL_SESSION *session = SSL_SESSION_new();
    const SSL_CIPHER *cipher;
    SSL_CTX *ctx = SSL_CTX_new(TLS_method());
    SSL *ssl = SSL_new(ctx);
    cipher = SSL_CIPHER_find(ssl, suite);
    SSL_SESSION_set1_master_key(session, key, sizeof key);
    SSL_SESSION_set_cipher(session, cipher);
    SSL_SESSION_set_protocol_version(session, TLS1_3_VERSION);
    SSL_free(ssl);
    SSL_CTX_free(ctx);
    return session;
}

static int use_psk(SSL *ssl, const EVP_MD *hash, const unsigned char **id, size_t *len, SSL_SESSION **session)
{
    (void)ssl, (void)hash;
    *id = (const unsigned char *)"psk";
    *len = 3;
    *session = psk_session();
    return 1;
}

static int find_psk(SSL *ssl, const unsigned char *id, size_t len, SSL_SESSION **session)
{
    (void)ssl;
    *session = len == 3 && memcmp(id, "psk", 3) == 0 ? psk_session() : NULL;
    return 1;
}

static SSL_CTX *server_context(const what *w, server *s)
{
    SSL_CTX *ctx = SSL_CTX_new(TLS_server_method());
    int done = SSL_CTX_use_certificate_chain_file(ctx, w->cert) == 1 && SSL_CTX_use_PrivateKey_file(ctx, w->key, SSL_FILETYPE_PEM) == 1;
    if (done && w->cert2 != NULL)
        done = SSL_CTX_use_certificate_chain_file(ctx, w->cert2) == 1 && SSL_CTX_use_PrivateKey_file(ctx, w->key2, SSL_FILETYPE_PEM) == 1;
    if (w->tls != NULL)
        SSL_CTX_set_max_proto_version(ctx, TLS1_2_VERSION);
    if (w->hrr != NULL)
        SSL_CTX_set1_groups_list(ctx, "P-384");
    if (w->asks != NULL) {
        SSL_CTX_set_verify(ctx, SSL_VERIFY_PEER, NULL);
        SSL_CTX_set_cert_verify_callback(ctx, take_any, NULL);
    }
    if (w->early != NULL)
        SSL_CTX_set_max_early_data(ctx, 1000);
    if (w->psk != NULL)
        SSL_CTX_set_psk_find_session_callback(ctx, find_psk);
    if (w->alpn != NULL)
        SSL_CTX_set_alpn_select_cb(ctx, pick_h2, NULL);
    SSL_CTX_set_info_callback(ctx, note_alert);
    SSL_CTX_set_session_id_context(ctx, (const unsigned char *)"test", 4);
    static const unsigned char keys[80] = {1};
    SSL_CTX_set_tlsext_ticket_keys(ctx, (void *)(uintptr_t)keys, sizeof keys); /* so that another context resumes its sessions */
    SSL_CTX_set_options(ctx, SSL_OP_NO_ANTI_REPLAY);
    if (w->raw != NULL)
        done = done && SSL_CTX_add_custom_ext(ctx, ARPKI_TLS_EXTENSION, SSL_EXT_CLIENT_HELLO | SSL_EXT_TLS1_3_CERTIFICATE, show_raw,
                                              free_raw, s, hear_raw, s);
    else
        done = done && arpki_tls_serve(ctx, give, s);
    if (done)
        return ctx;
    SSL_CTX_free(ctx);
    return NULL;
}

/* ---- the client: its store is of files */

typedef struct store {
    const what *w;
    int changed, told;
} store;

static uint64_t clock_of(void *arg)
{
    const store *s = arg;
    return s->w->now == NULL ? 0 : strtoull(s->w->now, NULL, 10) * 1000;
}

static int is_listed(void *arg, const char *name)
{
    const store *s = arg;
    (void)name;
    return s->w->listed != NULL;
}

static int pin_of(void *arg, const char *name, uint8_t **pin, size_t *len)
{
    const store *s = arg;
    char path[512];
    snprintf(path, sizeof path, "%s/%s", s->w->pins, name);
    *pin = read_file(path, len);
    return 1;
}

static int keep_pin(void *arg, const char *name, arpki_tls_bytes old, arpki_tls_bytes pin)
{
    store *s = arg;
    char path[512];
    FILE *file;
    int done;
    (void)old;
    if (s->w->keep != NULL && s->w->keep[0] == '0')
        return 0;
    snprintf(path, sizeof path, "%s/%s", s->w->pins, name);
    file = fopen(path, "wb");
    if (file == NULL)
        return 0;
    done = fwrite(pin.at, 1, pin.len, file) == pin.len;
    done &= fclose(file) == 0;
    if (s->w->keep != NULL && s->w->keep[0] == '2' && !s->changed) {
        s->changed = 1;
        return 2; /* somebody else put the same pin there */
    }
    return done;
}

static int links_of(void *arg, const char *name, const uint8_t *newest, uint8_t **links, size_t *len)
{
    const store *s = arg;
    (void)name, (void)newest;
    if (s->w->elsewhere == NULL)
        return 0;
    *links = read_file(s->w->elsewhere, len);
    return *links != NULL;
}

static int keep_entry(void *arg, const arpki_entry *entry)
{
    const store *s = arg;
    FILE *file = s->w->learnt == NULL ? NULL : fopen(s->w->learnt, "ab");
    int done;
    if (file == NULL)
        return s->w->learnt == NULL;
    done = fwrite(entry, sizeof *entry, 1, file) == 1;
    return fclose(file) == 0 && done;
}

static void tell(void *arg, const arpki_tls_report *report)
{
    char line[600];
    ((store *)arg)->told++;
    arpki_tls_say(report, line, sizeof line);
}

static arpki_tls_client *client_of(const what *w, store *s)
{
    arpki_tls_settings is = {0};
    arpki_keys keys = trusted.keys;
    size_t len = 0;
    uint8_t *entries = w->learnt == NULL ? NULL : read_file(w->learnt, &len);
    if (entries != NULL) {
        keys.learnt = (const arpki_entry *)(void *)entries;
        keys.learnt_len = len / sizeof(arpki_entry);
    }
    is.keys = &keys;
    is.length = 1000;
    is.age = w->age == NULL ? 4 : strtoull(w->age, NULL, 10);
    is.clock = clock_of;
    is.is_listed = is_listed;
    if (w->pins != NULL) {
        is.pin_of = pin_of;
        is.keep_pin = keep_pin;
        is.links_of = links_of;
    }
    is.keep_entry = keep_entry;
    is.tell = tell;
    is.arg = s;
    is.say_pin = w->say != NULL && (w->say[0] == 'p' || w->say[0] == 'b');
    is.say_known = w->say != NULL && (w->say[0] == 'k' || w->say[0] == 'b');
    is.names_by_sni = w->name == NULL;
    arpki_tls_client *client = arpki_tls_client_new(&is);
    free(entries);
    return client;
}

/* A client that says any bytes, and looks at nothing. */
static int say_raw(SSL *ssl, unsigned int extension, unsigned int context, const unsigned char **out, size_t *len, X509 *x, size_t place,
                   int *alert, void *arg)
{
    const what *w = arg;
    unsigned byte;
    uint8_t *bytes = malloc(strlen(w->hello) + 1);
    (void)ssl, (void)extension, (void)x, (void)place, (void)alert;
    if (context != SSL_EXT_CLIENT_HELLO || bytes == NULL) {
        free(bytes);
        return 0;
    }
    for (*len = 0; sscanf(w->hello + 2 * *len, "%2x", &byte) == 1; (*len)++)
        bytes[*len] = (uint8_t)byte;
    *out = bytes;
    return 1;
}

static int add_raw(const what *w, SSL_CTX *ctx)
{
    return SSL_CTX_add_custom_ext(ctx, ARPKI_TLS_EXTENSION, SSL_EXT_CLIENT_HELLO | SSL_EXT_TLS1_3_CERTIFICATE, say_raw, free_raw,
                                  (void *)(uintptr_t)w, NULL, NULL);
}

static SSL_CTX *client_context(const what *w, arpki_tls_client *client)
{
    SSL_CTX *ctx = SSL_CTX_new(TLS_client_method());
    if (ctx == NULL || client == NULL || SSL_CTX_load_verify_locations(ctx, root, NULL) != 1
        || !(w->hello == NULL ? arpki_tls_use(client, ctx) : add_raw(w, ctx))) {
        SSL_CTX_free(ctx);
        return NULL;
    }
    SSL_CTX_set_verify(ctx, w->verify == NULL ? SSL_VERIFY_PEER : SSL_VERIFY_NONE, NULL);
    SSL_CTX_set_session_cache_mode(ctx, SSL_SESS_CACHE_CLIENT);
    if (w->ctls != NULL)
        SSL_CTX_set_max_proto_version(ctx, TLS1_2_VERSION);
    if (w->sigalgs != NULL)
        SSL_CTX_set1_sigalgs_list(ctx, w->sigalgs);
    if (w->psk != NULL)
        SSL_CTX_set_psk_use_session_callback(ctx, use_psk);
    if (w->alpn != NULL)
        SSL_CTX_set_alpn_protos(ctx, (const unsigned char *)"\x02h2", 3);
    return ctx;
}

/* ---- one handshake */

/* Goes on with both until neither can; what the server gets of requests is counted. */
static void go_on(SSL *client, SSL *served, size_t *got)
{
    char in[4096];
    for (int i = 0; i < 40; i++) {
        size_t early = 0;
        if (!SSL_is_init_finished(client))
            SSL_do_handshake(client);
        is_server = 1;
        if (!SSL_is_init_finished(served)) {
            if (SSL_read_early_data(served, in, sizeof in, &early) == SSL_READ_EARLY_DATA_SUCCESS)
                *got += early;
            SSL_do_handshake(served);
        }
        is_server = 0;
    }
}

static void read_all(SSL *ssl, size_t *got)
{
    char in[4096];
    int count;
    while ((count = SSL_read(ssl, in, sizeof in)) > 0)
        *got += (size_t)count;
}

static SSL_SESSION *kept_session;

static int keep_session(SSL *ssl, SSL_SESSION *session)
{
    (void)ssl;
    SSL_SESSION_free(kept_session);
    kept_session = session;
    return 1;
}

static SSL_SESSION *read_session(const char *path)
{
    size_t len;
    uint8_t *data = read_file(path, &len);
    const unsigned char *at = data;
    SSL_SESSION *session = data == NULL ? NULL : d2i_SSL_SESSION(NULL, &at, (long)len);
    free(data);
    return session;
}

static int save_session(const char *path)
{
    unsigned char *der = NULL;
    int len = kept_session == NULL ? 0 : i2d_SSL_SESSION(kept_session, &der), done;
    FILE *file = len <= 0 ? NULL : fopen(path, "wb");
    if (file == NULL)
        return 0;
    done = fwrite(der, (size_t)len, 1, file) == 1;
    OPENSSL_free(der);
    return fclose(file) == 0 && done;
}

static int begin(const what *w, SSL *ssl)
{
    SSL_SESSION *session = w->resume == NULL ? NULL : read_session(w->resume);
    if (w->resume != NULL && (session == NULL || !SSL_set_session(ssl, session)))
        return 0;
    SSL_SESSION_free(session);
    if (w->sni != NULL)
        SSL_set_tlsext_host_name(ssl, w->sni);
    if (w->host != NULL)
        SSL_set1_host(ssl, w->host);
    SSL_set_connect_state(ssl);
    arpki_tls_expect(ssl, w->name);
    if (w->clear != NULL)
        SSL_set_tlsext_host_name(ssl, w->clear);
    return 1;
}

static void handshake(const what *w, SSL *client, SSL *served, server *s)
{
    static const char request[24] = "GET /a-secret HTTP/1.1\r\n";
    arpki_tls_report report;
    size_t got = 0, ignored = 0, written = 0;
    BIO *one, *other;
    if (BIO_new_bio_pair(&one, 1 << 18, &other, 1 << 18) != 1)
        exit(1);
    SSL_set_bio(client, one, one);
    SSL_set_bio(served, other, other);
    SSL_set_accept_state(served);
    if (!begin(w, client)) {
        printf("no session\n");
        return;
    }
    if (w->early != NULL && w->resume != NULL)
        SSL_write_early_data(client, request, sizeof request, &written);
    alerted = 0;
    fails_at = w->fail == NULL ? 0 : strtol(w->fail, NULL, 10);
    asked_for = 0;
    go_on(client, served, &got);
    int verdict = arpki_tls_finish(client, &report);
    fails_at = 0;
    if (SSL_is_init_finished(client) && (w->calm == NULL || verdict != ARPKI_TLS_REFUSED)) {
        SSL_write(client, request, sizeof request);
        read_all(served, &got);
        SSL_write(served, "ok", 2);
        read_all(client, &ignored);
    }
    printf("%d %d %u %u got %zu epoch %llu serial %llu resumed %d said ", verdict, report.reason, report.outcome, report.check, got,
           (unsigned long long)report.epoch, (unsigned long long)report.serial, report.resumed);
    for (size_t i = 0; i < s->said_len; i++)
        printf("%02x", s->said[i]);
    printf(" shown %zu alert %d\n", s->shown, alerted);
    SSL_shutdown(client);
}

static int run(const what *w)
{
    server s = {w, {0}, 0, 0};
    store kept = {w, 0, 0};
    arpki_tls_client *of = client_of(w, &kept);
    SSL_CTX *ctx = client_context(w, of), *serving = server_context(w, &s);
    int done = ctx != NULL && serving != NULL;
    if (done) {
        SSL_CTX_sess_set_new_cb(ctx, keep_session);
        SSL *client = SSL_new(ctx), *served = SSL_new(serving);
        handshake(w, client, served, &s);
        SSL_free(client);
        SSL_free(served);
        if (w->save != NULL && !save_session(w->save))
            printf("not saved\n");
        SSL_SESSION_free(kept_session);
        kept_session = NULL;
    } else {
        ERR_print_errors_fp(stderr);
    }
    SSL_CTX_free(ctx);
    SSL_CTX_free(serving);
    arpki_tls_client_free(of);
    ERR_clear_error();
    return done;
}

static int read_words(char *line, what *w)
{
    char *rest = NULL;
    memset(w, 0, sizeof *w);
    for (char *word = strtok_r(line, " \n", &rest); word != NULL; word = strtok_r(NULL, " \n", &rest)) {
        char *value = strchr(word, '=');
        size_t i = 0;
        if (value == NULL)
            return 0;
        *value++ = 0;
        while (i < sizeof WORDS / sizeof WORDS[0] && strcmp(WORDS[i].name, word) != 0)
            i++;
        if (i == sizeof WORDS / sizeof WORDS[0])
            return 0;
        *(const char **)(void *)((char *)w + WORDS[i].at) = value;
    }
    return w->cert != NULL && w->key != NULL;
}

int main(int argc, char **argv)
{
    char line[8192];
    what w;
    int status = 0;
    if (argc != 3 || !read_directory(argv[1], &trusted)) {
        fprintf(stderr, "handshakes: handshakes DIRECTORY ROOT < LINES\n");
        return 2;
    }
    root = argv[2];
    while (fgets(line, sizeof line, stdin) != NULL) {
        if (!read_words(line, &w) || !run(&w)) {
            printf("not done\n");
            status = 1;
        }
        fflush(stdout);
    }
    return status;
}
