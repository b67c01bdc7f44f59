/* What libFuzzer tries (tools/tls-library --fuzz): what a server may show, what a client may say, and the texts that are read.
 *
 * The first byte of an input says what the others are: 0 to 7 an extension of a server, to a client who has pinned the name (1), who
 * has links from elsewhere (2), and to whom the name need not be proved (4); 8 what a client says, and behind its length what a server
 * has to show; 9 changes, a confirmation, names, a directory and a schedule; 10 to 17 as 0 to 7, in a whole handshake; 18 what a client
 * says, in a whole handshake. The folder in ARPKI_FUZZ has `directory`, `site.pem` and `site.key`, `root.pem`, `pin` and `links`. Compiled with -DOUTCOMES the library of the client's rule is one that answers by the last bytes of the input, so that all that
 * stands behind a judgement is reached without a signature. */
#include "../arpki_tls_client.c"

#include "trust.h"

#include <openssl/pem.h>

#define CHECK(holds) do { if (!(holds)) abort(); } while (0)

static arpki_tls_directory directory;
static X509 *certificate;
static SSL_CTX *ctx, *judging, *showing, *serving, *saying; /* clients and servers, honest ones and such that say any bytes */
static arpki_tls_client *judge_of;
static const uint8_t *any;
static size_t any_len;
static uint8_t *pin, *elsewhere;
static size_t pin_size, elsewhere_size;
static int is_pinned, has_links, kept_pins;

#ifdef OUTCOMES
static const uint8_t *outcomes;
static size_t outcomes_left;

/* The next answer: from the end of the input. */
static uint32_t next_outcome(void)
{
    return outcomes_left == 0 ? 0 : outcomes[--outcomes_left];
}

uint32_t arpki_staple(const arpki_keys *keys, const arpki_question *question, const uint8_t channel[ARPKI_CHANNEL_SIZE],
                      const uint8_t *staple, size_t staple_len, arpki_answer *answer)
{
    (void)keys, (void)question, (void)channel, (void)staple, (void)staple_len;
    memset(answer, 0, sizeof *answer);
    answer->outcome = next_outcome() % 16;
    return answer->outcome;
}

uint32_t arpki_follow(const arpki_keys *keys, const arpki_question *question, const uint8_t *old, size_t old_len, const uint8_t *links,
                      size_t links_len, arpki_followed *followed)
{
    (void)keys, (void)question, (void)old, (void)old_len, (void)links, (void)links_len;
    memset(followed, 0, sizeof *followed);
    followed->answer.outcome = next_outcome() % 16;
    followed->keep = next_outcome() % 3;
    followed->first_len = next_outcome() % 200;
    return followed->answer.outcome;
}

uint32_t arpki_learn(const arpki_keys *keys, const uint8_t *note, size_t note_len, arpki_lesson *lesson)
{
    (void)keys, (void)note;
    memset(lesson, 0, sizeof *lesson);
    lesson->outcome = next_outcome() % 8;
    lesson->entry.role = (uint16_t)(note_len % 3);
    lesson->entry.number = (uint16_t)next_outcome();
    return lesson->outcome;
}
#endif

static int give_pin(void *arg, const char *name, uint8_t **bytes, size_t *len)
{
    (void)arg, (void)name;
    *len = is_pinned ? pin_size : 0;
    *bytes = copy_of(pin, *len, 1);
    return *bytes != NULL;
}

static int take_pin(void *arg, const char *name, arpki_tls_bytes old, arpki_tls_bytes new)
{
    (void)arg, (void)name, (void)old;
    CHECK(new.len != 0 || old.len == 0);
    return new.len % 7 == 0 ? 0 : kept_pins++ < 2 && new.len % 5 == 0 ? 2 : 1;
}

static int give_links(void *arg, const char *name, const uint8_t *newest, uint8_t **bytes, size_t *len)
{
    (void)arg, (void)name, (void)newest;
    *len = elsewhere_size;
    *bytes = has_links ? copy_of(elsewhere, elsewhere_size, 1) : NULL;
    return has_links;
}

static uint64_t time_of(void *arg)
{
    (void)arg;
    return 7000;
}

/* The extension of a client or a server that says any bytes. */
static int say_any(SSL *ssl, unsigned int extension, unsigned int context, const unsigned char **out, size_t *len, X509 *x, size_t place,
                   int *alert, void *arg)
{
    (void)extension, (void)x, (void)alert, (void)arg;
    *out = any;
    *len = any_len;
    return SSL_is_server(ssl) ? context == SSL_EXT_TLS1_3_CERTIFICATE && place == 0 : context == SSL_EXT_CLIENT_HELLO;
}

static int hear_any(SSL *ssl, unsigned int extension, unsigned int context, const unsigned char *in, size_t len, X509 *x, size_t place,
                    int *alert, void *arg)
{
    arpki_tls_answer answer;
    (void)extension, (void)x, (void)place, (void)alert, (void)arg;
    CHECK(SSL_is_server(ssl) || (context == SSL_EXT_TLS1_3_CERTIFICATE && arpki_tls_read_answer(in, len, &answer) == 1));
    return 1;
}

/* An honest server's answer to whatever was said. */
static int give_any(void *arg, const arpki_tls_asked *asked, uint8_t **bytes, size_t *len)
{
    static const uint8_t proof[] = "\0\0\0\1c\0\0\0\1s";
    uint8_t said[ARPKI_TLS_MOST_HELLO];
    arpki_tls_bytes note = {any, any_len % 3000};
    (void)arg;
    CHECK(arpki_tls_write_hello(asked->hello, said) != 0);
    *bytes = OPENSSL_malloc(ARPKI_TLS_ROOM);
    *len = arpki_tls_write_answer((arpki_tls_bytes){proof, 10}, (arpki_tls_bytes){any, any_len}, &note, note.len != 0 && note.len <= any_len,
                                  *bytes);
    return *len != 0;
}

static void make_contexts(const char *cert, const char *key, const char *root)
{
    arpki_tls_settings is = {.keys = &directory.keys, .length = 1000, .age = 4, .clock = time_of, .pin_of = give_pin, .keep_pin = take_pin,
                             .links_of = give_links, .say_known = 1, .say_pin = 1};
    judge_of = arpki_tls_client_new(&is);
    judging = SSL_CTX_new(TLS_client_method());
    saying = SSL_CTX_new(TLS_client_method());
    showing = SSL_CTX_new(TLS_server_method());
    serving = SSL_CTX_new(TLS_server_method());
    CHECK(judge_of != NULL && arpki_tls_use(judge_of, judging) && SSL_CTX_load_verify_locations(judging, root, NULL) == 1);
    SSL_CTX_set_verify(judging, SSL_VERIFY_PEER, NULL);
    SSL_CTX *servers[2] = {showing, serving}, *liars[2] = {showing, saying};
    for (int i = 0; i < 2; i++) {
        CHECK(SSL_CTX_use_certificate_chain_file(servers[i], cert) == 1 && SSL_CTX_use_PrivateKey_file(servers[i], key, SSL_FILETYPE_PEM) == 1);
        CHECK(SSL_CTX_add_custom_ext(liars[i], ARPKI_TLS_EXTENSION, SSL_EXT_CLIENT_HELLO | SSL_EXT_TLS1_3_CERTIFICATE, say_any, NULL, NULL,
                                     hear_any, NULL));
    }
    CHECK(arpki_tls_serve(serving, give_any, NULL));
}

/* A handshake in memory. */
static void shake(SSL *client, SSL *server)
{
    BIO *one, *other;
    CHECK(BIO_new_bio_pair(&one, 1 << 17, &other, 1 << 17) == 1);
    SSL_set_bio(client, one, one);
    SSL_set_bio(server, other, other);
    SSL_set_connect_state(client);
    SSL_set_accept_state(server);
    for (int i = 0; i < 6; i++) {
        SSL_do_handshake(client);
        SSL_do_handshake(server);
    }
}

/* A server that shows any bytes. */
static void try_server(uint8_t kind, const uint8_t *data, size_t size)
{
    SSL *client = SSL_new(judging), *server = SSL_new(showing);
    arpki_tls_report report;
    any = data;
    any_len = size;
    is_pinned = kind & 1;
    has_links = (kind & 2) != 0;
    kept_pins = 0;
    CHECK(client != NULL && server != NULL && arpki_tls_expect(client, "a.example"));
    shake(client, server);
    int verdict = arpki_tls_finish(client, &report);
    CHECK(verdict == ARPKI_TLS_REFUSED || SSL_is_init_finished(client));
    CHECK(verdict == ARPKI_TLS_ACCEPTED || verdict == ARPKI_TLS_REFUSED || !is_pinned);
    SSL_free(client);
    SSL_free(server);
    ERR_clear_error();
}

/* A client that says any bytes: the handshake comes to its end all the same. */
static void try_client(const uint8_t *data, size_t size)
{
    SSL *client = SSL_new(saying), *server = SSL_new(serving);
    any = data;
    any_len = size > 60000 ? 60000 : size;
    CHECK(client != NULL && server != NULL);
    shake(client, server);
    CHECK(SSL_is_init_finished(client) && SSL_is_init_finished(server));
    SSL_free(client);
    SSL_free(server);
    ERR_clear_error();
}

int LLVMFuzzerInitialize(int *argc, char ***argv);
int LLVMFuzzerTestOneInput(const uint8_t *data, size_t size);

static char *in_folder(const char *name, char *path, size_t room)
{
    snprintf(path, room, "%s/%s", getenv("ARPKI_FUZZ"), name);
    return path;
}

int LLVMFuzzerInitialize(int *argc, char ***argv)
{
    char path[512], key[512], root[512];
    FILE *file;
    (void)argc, (void)argv;
    CHECK(getenv("ARPKI_FUZZ") != NULL && read_directory(in_folder("directory", path, sizeof path), &directory));
    file = fopen(in_folder("site.pem", path, sizeof path), "r");
    CHECK(file != NULL && (certificate = PEM_read_X509(file, NULL, NULL, NULL)) != NULL);
    fclose(file);
    pin = read_file(in_folder("pin", path, sizeof path), &pin_size);
    elsewhere = read_file(in_folder("links", path, sizeof path), &elsewhere_size);
    ctx = SSL_CTX_new(TLS_client_method());
    CHECK(pin != NULL && elsewhere != NULL && ctx != NULL);
    make_contexts(in_folder("site.pem", path, sizeof path), in_folder("site.key", key, sizeof key), in_folder("root.pem", root, sizeof root));
    return 0;
}

/* An extension of a server, as `take` is given it, and what is kept behind the handshake. */
static void try_answer(uint8_t kind, const uint8_t *data, size_t size)
{
    arpki_tls_settings is = {.keys = &directory.keys, .length = 1000, .age = 4, .clock = time_of, .pin_of = give_pin, .keep_pin = take_pin,
                             .links_of = give_links, .say_known = 1};
    arpki_tls_client *client = arpki_tls_client_new(&is);
    connection *c = calloc(1, sizeof *c);
    arpki_tls_hello hello = {0};
    uint8_t said[ARPKI_TLS_MOST_HELLO];
    SSL *ssl = SSL_new(ctx);
    int alert = 0, taken;
    CHECK(client != NULL && c != NULL && ssl != NULL);
    is_pinned = kind & 1;
    has_links = (kind & 2) != 0;
    kept_pins = 0;
    c->client = client;
    strcpy(c->name, "a.example");
    CHECK(read_pin(c));
    c->must_be_proved = (kind & 4) == 0;
    c->came = 1;
    c->bytes = copy_of(data, size, 1);
    CHECK(c->bytes != NULL);
    taken = take_answer(c, ssl, c->bytes, size, certificate, &alert);
    CHECK(taken == (c->reason == ARPKI_TLS_NO_REASON));
    CHECK(taken || !c->shown.is_proved);
    CHECK(!c->must_be_proved || !taken || c->shown.is_proved);
    if (taken) {
        int kept = keep(c);
        CHECK(kept == (c->reason == ARPKI_TLS_NO_REASON));
        CHECK(say_known(client, &hello) && arpki_tls_write_hello(&hello, said) != 0);
    }
    SSL_free(ssl);
    free_connection(c);
    arpki_tls_client_free(client);
}

/* What a client says, and what a server then shows: it can be read again. */
static void try_hello(const uint8_t *data, size_t size)
{
    static uint8_t out[ARPKI_TLS_ROOM];
    uint8_t said[ARPKI_TLS_MOST_HELLO];
    arpki_tls_hello hello, again;
    arpki_tls_answer answer;
    size_t len = size == 0 ? 0 : data[0], at = 1 + len, count;
    if (size < at)
        return;
    if (arpki_tls_read_hello(data + 1, len, &hello)) {
        count = arpki_tls_write_hello(&hello, said);
        CHECK(count != 0 && arpki_tls_read_hello(said, count, &again) && memcmp(&hello, &again, sizeof hello) == 0);
        (void)arpki_tls_known_of(&hello, 1, 0);
    }
    arpki_tls_bytes rest = {data + at, size - at}, notes[3] = {rest, {data, size % 300}, rest};
    notes[1].len = notes[1].len > size ? size : notes[1].len;
    count = arpki_tls_write_answer(rest, (arpki_tls_bytes){elsewhere, elsewhere_size}, notes, 3, out);
    CHECK(count <= ARPKI_TLS_ROOM);
    if (count != 0)
        CHECK(arpki_tls_read_answer(out, count, &answer) == 1);
    count = arpki_tls_write_answer((arpki_tls_bytes){(const uint8_t *)"\0\0\0\1c\0\0\0\1s", 10}, rest, notes, 3, out);
    CHECK(arpki_tls_read_answer(out, count, &answer) == 1 && answer.confirmation.len == 1 && answer.links.len <= rest.len);
}

/* Texts that are read. */
static void try_texts(const uint8_t *data, size_t size)
{
    static arpki_tls_directory read;
    arpki_tls_generation signers[ARPKI_TLS_MOST_SIGNERS];
    arpki_tls_bytes all = {data, size}, half = {data + size / 2, size - size / 2};
    uint8_t digest[ARPKI_TLS_DIGEST];
    uint64_t zero, length, age;
    char *text = copy_of(data, size, 1), name[254], again[254];
    CHECK(text != NULL);
    text[size] = 0;
    CHECK(arpki_tls_signers(all, half, signers) <= ARPKI_TLS_MOST_SIGNERS);
    (void)arpki_tls_epoch_of(all);
    (void)arpki_tls_newest(data, size, digest);
    if (arpki_tls_read_name(text, name))
        CHECK(strlen(name) <= 253 && arpki_tls_read_name(name, again) && strcmp(name, again) == 0);
    (void)arpki_tls_read_directory(text, size, &read);
    if (arpki_tls_read_schedule(text, size, &zero, &length, &age))
        CHECK(length >= 1000);
    free(text);
}

int LLVMFuzzerTestOneInput(const uint8_t *data, size_t size)
{
    if (size == 0)
        return 0;
#ifdef OUTCOMES
    outcomes = data;
    outcomes_left = size;
#endif
    if (data[0] < 8)
        try_answer(data[0], data + 1, size - 1);
    else if (data[0] == 8)
        try_hello(data + 1, size - 1);
    else if (data[0] == 9)
        try_texts(data + 1, size - 1);
    else if (data[0] >= 10 && data[0] < 18)
        try_server((uint8_t)(data[0] - 10), data + 1, size - 1);
    else if (data[0] == 18)
        try_client(data + 1, size - 1);
    return 0;
}
