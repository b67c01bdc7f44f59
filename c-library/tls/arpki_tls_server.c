/* A server that shows proofs of arpki in the handshake: docs/TLS.md, "A server". It judges nothing, and needs no libarpki. */
#include "arpki_tls.h"

#include <pthread.h>
#include <openssl/x509.h>

/* What is asked for bytes, of a context. */
typedef struct serving {
    arpki_tls_giver give;
    void *arg;
} serving;

static pthread_once_t once = PTHREAD_ONCE_INIT;
static int hello_index = -1;  /* of an SSL: what its client said, or nothing */
static int serving_index = -1; /* of an SSL_CTX */

static void free_block(void *parent, void *block, CRYPTO_EX_DATA *data, int index, long argl, void *argp)
{
    (void)parent, (void)data, (void)index, (void)argl, (void)argp;
    OPENSSL_free(block);
}

static void take_indexes(void)
{
    hello_index = SSL_get_ex_new_index(0, NULL, NULL, NULL, free_block);
    serving_index = SSL_CTX_get_ex_new_index(0, NULL, NULL, NULL, free_block);
}

/* Of a ClientHello: notes what the client said. What is not of the form is as if it were not there: the number of the extension is of
 * the private range, where it may be somebody else's. */
static int hear(SSL *ssl, unsigned int extension, unsigned int context, const unsigned char *in, size_t len, X509 *x, size_t place,
                int *alert, void *arg)
{
    arpki_tls_hello *hello = SSL_get_ex_data(ssl, hello_index);
    (void)extension, (void)x, (void)place, (void)arg;
    if (context != SSL_EXT_CLIENT_HELLO || !SSL_is_server(ssl))
        return 1;
    if (hello == NULL)
        hello = OPENSSL_malloc(sizeof *hello);
    if (hello == NULL || !SSL_set_ex_data(ssl, hello_index, hello)) {
        *alert = SSL_AD_INTERNAL_ERROR;
        return 0;
    }
    if (!arpki_tls_read_hello(in, len, hello)) {
        OPENSSL_free(hello);
        SSL_set_ex_data(ssl, hello_index, NULL);
    }
    return 1;
}

/* Of the Certificate: puts the answer to the server's own certificate, which is the first. */
static int show(SSL *ssl, unsigned int extension, unsigned int context, const unsigned char **out, size_t *len, X509 *x, size_t place,
                int *alert, void *arg)
{
    const arpki_tls_hello *hello = SSL_get_ex_data(ssl, hello_index);
    serving *server = arg;
    uint8_t channel[ARPKI_TLS_DIGEST], *bytes = NULL;
    const char *name = SSL_get_servername(ssl, TLSEXT_NAMETYPE_host_name);
    arpki_tls_asked asked = {channel, name == NULL ? "" : name, hello};
    (void)extension, (void)alert;
    if (context != SSL_EXT_TLS1_3_CERTIFICATE || !SSL_is_server(ssl) || place != 0 || hello == NULL || !arpki_tls_channel(x, channel)
        || !server->give(server->arg, &asked, &bytes, len))
        return 0;
    if (*len == 0 || *len > ARPKI_TLS_MOST) {
        OPENSSL_free(bytes);
        return 0;
    }
    *out = bytes;
    return 1;
}

static void shown(SSL *ssl, unsigned int extension, unsigned int context, const unsigned char *out, void *arg)
{
    (void)ssl, (void)extension, (void)context, (void)arg;
    OPENSSL_free((void *)(uintptr_t)out);
}

int arpki_tls_serve(SSL_CTX *ctx, arpki_tls_giver give, void *arg)
{
    serving *server;
    if (pthread_once(&once, take_indexes) != 0 || hello_index < 0 || serving_index < 0
        || SSL_CTX_get_ex_data(ctx, serving_index) != NULL)
        return 0;
    server = OPENSSL_malloc(sizeof *server);
    if (server == NULL)
        return 0;
    *server = (serving){give, arg};
    if (!SSL_CTX_set_ex_data(ctx, serving_index, server)) {
        OPENSSL_free(server);
        return 0;
    }
    return SSL_CTX_add_custom_ext(ctx, ARPKI_TLS_EXTENSION, SSL_EXT_CLIENT_HELLO | SSL_EXT_TLS1_3_CERTIFICATE, show, shown, server,
                                  hear, server);
}
