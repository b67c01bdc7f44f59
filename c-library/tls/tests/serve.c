/* A TLS server for tests: an honest one that speaks POP3, and a man in the middle.
 *
 *     serve CERT KEY [--raw FILE] [--tls 1.2] [--pop3]
 *
 * It writes `port <n>`, and then of each connection one line: `got <bytes> <ok or failed>`, with how many bytes of requests it received, and
 * whether the handshake came to its end. With --raw it shows the bytes of the file beside its certificate to a client that asks; the
 * file is read for each connection. It ends with its standard input. */
#include "arpki_tls.h"
#include "trust.h"

#include <arpa/inet.h>
#include <netinet/in.h>
#include <poll.h>
#include <sys/socket.h>
#include <unistd.h>

static const char *raw;
static int is_pop3;

static int show(SSL *ssl, unsigned int extension, unsigned int context, const unsigned char **out, size_t *len, X509 *x, size_t place,
                int *alert, void *arg)
{
    (void)ssl, (void)extension, (void)x, (void)alert, (void)arg;
    if (context != SSL_EXT_TLS1_3_CERTIFICATE || place != 0 || raw == NULL)
        return 0;
    *out = read_file(raw, len);
    return *out != NULL;
}

static void shown(SSL *ssl, unsigned int extension, unsigned int context, const unsigned char *out, void *arg)
{
    (void)ssl, (void)extension, (void)context, (void)arg;
    free((void *)(uintptr_t)out);
}

static int hear(SSL *ssl, unsigned int extension, unsigned int context, const unsigned char *in, size_t len, X509 *x, size_t place,
                int *alert, void *arg)
{
    (void)ssl, (void)extension, (void)context, (void)in, (void)len, (void)x, (void)place, (void)alert, (void)arg;
    return 1;
}

static void put(SSL *ssl, const char *text)
{
    SSL_write(ssl, text, (int)strlen(text));
}

/* A mailbox without a message. */
static int answer_pop3(SSL *ssl, const char *line)
{
    if (strncmp(line, "CAPA", 4) == 0)
        put(ssl, "+OK\r\nUSER\r\n.\r\n");
    else if (strncmp(line, "STAT", 4) == 0)
        put(ssl, "+OK 0 0\r\n");
    else if (strncmp(line, "QUIT", 4) == 0)
        return put(ssl, "+OK\r\n"), 0;
    else
        put(ssl, "+OK\r\n");
    return 1;
}

static int answer(SSL *ssl, const char *request)
{
    if (is_pop3)
        return answer_pop3(ssl, request);
    put(ssl, "HTTP/1.1 200 OK\r\nContent-Length: 7\r\nConnection: close\r\n\r\nmiddle\n");
    return 0;
}

static void serve(SSL_CTX *ctx, int socket)
{
    char in[4096];
    size_t got = 0;
    int count, done, goes_on = 1;
    SSL *ssl = SSL_new(ctx);
    SSL_set_fd(ssl, socket);
    done = SSL_accept(ssl) == 1;
    if (done && is_pop3)
        put(ssl, "+OK ready\r\n");
    while (done && goes_on && (count = SSL_read(ssl, in, sizeof in - 1)) > 0) {
        got += (size_t)count;
        in[count] = 0;
        goes_on = answer(ssl, in);
    }
    if (done)
        SSL_shutdown(ssl);
    printf("got %zu %s\n", got, done ? "ok" : "failed");
    fflush(stdout);
    SSL_free(ssl);
    close(socket);
}

int main(int argc, char **argv)
{
    struct sockaddr_in at = {.sin_family = AF_INET, .sin_addr = {htonl(INADDR_LOOPBACK)}};
    socklen_t len = sizeof at;
    struct timeval patience = {5, 0};
    SSL_CTX *ctx = SSL_CTX_new(TLS_server_method());
    int listening = socket(AF_INET, SOCK_STREAM | SOCK_CLOEXEC, 0);
    if (argc < 3 || SSL_CTX_use_certificate_chain_file(ctx, argv[1]) != 1 || SSL_CTX_use_PrivateKey_file(ctx, argv[2], SSL_FILETYPE_PEM) != 1)
        return 2;
    for (int i = 3; i < argc; i++) {
        if (strcmp(argv[i], "--raw") == 0 && i + 1 < argc)
            raw = argv[++i];
        else if (strcmp(argv[i], "--tls") == 0 && i + 1 < argc)
            SSL_CTX_set_max_proto_version(ctx, strcmp(argv[++i], "1.2") == 0 ? TLS1_2_VERSION : TLS1_3_VERSION);
        else if (strcmp(argv[i], "--pop3") == 0)
            is_pop3 = 1;
        else
            return 2;
    }
    if (!SSL_CTX_add_custom_ext(ctx, ARPKI_TLS_EXTENSION, SSL_EXT_CLIENT_HELLO | SSL_EXT_TLS1_3_CERTIFICATE, show, shown, NULL, hear, NULL)
        || bind(listening, (struct sockaddr *)&at, sizeof at) != 0 || listen(listening, 16) != 0
        || getsockname(listening, (struct sockaddr *)&at, &len) != 0)
        return 1;
    printf("port %u\n", ntohs(at.sin_port));
    fflush(stdout);
    for (;;) {
        struct pollfd both[2] = {{0, POLLIN, 0}, {listening, POLLIN, 0}};
        if (poll(both, 2, -1) < 0 || both[0].revents != 0)
            break;
        int socket = accept(listening, NULL, NULL);
        if (socket >= 0) {
            setsockopt(socket, SOL_SOCKET, SO_RCVTIMEO, &patience, sizeof patience);
            serve(ctx, socket);
        }
    }
    SSL_CTX_free(ctx);
    return 0;
}
