/* What the proof costs.
 *
 *     rate connect DIRECTORY ROOT PORT NAME EPOCH COUNT with|without     handshakes over TCP to a server on this machine
 *     rate judge DIRECTORY PROOF CHANNEL NAME EPOCH COUNT                verdicts of arpki_staple
 *
 * `connect` writes `milliseconds <of one, the median> processor <ms of the client> in <bytes> out <bytes>`, and `judge` writes
 * `verdicts <in a second of one processor>`. The status is 1 where a server is not accepted. */
#include "arpki_tls.h"
#include "trust.h"

#include <arpa/inet.h>
#include <netinet/in.h>
#include <sys/socket.h>
#include <time.h>
#include <unistd.h>

static uint64_t epoch;

static uint64_t clock_of(void *arg)
{
    (void)arg;
    return epoch * 1000;
}

static double seconds(clockid_t clock)
{
    struct timespec now;
    clock_gettime(clock, &now);
    return (double)now.tv_sec + (double)now.tv_nsec / 1e9;
}

static int ascend(const void *one, const void *other)
{
    double a = *(const double *)one, b = *(const double *)other;
    return a < b ? -1 : a > b;
}

static int connected(unsigned port)
{
    struct sockaddr_in at = {.sin_family = AF_INET, .sin_port = htons((uint16_t)port), .sin_addr = {htonl(INADDR_LOOPBACK)}};
    int socket_of = socket(AF_INET, SOCK_STREAM | SOCK_CLOEXEC, 0);
    return connect(socket_of, (struct sockaddr *)&at, sizeof at) == 0 ? socket_of : -1;
}

static int handshake(SSL_CTX *ctx, unsigned port, const char *name, int with, uint64_t *in, uint64_t *out)
{
    arpki_tls_report report;
    SSL *ssl = SSL_new(ctx);
    int socket_of = connected(port), done;
    SSL_set_fd(ssl, socket_of);
    if (with)
        arpki_tls_expect(ssl, name);
    else
        SSL_set_tlsext_host_name(ssl, name);
    done = socket_of >= 0 && SSL_connect(ssl) == 1 && (!with || arpki_tls_finish(ssl, &report) == ARPKI_TLS_ACCEPTED);
    *in = BIO_number_read(SSL_get_rbio(ssl));
    *out = BIO_number_written(SSL_get_wbio(ssl));
    SSL_shutdown(ssl);
    SSL_free(ssl);
    close(socket_of);
    return done;
}

static int rate_connect(const arpki_keys *keys, char **argv)
{
    arpki_tls_settings is = {.keys = keys, .length = 1000, .age = 4, .clock = clock_of};
    size_t count = strtoul(argv[7], NULL, 10);
    int with = strcmp(argv[8], "with") == 0, done = 1;
    double *times = calloc(count, sizeof *times), used;
    uint64_t in = 0, out = 0;
    epoch = strtoull(argv[6], NULL, 10);
    arpki_tls_client *client = arpki_tls_client_new(&is);
    SSL_CTX *ctx = SSL_CTX_new(TLS_client_method());
    SSL_CTX_load_verify_locations(ctx, argv[3], NULL);
    SSL_CTX_set_verify(ctx, SSL_VERIFY_PEER, NULL);
    if (times == NULL || (with && !arpki_tls_use(client, ctx)))
        return 1;
    used = seconds(CLOCK_PROCESS_CPUTIME_ID);
    for (size_t i = 0; i < count && done; i++) {
        double start = seconds(CLOCK_MONOTONIC);
        done = handshake(ctx, (unsigned)strtoul(argv[4], NULL, 10), argv[5], with, &in, &out);
        times[i] = seconds(CLOCK_MONOTONIC) - start;
    }
    used = seconds(CLOCK_PROCESS_CPUTIME_ID) - used;
    qsort(times, count, sizeof *times, ascend);
    printf("milliseconds %.3f processor %.3f in %llu out %llu\n", times[count / 2] * 1e3, used / (double)count * 1e3, (unsigned long long)in,
           (unsigned long long)out);
    free(times);
    SSL_CTX_free(ctx);
    arpki_tls_client_free(client);
    return !done;
}

static int rate_judge(const arpki_keys *keys, char **argv)
{
    size_t len, count = strtoul(argv[7], NULL, 10), good = 0;
    uint8_t *bytes = read_file(argv[3], &len), channel[ARPKI_TLS_DIGEST];
    arpki_tls_answer proof;
    arpki_answer answer;
    if (bytes == NULL || !arpki_tls_read_proof(bytes, len, &proof))
        return 1;
    for (size_t i = 0; i < sizeof channel; i++) {
        unsigned byte = 0;
        sscanf(argv[4] + 2 * i, "%2x", &byte);
        channel[i] = (uint8_t)byte;
    }
    arpki_question question = {(const uint8_t *)argv[5], strlen(argv[5]), proof.confirmation.at, proof.confirmation.len,
                               strtoull(argv[6], NULL, 10), 4};
    double used = seconds(CLOCK_PROCESS_CPUTIME_ID);
    for (size_t i = 0; i < count; i++)
        good += arpki_staple(keys, &question, channel, proof.staple.at, proof.staple.len, &answer) == ARPKI_ACCEPTED;
    used = seconds(CLOCK_PROCESS_CPUTIME_ID) - used;
    printf("verdicts %.0f\n", (double)count / used);
    free(bytes);
    return good != count;
}

int main(int argc, char **argv)
{
    static arpki_tls_directory trusted;
    if (argc == 9 && strcmp(argv[1], "connect") == 0 && read_directory(argv[2], &trusted))
        return rate_connect(&trusted.keys, argv);
    if (argc == 8 && strcmp(argv[1], "judge") == 0 && read_directory(argv[2], &trusted))
        return rate_judge(&trusted.keys, argv);
    return 2;
}
