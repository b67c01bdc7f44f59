/* nginx shows proofs of arpki in the TLS handshake (docs/TLS.md, "nginx").
 *
 *     arpki_proof <folder> [<schedule>];     in http or server
 *
 * The folder is that of tools/site --folder: proof/<digest of the TLS key>, links/<digest of a certificate> and
 * rolls/<party>/<generation>. A file of it is read anew when it has changed. Where a proof is missing, is not of the form or, by the
 * schedule, is too old, this is logged once, and the handshake goes on without. */
#include <ngx_config.h>
#include <ngx_core.h>
#include <ngx_http.h>

#include "arpki_tls.h"
#include "arpki_tls_files.h"

/* How many TLS keys' proofs are kept in memory, and how many RollNotes are shown at most. */
enum { MOST_KEPT = 64, MOST_NOTES = 24, MOST_NOTE = 16384 };

/* The newest proof of one TLS key, as it was read. */
typedef struct {
    u_char channel[ARPKI_TLS_DIGEST];
    ino_t inode;
    off_t size;
    struct timespec changed;
    u_char *bytes; /* of ngx_alloc, or NULL */
    size_t len;
    ngx_uint_t told; /* whether it was logged that there is none that is good */
} kept_proof;

typedef struct {
    ngx_str_t folder; /* with a zero byte behind it */
    ngx_str_t schedule;
    uint64_t zero, length, age; /* length 0: no schedule was given */
    kept_proof *kept;
    ngx_uint_t kept_len;
} site_conf;

static void *make_conf(ngx_conf_t *cf);
static char *merge_conf(ngx_conf_t *cf, void *parent, void *child);
static char *set_proof(ngx_conf_t *cf, ngx_command_t *cmd, void *conf);
static ngx_int_t equip_servers(ngx_conf_t *cf);

static ngx_command_t commands[] = {
    {ngx_string("arpki_proof"), NGX_HTTP_MAIN_CONF | NGX_HTTP_SRV_CONF | NGX_CONF_TAKE12, set_proof, NGX_HTTP_SRV_CONF_OFFSET, 0, NULL},
    ngx_null_command
};

static ngx_http_module_t context = {NULL, equip_servers, NULL, NULL, make_conf, merge_conf, NULL, NULL};

ngx_module_t ngx_http_arpki_module = {NGX_MODULE_V1, &context, commands, NGX_HTTP_MODULE, NULL, NULL, NULL, NULL, NULL, NULL, NULL,
                                      NGX_MODULE_V1_PADDING};

/* ---- files */

/* Reads a file's first bytes, into `out`; -1 where it cannot be read. */
static ssize_t read_front(const char *path, u_char *out, size_t room)
{
    size_t len = 0;
    ssize_t count = 1;
    int file = open(path, O_RDONLY | O_CLOEXEC);
    if (file < 0)
        return -1;
    while (len < room && (count = read(file, out + len, room - len)) > 0)
        len += (size_t)count;
    close(file);
    return count < 0 ? -1 : (ssize_t)len;
}

/* Writes the path of a file of the folder that has a digest as its name. */
static void digest_path(const site_conf *conf, const char *folder, const u_char *digest, char *path, size_t room)
{
    u_char hex[2 * ARPKI_TLS_DIGEST + 1];
    *ngx_hex_dump(hex, (u_char *)digest, ARPKI_TLS_DIGEST) = 0;
    snprintf(path, room, "%s/%s/%s", conf->folder.data, folder, hex);
}

/* ---- the proof of a TLS key */

static kept_proof *kept_of(site_conf *conf, const u_char *channel)
{
    kept_proof *at;
    for (at = conf->kept; at < conf->kept + conf->kept_len; at++)
        if (ngx_memcmp(at->channel, channel, ARPKI_TLS_DIGEST) == 0)
            return at;
    if (conf->kept_len < MOST_KEPT) {
        at = &conf->kept[conf->kept_len++];
    } else { /* the oldest goes */
        ngx_free(conf->kept[0].bytes);
        ngx_memmove(conf->kept, conf->kept + 1, (MOST_KEPT - 1) * sizeof *conf->kept);
        at = &conf->kept[MOST_KEPT - 1];
    }
    ngx_memzero(at, sizeof *at);
    ngx_memcpy(at->channel, channel, ARPKI_TLS_DIGEST);
    return at;
}

/* Reads a proof anew if its file has changed. Why there is none, or NULL. */
static const char *renew(kept_proof *proof, const char *path)
{
    struct stat is;
    arpki_tls_answer read;
    ssize_t len;
    if (stat(path, &is) != 0 || is.st_size <= 0 || is.st_size > ARPKI_TLS_ROOM) {
        ngx_free(proof->bytes);
        proof->bytes = NULL;
        proof->inode = 0;
        return "cannot be read";
    }
    if (proof->bytes == NULL || proof->inode != is.st_ino || proof->size != is.st_size || proof->changed.tv_sec != is.st_mtim.tv_sec
        || proof->changed.tv_nsec != is.st_mtim.tv_nsec) {
        u_char *bytes = ngx_alloc((size_t)is.st_size, ngx_cycle->log);
        len = bytes == NULL ? -1 : read_front(path, bytes, (size_t)is.st_size);
        ngx_free(proof->bytes);
        proof->bytes = bytes;
        if (len != is.st_size) {
            ngx_free(bytes);
            proof->bytes = NULL;
            return "cannot be read";
        }
        proof->len = (size_t)len;
        proof->inode = is.st_ino;
        proof->size = is.st_size;
        proof->changed = is.st_mtim;
        proof->told = 0;
    }
    return arpki_tls_read_proof(proof->bytes, proof->len, &read) ? NULL : "has no staple, or is not of the form";
}

/* Whether a proof is too old by the schedule. */
static int is_old(const site_conf *conf, const kept_proof *proof)
{
    arpki_tls_answer read;
    ngx_time_t *time = ngx_timeofday();
    uint64_t now = (uint64_t)time->sec * 1000 + time->msec, epoch;
    if (conf->length == 0 || now < conf->zero || !arpki_tls_read_proof(proof->bytes, proof->len, &read))
        return 0;
    epoch = arpki_tls_epoch_of(read.confirmation);
    now = (now - conf->zero) / conf->length;
    return now > epoch && now - epoch > conf->age;
}

/* The proof of a TLS key, or NULL; why there is none is logged once. */
static kept_proof *good_proof(site_conf *conf, const u_char *channel)
{
    char path[NGX_MAX_PATH + 80];
    kept_proof *proof = kept_of(conf, channel);
    const char *why;
    digest_path(conf, "proof", channel, path, sizeof path);
    why = renew(proof, path);
    if (why == NULL && is_old(conf, proof))
        why = "is too old";
    if (why == NULL) {
        proof->told = 0;
        return proof;
    }
    if (!proof->told)
        ngx_log_error(NGX_LOG_ERR, ngx_cycle->log, 0, "arpki: %s %s: handshakes go on without a proof", path, why);
    proof->told = 1;
    return NULL;
}

/* ---- an answer */

/* Reads the RollNotes that a client lacks of the parties that signed; they stand in `room`. Returns how many there are. */
static size_t take_notes(const site_conf *conf, const arpki_tls_hello *hello, arpki_tls_bytes confirmation, arpki_tls_bytes links,
                         u_char *room, arpki_tls_bytes *notes)
{
    arpki_tls_generation signers[ARPKI_TLS_MOST_SIGNERS];
    size_t count = hello->says_known ? arpki_tls_signers(confirmation, links, signers) : 0, len = 0, i;
    for (i = 0; i < count; i++) {
        uint32_t at = arpki_tls_known_of(hello, signers[i].role, signers[i].number);
        for (; at < signers[i].generation && len < MOST_NOTES; at++) {
            char path[NGX_MAX_PATH + 80];
            ssize_t got;
            snprintf(path, sizeof path, "%s/rolls/%c%u/%u", conf->folder.data, signers[i].role == 1 ? 'L' : 'A', signers[i].number, at);
            got = read_front(path, room, MOST_NOTE);
            if (got <= 0 || got == MOST_NOTE)
                break;
            notes[len++] = (arpki_tls_bytes){room, (size_t)got};
            room += got;
        }
    }
    return len;
}

static int give(void *arg, const arpki_tls_asked *asked, uint8_t **bytes, size_t *len)
{
    site_conf *conf = arg;
    kept_proof *proof = good_proof(conf, asked->channel);
    arpki_tls_bytes notes[MOST_NOTES], links = {(const uint8_t *)"", 0};
    arpki_tls_answer read;
    u_char *room;
    size_t notes_len;
    if (proof == NULL || !arpki_tls_read_proof(proof->bytes, proof->len, &read))
        return 0;
    room = ngx_alloc(ARPKI_TLS_ROOM + MOST_NOTES * MOST_NOTE, ngx_cycle->log);
    *bytes = OPENSSL_malloc(ARPKI_TLS_ROOM);
    *len = 0;
    if (room != NULL && *bytes != NULL) {
        if (asked->hello->says_pin) {
            char path[NGX_MAX_PATH + 80];
            ssize_t got;
            digest_path(conf, "links", asked->hello->pin, path, sizeof path);
            got = read_front(path, room, ARPKI_TLS_ROOM);
            links = (arpki_tls_bytes){room, got < 0 ? 0 : (size_t)got};
        }
        notes_len = take_notes(conf, asked->hello, read.confirmation, links, room + ARPKI_TLS_ROOM, notes);
        *len = arpki_tls_write_answer((arpki_tls_bytes){proof->bytes, proof->len}, links, notes, notes_len, *bytes);
    }
    ngx_free(room);
    if (*len == 0)
        OPENSSL_free(*bytes);
    return *len != 0;
}

/* ---- the configuration */

static void *make_conf(ngx_conf_t *cf)
{
    return ngx_pcalloc(cf->pool, sizeof(site_conf));
}

static char *merge_conf(ngx_conf_t *cf, void *parent, void *child)
{
    site_conf *from = parent, *to = child;
    (void)cf;
    if (to->folder.len == 0 && from->folder.len != 0) {
        *to = *from;
        to->kept = ngx_pcalloc(cf->pool, MOST_KEPT * sizeof *to->kept);
        if (to->kept == NULL)
            return NGX_CONF_ERROR;
    }
    return NGX_CONF_OK;
}

static int read_schedule(site_conf *conf)
{
    u_char text[1024];
    ssize_t len = read_front((char *)conf->schedule.data, text, sizeof text);
    return len >= 0 && arpki_tls_read_schedule((char *)text, (size_t)len, &conf->zero, &conf->length, &conf->age);
}

static char *set_proof(ngx_conf_t *cf, ngx_command_t *cmd, void *c)
{
    site_conf *conf = c;
    ngx_str_t *words = cf->args->elts;
    (void)cmd;
    if (conf->folder.len != 0)
        return "is duplicate";
    conf->folder = words[1];
    if (ngx_conf_full_name(cf->cycle, &conf->folder, 0) != NGX_OK)
        return NGX_CONF_ERROR;
    if (conf->folder.len > NGX_MAX_PATH - 160)
        return "has a folder whose path is too long";
    if (cf->args->nelts == 3) {
        conf->schedule = words[2];
        if (ngx_conf_full_name(cf->cycle, &conf->schedule, 0) != NGX_OK)
            return NGX_CONF_ERROR;
        if (!read_schedule(conf))
            return "has a schedule that cannot be read";
    }
    conf->kept = ngx_pcalloc(cf->pool, MOST_KEPT * sizeof *conf->kept);
    return conf->kept == NULL ? NGX_CONF_ERROR : NGX_CONF_OK;
}

/* A server that has no folder shows nothing, but its context may be the one that reads a ClientHello for another. */
static int give_nothing(void *arg, const arpki_tls_asked *asked, uint8_t **bytes, size_t *len)
{
    (void)arg, (void)asked, (void)bytes, (void)len;
    return 0;
}

static ngx_int_t equip_servers(ngx_conf_t *cf)
{
    ngx_http_core_main_conf_t *main_conf = ngx_http_conf_get_module_main_conf(cf, ngx_http_core_module);
    ngx_http_core_srv_conf_t **servers = main_conf->servers.elts;
    ngx_uint_t i, wanted = 0;
    for (i = 0; i < main_conf->servers.nelts; i++) {
        site_conf *conf = servers[i]->ctx->srv_conf[ngx_http_arpki_module.ctx_index];
        wanted |= conf->folder.len != 0;
    }
    for (i = 0; wanted && i < main_conf->servers.nelts; i++) {
        site_conf *conf = servers[i]->ctx->srv_conf[ngx_http_arpki_module.ctx_index];
        ngx_http_ssl_srv_conf_t *ssl = servers[i]->ctx->srv_conf[ngx_http_ssl_module.ctx_index];
        if (ssl->ssl.ctx == NULL)
            continue;
        if (!arpki_tls_serve(ssl->ssl.ctx, conf->folder.len != 0 ? give : give_nothing, conf)) {
            ngx_log_error(NGX_LOG_EMERG, cf->log, 0, "arpki: a server's TLS context takes no extension");
            return NGX_ERROR;
        }
    }
    return NGX_OK;
}
