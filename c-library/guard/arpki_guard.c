/* libarpki_guard.so: what stands in front of OpenSSL in a program that arpki-guard runs (docs/TLS.md, "arpki-guard").
 *
 * Each context of OpenSSL that the program makes judges servers in the handshake, as arpki_tls_client.c does. The entry points of GnuTLS
 * and NSS refuse. A program that this one starts is guarded too, or is not started. */
#include "arpki_tls.h"
#include "arpki_tls_files.h"
#include "start.h"

#include <dlfcn.h>
#include <errno.h>
#include <fcntl.h>
#include <limits.h>
#include <pthread.h>
#include <spawn.h>
#include <stdarg.h>
#include <stdio.h>
#include <stdlib.h>
#include <string.h>
#include <sys/file.h>
#include <sys/stat.h>
#include <unistd.h>

#define SHOWN __attribute__((visibility("default")))

/* ---- what is below: the functions that are wrapped */

/* What dlsym answers, whatever it points to. */
typedef void *anything __attribute__((may_alias));

static void *(*real_dlsym)(void *, const char *);

/* The function of this name behind this library. */
static void *below(const char *name)
{
    if (real_dlsym == NULL)
        *(anything *)(void *)&real_dlsym = dlvsym(RTLD_NEXT, "dlsym", "GLIBC_2.34");
    if (real_dlsym == NULL)
        *(anything *)(void *)&real_dlsym = dlvsym(RTLD_NEXT, "dlsym", "GLIBC_2.2.5");
    return real_dlsym == NULL ? NULL : real_dlsym(RTLD_NEXT, name);
}

/* `REAL(f)` is the function f behind this library; two threads that look for it find the same. */
#define DECLARE(name) static __typeof__(&name) real_##name
#define REAL(name) (find(#name, (anything *)(void *)&real_##name), real_##name)

static void find(const char *name, anything *kept)
{
    if (*kept == NULL)
        *kept = below(name);
    if (*kept == NULL)
        abort(); /* it is called, so the program has it: this library cannot stand in front of it */
}

/* ---- what is told, in one write */

static void say(const char *what, const char *why)
{
    char line[1200];
    int len = snprintf(line, sizeof line, "arpki-guard: %s%s%s\n", what, why[0] == 0 ? "" : ": ", why);
    if (len > 0 && write(2, line, (size_t)len < sizeof line ? (size_t)len : sizeof line - 1) < 0)
        return;
}

/* ---- what is given: read once, when the library is loaded, since a program may change its environment */

static const char *const VARIABLES[] = {"ARPKI_GUARD_LIBRARY", "ARPKI_GUARD_DIRECTORY", "ARPKI_GUARD_SCHEDULE", "ARPKI_GUARD_NAMES",
                                        "ARPKI_GUARD_STATE", "ARPKI_GUARD_SAY", "ARPKI_GUARD_TELL"};
enum { LIBRARY, DIRECTORY, SCHEDULE, NAMES, STATE, SAY, TELL, COUNT };
static char *given[COUNT];         /* `NAME=value`, or NULL */
static char preload[2 * PATH_MAX]; /* the same of LD_PRELOAD */
static arpki_tls_client *client;
static const char *broken = "its library was not set up"; /* why nothing can be judged, or NULL */
static char *listed;               /* the list of names */
static int client_of_index = -1;

static const char *value_of(int at)
{
    return given[at] == NULL ? NULL : strchr(given[at], '=') + 1;
}

static uint8_t *read_whole(const char *path, size_t *len)
{
    FILE *file = path == NULL ? NULL : fopen(path, "rbe");
    uint8_t *data = NULL;
    long size;
    *len = 0;
    if (file == NULL)
        return NULL;
    if (fseek(file, 0, SEEK_END) == 0 && (size = ftell(file)) >= 0 && fseek(file, 0, SEEK_SET) == 0
        && (data = malloc((size_t)size + 1)) != NULL) {
        *len = fread(data, 1, (size_t)size, file);
        data[*len] = 0;
        if (*len != (size_t)size) {
            free(data);
            data = NULL;
        }
    }
    fclose(file);
    return data;
}

/* ---- the store: a folder of the user's */

static void path_of(char *path, size_t room, const char *name)
{
    snprintf(path, room, "%s/%s", value_of(STATE), name);
}

/* Puts bytes in the place of a file, as a whole: under another name, to the disk, and then renamed. */
static int write_whole(const char *path, const uint8_t *bytes, size_t len)
{
    char other[PATH_MAX + 32];
    size_t at = 0;
    ssize_t count = 1;
    int done, file;
    snprintf(other, sizeof other, "%s.%ld.new", path, (long)getpid());
    file = open(other, O_WRONLY | O_CREAT | O_TRUNC | O_CLOEXEC, 0600);
    if (file < 0)
        return 0;
    while (at < len && (count = write(file, bytes + at, len - at)) > 0)
        at += (size_t)count;
    done = at == len && fsync(file) == 0;
    done &= close(file) == 0;
    if (done && rename(other, path) == 0)
        return 1;
    unlink(other);
    return 0;
}

/* The store's lock, over processes. -1: there is none. */
static int lock_store(void)
{
    char path[PATH_MAX];
    path_of(path, sizeof path, "lock");
    int file = open(path, O_RDWR | O_CREAT | O_CLOEXEC, 0600);
    if (file >= 0 && flock(file, LOCK_EX) != 0) {
        close(file);
        file = -1;
    }
    return file;
}

static void pin_path(char *path, size_t room, const char *name)
{
    snprintf(path, room, "%s/pins/%s", value_of(STATE), name);
}

static int pin_of(void *arg, const char *name, uint8_t **pin, size_t *len)
{
    char path[PATH_MAX];
    (void)arg;
    pin_path(path, sizeof path, name);
    *pin = read_whole(path, len);
    return *pin != NULL || errno == ENOENT;
}

static int keep_pin(void *arg, const char *name, arpki_tls_bytes old, arpki_tls_bytes pin)
{
    char path[PATH_MAX];
    uint8_t *now;
    size_t len;
    int done = 2, lock = lock_store();
    (void)arg;
    if (lock < 0)
        return 0;
    pin_path(path, sizeof path, name);
    now = read_whole(path, &len);
    if (now == NULL && errno != ENOENT)
        done = 0;
    else if (len == old.len && (len == 0 || memcmp(now, old.at, len) == 0))
        done = write_whole(path, pin.at, pin.len);
    free(now);
    close(lock);
    return done;
}

static int keep_entry(void *arg, const arpki_entry *entry)
{
    char path[PATH_MAX];
    size_t len;
    int done = 0, lock = lock_store();
    (void)arg;
    if (lock < 0)
        return 0;
    path_of(path, sizeof path, "learnt");
    uint8_t *now = read_whole(path, &len), *more = now == NULL && errno != ENOENT ? NULL : realloc(now, len + sizeof *entry);
    if (more != NULL) {
        size_t at = 0;
        now = more;
        while (at + sizeof *entry <= len && memcmp(now + at, entry, sizeof *entry) != 0)
            at += sizeof *entry;
        memcpy(now + len, entry, sizeof *entry);
        done = at + sizeof *entry <= len || write_whole(path, now, len + sizeof *entry);
    }
    free(now);
    close(lock);
    return done;
}

static int is_listed(void *arg, const char *name)
{
    size_t len = strlen(name);
    (void)arg;
    for (const char *at = listed; at != NULL && *at != 0;) {
        size_t line = strcspn(at, "\r\n");
        if (line == len && memcmp(at, name, len) == 0)
            return 1;
        at += line;
        at += strspn(at, "\r\n");
    }
    return 0;
}

static void tell(void *arg, const arpki_tls_report *report)
{
    char line[600];
    (void)arg;
    if (report->verdict == ARPKI_TLS_REFUSED || value_of(TELL) != NULL)
        say(arpki_tls_say(report, line, sizeof line), "");
}

/* ---- the program's own verification */

typedef struct own_verify {
    int (*verify)(X509_STORE_CTX *, void *);
    void *arg;
} own_verify;

static void free_own(void *parent, void *own, CRYPTO_EX_DATA *data, int index, long argl, void *argp)
{
    (void)parent, (void)data, (void)index, (void)argl, (void)argp;
    free(own);
}

static int verify(void *arg, SSL *ssl, X509_STORE_CTX *store)
{
    const own_verify *own = SSL_CTX_get_ex_data(SSL_get_SSL_CTX(ssl), client_of_index);
    (void)arg;
    return own == NULL ? X509_verify_cert(store) : own->verify(store, own->arg);
}

/* ---- what is set up when the library is loaded */

static arpki_tls_client *make_client(void)
{
    static arpki_tls_directory directory;
    arpki_tls_settings is = {0};
    char path[PATH_MAX];
    size_t len, schedule_len, learnt_len, names_len;
    char *text = (char *)read_whole(value_of(DIRECTORY), &len), *schedule = (char *)read_whole(value_of(SCHEDULE), &schedule_len);
    uint8_t *learnt = NULL;
    arpki_tls_client *made = NULL;
    path_of(path, sizeof path, "learnt");
    learnt = read_whole(path, &learnt_len);
    if (learnt == NULL && errno != ENOENT)
        broken = "the learnt keys cannot be read";
    else if (text == NULL || !arpki_tls_read_directory(text, len, &directory))
        broken = "the directory is none";
    else if (schedule == NULL || !arpki_tls_read_schedule(schedule, schedule_len, &is.zero, &is.length, &is.age))
        broken = "the schedule is none";
    else if (value_of(NAMES) != NULL && (listed = (char *)read_whole(value_of(NAMES), &names_len)) == NULL)
        broken = "the list of names cannot be read";
    else {
        if (learnt != NULL) {
            directory.keys.learnt = (const arpki_entry *)(void *)learnt;
            directory.keys.learnt_len = learnt_len / sizeof(arpki_entry);
        }
        is.keys = &directory.keys;
        is.is_listed = is_listed;
        is.pin_of = pin_of;
        is.keep_pin = keep_pin;
        is.keep_entry = keep_entry;
        is.tell = tell;
        is.verify = verify;
        is.say_pin = is.say_known = value_of(SAY) != NULL;
        is.names_by_sni = 1;
        made = arpki_tls_client_new(&is);
        broken = made == NULL ? "there is no memory" : NULL;
    }
    free(text);
    free(schedule);
    free(learnt);
    return made;
}

DECLARE(execve);
DECLARE(fexecve);
DECLARE(posix_spawn);
DECLARE(posix_spawnp);
DECLARE(system);
DECLARE(popen);

/* They are found now, since they are called in children of vfork. */
static void find_starters(void)
{
    (void)REAL(execve);
    (void)REAL(fexecve);
    (void)REAL(posix_spawn);
    (void)REAL(posix_spawnp);
    (void)REAL(system);
    (void)REAL(popen);
}

__attribute__((constructor)) static void set_up(void)
{
    Dl_info one, other;
    const char *others = getenv("LD_PRELOAD");
    find_starters();
    for (int at = 0; at < COUNT; at++) {
        const char *value = getenv(VARIABLES[at]);
        if (value != NULL && asprintf(&given[at], "%s=%s", VARIABLES[at], value) < 0)
            given[at] = NULL;
    }
    snprintf(preload, sizeof preload, "LD_PRELOAD=%s", others == NULL ? "" : others);
    if (value_of(LIBRARY) == NULL || value_of(STATE) == NULL || preload[11] == 0)
        return;
    /* what is behind this library has to be the OpenSSL that it is linked with */
    if (below("SSL_CTX_new") == NULL || dladdr(below("SSL_CTX_new"), &one) == 0 || dladdr(below("SSL_get_ex_data"), &other) == 0
        || one.dli_fbase != other.dli_fbase || below("SSL_CTX_new_ex") == NULL) {
        broken = "the program has another OpenSSL";
        return;
    }
    client_of_index = SSL_CTX_get_ex_new_index(0, NULL, NULL, NULL, free_own);
    client = client_of_index < 0 ? NULL : make_client();
}

/* ---- OpenSSL */

DECLARE(SSL_CTX_new);
DECLARE(SSL_CTX_new_ex);
DECLARE(SSL_CTX_set_cert_verify_callback);
DECLARE(SSL_connect);
DECLARE(SSL_do_handshake);
DECLARE(SSL_write);
DECLARE(SSL_write_ex);
DECLARE(SSL_read);
DECLARE(SSL_read_ex);
DECLARE(SSL_peek);
DECLARE(SSL_peek_ex);
DECLARE(SSL_sendfile);
DECLARE(SSL_write_early_data);

/* Has a context judge. NULL, and it is freed, where it cannot. */
static SSL_CTX *equipped(SSL_CTX *ctx)
{
    if (ctx == NULL || (client != NULL && arpki_tls_use(client, ctx)))
        return ctx;
    say("no connection can be judged", broken == NULL ? "OpenSSL takes no extension" : broken);
    SSL_CTX_free(ctx);
    return NULL;
}

SHOWN SSL_CTX *SSL_CTX_new(const SSL_METHOD *method)
{
    return equipped(REAL(SSL_CTX_new)(method));
}

SHOWN SSL_CTX *SSL_CTX_new_ex(OSSL_LIB_CTX *library, const char *query, const SSL_METHOD *method)
{
    return equipped(REAL(SSL_CTX_new_ex)(library, query, method));
}

/* A program's own way to verify comes behind ours. */
SHOWN void SSL_CTX_set_cert_verify_callback(SSL_CTX *ctx, int (*check)(X509_STORE_CTX *, void *), void *arg)
{
    if (client != NULL && arg == client) { /* it is arpki_tls_use that calls */
        REAL(SSL_CTX_set_cert_verify_callback)(ctx, check, arg);
        return;
    }
    own_verify *own = check == NULL ? NULL : malloc(sizeof *own);
    if (check != NULL && own == NULL)
        return; /* it is verified by today's rules then */
    if (own != NULL)
        *own = (own_verify){check, arg};
    free(SSL_CTX_get_ex_data(ctx, client_of_index));
    SSL_CTX_set_ex_data(ctx, client_of_index, own);
}

/* Before the first step of a client's handshake: whose it is. Where it is refused, the handshake fails by itself. */
static void begin(SSL *ssl)
{
    if (SSL_in_before(ssl))
        arpki_tls_expect(ssl, NULL);
}

/* Behind each step: what was found, once it is over. */
static int ended(SSL *ssl, int result)
{
    arpki_tls_report report;
    if (result == 1)
        return arpki_tls_finish(ssl, &report) == ARPKI_TLS_REFUSED ? -1 : 1;
    if (SSL_get_error(ssl, result) == SSL_ERROR_SSL)
        arpki_tls_finish(ssl, &report);
    return result;
}

SHOWN int SSL_connect(SSL *ssl)
{
    begin(ssl);
    return ended(ssl, REAL(SSL_connect)(ssl));
}

SHOWN int SSL_do_handshake(SSL *ssl)
{
    if (SSL_is_server(ssl))
        return REAL(SSL_do_handshake)(ssl);
    begin(ssl);
    return ended(ssl, REAL(SSL_do_handshake)(ssl));
}

/* Before bytes go or come: the handshake is finished, and the server not refused. 1: go on; else what the handshake answered. */
static int may_pass(SSL *ssl)
{
    arpki_tls_report report;
    int done;
    if (SSL_is_server(ssl))
        return 1;
    if (!SSL_is_init_finished(ssl)) {
        done = SSL_do_handshake(ssl);
        if (done != 1)
            return done;
    }
    return arpki_tls_finish(ssl, &report) == ARPKI_TLS_REFUSED ? -1 : 1;
}

SHOWN int SSL_write(SSL *ssl, const void *bytes, int len)
{
    int passes = may_pass(ssl);
    return passes == 1 ? REAL(SSL_write)(ssl, bytes, len) : passes;
}

SHOWN int SSL_write_ex(SSL *ssl, const void *bytes, size_t len, size_t *written)
{
    return may_pass(ssl) == 1 ? REAL(SSL_write_ex)(ssl, bytes, len, written) : 0;
}

SHOWN int SSL_read(SSL *ssl, void *bytes, int len)
{
    int passes = may_pass(ssl);
    return passes == 1 ? REAL(SSL_read)(ssl, bytes, len) : passes;
}

SHOWN int SSL_read_ex(SSL *ssl, void *bytes, size_t len, size_t *count)
{
    return may_pass(ssl) == 1 ? REAL(SSL_read_ex)(ssl, bytes, len, count) : 0;
}

SHOWN int SSL_peek(SSL *ssl, void *bytes, int len)
{
    int passes = may_pass(ssl);
    return passes == 1 ? REAL(SSL_peek)(ssl, bytes, len) : passes;
}

SHOWN int SSL_peek_ex(SSL *ssl, void *bytes, size_t len, size_t *count)
{
    return may_pass(ssl) == 1 ? REAL(SSL_peek_ex)(ssl, bytes, len, count) : 0;
}

SHOWN ossl_ssize_t SSL_sendfile(SSL *ssl, int file, off_t offset, size_t size, int flags)
{
    return may_pass(ssl) == 1 ? REAL(SSL_sendfile)(ssl, file, offset, size, flags) : -1;
}

SHOWN int SSL_write_early_data(SSL *ssl, const void *bytes, size_t len, size_t *written)
{
    begin(ssl);
    return REAL(SSL_write_early_data)(ssl, bytes, len, written);
}

/* ---- GnuTLS and NSS, which are not guarded */

/* Of GnuTLS: GNUTLS_E_UNIMPLEMENTED_FEATURE. */
enum { GNUTLS_REFUSED = -1250 };
SHOWN int gnutls_handshake(void *session);
SHOWN void *SSL_ImportFD(void *model, void *socket);
SHOWN void *DTLS_ImportFD(void *model, void *socket);
SHOWN int SSL_ForceHandshake(void *socket);
SHOWN int SSL_ForceHandshakeWithTimeout(void *socket, unsigned timeout);

int gnutls_handshake(void *session)
{
    (void)session;
    say("a connection is refused", "it is of GnuTLS, in which nothing is judged");
    return GNUTLS_REFUSED;
}

static void refuse_nss(void)
{
    say("a connection is refused", "it is of NSS, in which nothing is judged");
}

void *SSL_ImportFD(void *model, void *socket)
{
    (void)model, (void)socket;
    refuse_nss();
    return NULL;
}

void *DTLS_ImportFD(void *model, void *socket)
{
    (void)model, (void)socket;
    refuse_nss();
    return NULL;
}

int SSL_ForceHandshake(void *socket)
{
    (void)socket;
    refuse_nss();
    return -1;
}

int SSL_ForceHandshakeWithTimeout(void *socket, unsigned timeout)
{
    (void)socket, (void)timeout;
    refuse_nss();
    return -1;
}

/* ---- functions that a program looks for by their names */

#define FUNCTION(name) {#name, (void (*)(void))name}
static const struct named {
    const char *name;
    void (*function)(void);
} WRAPPED[] = {
    FUNCTION(SSL_CTX_new), FUNCTION(SSL_CTX_new_ex), FUNCTION(SSL_CTX_set_cert_verify_callback), FUNCTION(SSL_connect),
    FUNCTION(SSL_do_handshake), FUNCTION(SSL_write), FUNCTION(SSL_write_ex), FUNCTION(SSL_read), FUNCTION(SSL_read_ex),
    FUNCTION(SSL_peek), FUNCTION(SSL_peek_ex), FUNCTION(SSL_sendfile), FUNCTION(SSL_write_early_data), FUNCTION(gnutls_handshake),
    FUNCTION(SSL_ImportFD), FUNCTION(DTLS_ImportFD), FUNCTION(SSL_ForceHandshake), FUNCTION(SSL_ForceHandshakeWithTimeout),
};

/* The call at its end has to be a jump: where the caller is matters to dlsym. */
SHOWN __attribute__((optimize("O2", "optimize-sibling-calls"))) void *dlsym(void *restrict handle, const char *restrict name)
{
    if (handle != RTLD_NEXT)
        for (size_t i = 0; i < sizeof WRAPPED / sizeof WRAPPED[0]; i++)
            if (strcmp(WRAPPED[i].name, name) == 0)
                return *(void *const *)(const void *)&WRAPPED[i].function;
    if (real_dlsym == NULL)
        below(name);
    return real_dlsym(handle, name);
}

/* ---- programs that this one starts */

/* Whether a program may be started; else it is told why not. It runs in children of vfork, so it takes no memory. */
static int may_start(const char *path)
{
    const char *why = access(path, X_OK) == 0 ? why_not_started(path) : NULL; /* what cannot be run fails by itself */
    char line[PATH_MAX + 32];
    if (why == NULL)
        return 1;
    snprintf(line, sizeof line, "%s is not started", path);
    say(line, why);
    errno = EACCES;
    return 0;
}

static size_t count_of(char *const *list)
{
    size_t count = 0;
    while (list != NULL && list[count] != NULL)
        count++;
    return count;
}

/* Whether a variable is one that is ours to set. */
static int is_ours(const char *variable)
{
    return strncmp(variable, "LD_PRELOAD=", 11) == 0 || strncmp(variable, "ARPKI_GUARD_", 12) == 0;
}

/* Writes an environment with our variables in it; `to` has room for count_of + COUNT + 2. */
static void with_ours(char *const *from, char **to)
{
    for (size_t i = 0; from != NULL && from[i] != NULL; i++)
        if (!is_ours(from[i]))
            *to++ = from[i];
    *to++ = preload;
    for (int at = 0; at < COUNT; at++)
        if (given[at] != NULL)
            *to++ = given[at];
    *to = NULL;
}

#define WITH_OURS(environment) \
    char *own[count_of(environment) + COUNT + 2]; \
    with_ours(environment, own)

SHOWN int execve(const char *path, char *const words[], char *const environment[])
{
    WITH_OURS(environment);
    return may_start(path) ? REAL(execve)(path, words, own) : -1;
}

SHOWN int execv(const char *path, char *const words[])
{
    return execve(path, words, environ);
}

SHOWN int execvpe(const char *name, char *const words[], char *const environment[])
{
    char path[PATH_MAX];
    if (!find_program(name, path, sizeof path)) {
        errno = strchr(name, '/') != NULL && access(name, F_OK) == 0 ? EACCES : ENOENT;
        return -1;
    }
    execve(path, words, environment);
    if (errno != ENOEXEC)
        return -1;
    char *shell[count_of(words) + 3]; /* a script without a first line that names a program */
    size_t count = 0;
    shell[count++] = (char[]){"sh"};
    shell[count++] = path;
    for (size_t i = 1; i < count_of(words); i++)
        shell[count++] = words[i];
    shell[count] = NULL;
    return execve("/bin/sh", shell, environment);
}

SHOWN int execvp(const char *name, char *const words[])
{
    return execvpe(name, words, environ);
}

SHOWN int fexecve(int file, char *const words[], char *const environment[])
{
    char path[64];
    WITH_OURS(environment);
    snprintf(path, sizeof path, "/proc/self/fd/%d", file);
    return may_start(path) ? REAL(fexecve)(file, words, own) : -1;
}

SHOWN int execveat(int folder, const char *name, char *const words[], char *const environment[], int flags)
{
    (void)folder, (void)name, (void)words, (void)environment, (void)flags;
    say("a program is not started", "execveat is not guarded");
    errno = EACCES;
    return -1;
}

/* The words of execl and its like: `words` gets them, and the null behind them. */
#define TAKE_WORDS(first, last) \
    va_list more; \
    size_t count = 1; \
    va_start(more, last); \
    while (va_arg(more, char *) != NULL) \
        count++; \
    va_end(more); \
    char *words[count + 1]; \
    va_start(more, last); \
    words[0] = (char *)(uintptr_t)(first); \
    for (size_t i = 1; i <= count; i++) \
        words[i] = va_arg(more, char *)

SHOWN int execl(const char *path, const char *word, ...)
{
    TAKE_WORDS(word, word);
    va_end(more);
    return execve(path, words, environ);
}

SHOWN int execlp(const char *name, const char *word, ...)
{
    TAKE_WORDS(word, word);
    va_end(more);
    return execvpe(name, words, environ);
}

SHOWN int execle(const char *path, const char *word, ...)
{
    TAKE_WORDS(word, word);
    char *const *environment = va_arg(more, char *const *);
    va_end(more);
    return execve(path, words, environment);
}

SHOWN int posix_spawn(pid_t *child, const char *path, const posix_spawn_file_actions_t *actions, const posix_spawnattr_t *attributes,
                      char *const words[], char *const environment[])
{
    WITH_OURS(environment);
    return may_start(path) ? REAL(posix_spawn)(child, path, actions, attributes, words, own) : EACCES;
}

SHOWN int posix_spawnp(pid_t *child, const char *name, const posix_spawn_file_actions_t *actions, const posix_spawnattr_t *attributes,
                       char *const words[], char *const environment[])
{
    char path[PATH_MAX];
    WITH_OURS(environment);
    if (!find_program(name, path, sizeof path))
        return ENOENT;
    return may_start(path) ? REAL(posix_spawnp)(child, path, actions, attributes, words, own) : EACCES;
}

/* system and popen start a shell within the C library, with the program's environment as it is. */
static void restore(void)
{
    setenv("LD_PRELOAD", preload + 11, 1);
    for (int at = 0; at < COUNT; at++)
        if (given[at] != NULL)
            setenv(VARIABLES[at], value_of(at), 1);
}

SHOWN int system(const char *line)
{
    if (line != NULL)
        restore();
    return REAL(system)(line);
}

SHOWN FILE *popen(const char *line, const char *mode)
{
    restore();
    return REAL(popen)(line, mode);
}
