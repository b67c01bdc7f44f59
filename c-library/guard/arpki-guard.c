/* arpki-guard: runs a program so that the names it connects to are judged in the TLS handshake (docs/TLS.md, "arpki-guard"). */
#include "start.h"

#include <errno.h>
#include <limits.h>
#include <stdio.h>
#include <stdlib.h>
#include <string.h>
#include <sys/stat.h>
#include <unistd.h>

static const char HELP[] =
    "arpki-guard [--directory FILE] [--schedule FILE] [--names FILE] [--state FOLDER] [--say] [--tell] PROGRAM ..\n"
    "\n"
    "Runs a program that uses OpenSSL so that a server is refused in the TLS handshake, before a request is sent, where its name\n"
    "is pinned, is listed in --names, or offers a proof, and the proof is not accepted. What is refused, and why, is written to\n"
    "standard error. Connections of GnuTLS and NSS, and such for which no name or two names are told, are refused; a program that\n"
    "is static, or has rights of its own, is not started, by it or by a program that it runs.\n"
    "\n"
    "  --directory FILE  the keys of logs and authorities (~/.config/arpki/directory)\n"
    "  --schedule FILE   when epochs begin (~/.config/arpki/schedule)\n"
    "  --names FILE      names that have to be proved, one a line (~/.config/arpki/names, if it is there)\n"
    "  --state FOLDER    where pins and learnt keys are kept (~/.local/state/arpki)\n"
    "  --say             says in the ClientHello which certificate is pinned and which keys are known, so that the server can\n"
    "                    send what leads from there: whoever is on the wire reads it\n"
    "  --tell            writes also what was accepted\n"
    "\n"
    "The status is that of the program; 2 for other words, 3 where a file is missing, 126 where the program cannot be guarded, 127\n"
    "where there is none.\n";

static int fail(int status, const char *what, const char *why)
{
    fprintf(stderr, "arpki-guard: %s: %s\n", what, why);
    return status;
}

/* Sets a variable to the whole path of a file; where no word gave one, to that below a folder of the user's. 0: it is not there. */
static int set_path(const char *variable, const char *given, const char *base, const char *home_base, const char *name)
{
    char path[PATH_MAX], whole[PATH_MAX];
    const char *folder = getenv(base), *home = getenv("HOME");
    if (given != NULL)
        snprintf(path, sizeof path, "%s", given);
    else if (folder != NULL && folder[0] == '/')
        snprintf(path, sizeof path, "%s/arpki%s", folder, name);
    else
        snprintf(path, sizeof path, "%s/%s/arpki%s", home == NULL ? "" : home, home_base, name);
    if (realpath(path, whole) == NULL) {
        setenv(variable, path, 1);
        return 0;
    }
    return setenv(variable, whole, 1) == 0;
}

/* Makes a folder, with those above it. */
static int make_folder(char *path)
{
    for (char *at = path + 1; *at != 0; at++)
        if (*at == '/') {
            *at = 0;
            mkdir(path, 0700);
            *at = '/';
        }
    struct stat is;
    return (mkdir(path, 0700) == 0 || errno == EEXIST) && stat(path, &is) == 0 && S_ISDIR(is.st_mode);
}

/* The library lies beside this program. */
static int set_preload(void)
{
    char path[PATH_MAX], all[2 * PATH_MAX];
    const char *before = getenv("LD_PRELOAD");
    ssize_t len = readlink("/proc/self/exe", path, sizeof path - 32);
    if (len <= 0)
        return 0;
    path[len] = 0;
    strcpy(strrchr(path, '/') + 1, "libarpki_guard.so");
    if (access(path, R_OK) != 0)
        return 0;
    snprintf(all, sizeof all, "%s%s%s", path, before == NULL || before[0] == 0 ? "" : ":", before == NULL ? "" : before);
    return setenv("ARPKI_GUARD_LIBRARY", path, 1) == 0 && setenv("LD_PRELOAD", all, 1) == 0;
}

int main(int argc, char **argv)
{
    const char *directory = NULL, *schedule = NULL, *names = NULL, *state = NULL, *why;
    char path[PATH_MAX];
    int at = 1;
    unsetenv("ARPKI_GUARD_SAY");
    unsetenv("ARPKI_GUARD_TELL");
    for (; at < argc && strncmp(argv[at], "--", 2) == 0; at++) {
        const char **to = strcmp(argv[at], "--directory") == 0 ? &directory
                          : strcmp(argv[at], "--schedule") == 0 ? &schedule
                          : strcmp(argv[at], "--names") == 0    ? &names
                          : strcmp(argv[at], "--state") == 0    ? &state
                                                                : NULL;
        if (strcmp(argv[at], "--help") == 0)
            return fputs(HELP, stdout) < 0;
        if (strcmp(argv[at], "--say") == 0)
            setenv("ARPKI_GUARD_SAY", "1", 1);
        else if (strcmp(argv[at], "--tell") == 0)
            setenv("ARPKI_GUARD_TELL", "1", 1);
        else if (to != NULL && at + 1 < argc)
            *to = argv[++at];
        else
            return fputs(HELP, stderr), 2;
    }
    if (at == argc)
        return fputs(HELP, stderr), 2;
    if (!set_path("ARPKI_GUARD_DIRECTORY", directory, "XDG_CONFIG_HOME", ".config", "/directory"))
        return fail(3, getenv("ARPKI_GUARD_DIRECTORY"), "there is no directory of logs and authorities");
    if (!set_path("ARPKI_GUARD_SCHEDULE", schedule, "XDG_CONFIG_HOME", ".config", "/schedule"))
        return fail(3, getenv("ARPKI_GUARD_SCHEDULE"), "there is no schedule");
    if (!set_path("ARPKI_GUARD_NAMES", names, "XDG_CONFIG_HOME", ".config", "/names")) {
        if (names != NULL)
            return fail(3, names, "there is no list of names");
        unsetenv("ARPKI_GUARD_NAMES");
    }
    set_path("ARPKI_GUARD_STATE", state, "XDG_STATE_HOME", ".local/state", "");
    snprintf(path, sizeof path, "%s/pins", getenv("ARPKI_GUARD_STATE"));
    if (!make_folder(path) || !set_path("ARPKI_GUARD_STATE", getenv("ARPKI_GUARD_STATE"), "", "", ""))
        return fail(3, path, "the folder of pins cannot be made");
    if (!find_program(argv[at], path, sizeof path))
        return fail(127, argv[at], "there is no such program");
    why = why_not_started(path);
    if (why != NULL)
        return fail(126, argv[at], why);
    if (!set_preload())
        return fail(3, "libarpki_guard.so", "it is not beside this program");
    execv(path, argv + at);
    return fail(126, argv[at], strerror(errno));
}
