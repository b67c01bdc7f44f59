/* Which programs arpki-guard starts (start.h). */
#include "start.h"

#include <elf.h>
#include <fcntl.h>
#include <stdio.h>
#include <stdlib.h>
#include <string.h>
#include <sys/stat.h>
#include <sys/xattr.h>
#include <unistd.h>

/* The loader of the system, on which LD_PRELOAD rests. */
static const char LOADER[] = "/lib64/ld-linux-x86-64.so.2";
/* How many scripts may stand one behind the other. */
enum { MOST_SCRIPTS = 4 };

/* Why a program of ELF is not started, or NULL. */
static const char *why_not_elf(int file, const Elf64_Ehdr *head)
{
    char loader[sizeof LOADER + 1];
    if (head->e_ident[EI_CLASS] != ELFCLASS64 || head->e_machine != EM_X86_64)
        return "it is for another machine";
    for (unsigned i = 0; i < head->e_phnum; i++) {
        Elf64_Phdr part;
        if (head->e_phentsize != sizeof part
            || pread(file, &part, sizeof part, (off_t)(head->e_phoff + i * sizeof part)) != (ssize_t)sizeof part)
            return "it cannot be read";
        if (part.p_type != PT_INTERP)
            continue;
        if (part.p_filesz != sizeof LOADER || pread(file, loader, sizeof LOADER, (off_t)part.p_offset) != (ssize_t)sizeof LOADER
            || memcmp(loader, LOADER, sizeof LOADER) != 0)
            return "it has a loader of its own";
        return NULL;
    }
    return "it is static, so no library can be put in front of it";
}

/* The program that runs a script, in `path`. 0: the line names none. */
static int read_script(const char *line, size_t len, char *path, size_t room)
{
    size_t at = 2, end;
    while (at < len && (line[at] == ' ' || line[at] == '\t'))
        at++;
    for (end = at; end < len && strchr(" \t\n", line[end]) == NULL; end++)
        ;
    if (end == at || end == len || end - at >= room)
        return 0;
    memcpy(path, line + at, end - at);
    path[end - at] = 0;
    return 1;
}

const char *why_not_started(const char *path)
{
    char script[1024];
    for (int depth = 0; depth <= MOST_SCRIPTS; depth++) {
        union {
            Elf64_Ehdr head;
            char text[512];
        } front;
        struct stat is;
        const char *why = NULL;
        int file = open(path, O_RDONLY | O_CLOEXEC);
        ssize_t len = file < 0 ? -1 : pread(file, &front, sizeof front, 0);
        if (len < 0 || fstat(file, &is) != 0) {
            why = "it cannot be read";
        } else if ((is.st_mode & (S_ISUID | S_ISGID)) != 0 || fgetxattr(file, "security.capability", NULL, 0) >= 0) {
            why = "it has rights of its own, so the loader puts no library in front of it";
        } else if (len >= (ssize_t)sizeof front.head && memcmp(front.head.e_ident, ELFMAG, SELFMAG) == 0) {
            why = why_not_elf(file, &front.head);
        } else if (len > 2 && memcmp(front.text, "#!", 2) == 0) {
            why = read_script(front.text, (size_t)len, script, sizeof script) ? "" : "its first line names no program";
        } /* else a script without such a line, which a shell runs: that is a program of this kind */
        if (file >= 0)
            close(file);
        if (why == NULL || why[0] != 0)
            return why;
        path = script;
    }
    return "it is a script of a script of a script";
}

int find_program(const char *name, char *path, unsigned long room)
{
    const char *folders = getenv("PATH");
    if (strchr(name, '/') != NULL)
        return (unsigned long)snprintf(path, room, "%s", name) < room && access(path, X_OK) == 0;
    if (folders == NULL)
        folders = "/bin:/usr/bin";
    while (*folders != 0) {
        size_t len = strcspn(folders, ":");
        struct stat is;
        if ((unsigned long)snprintf(path, room, "%.*s%s%s", (int)len, folders, len == 0 ? "" : "/", name) < room && access(path, X_OK) == 0
            && stat(path, &is) == 0 && S_ISREG(is.st_mode))
            return 1;
        folders += len + (folders[len] == ':');
    }
    return 0;
}
