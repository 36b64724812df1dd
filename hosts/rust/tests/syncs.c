/* Stands before the C library in a command that is tested: writes to the file SYNCS what the command writes, syncs, renames and
 * removes, drafts that it removes apart. If KILL is a number, the command is killed when it has asked so often and asks again. */
#define _GNU_SOURCE
#include <dlfcn.h>
#include <fcntl.h>
#include <signal.h>
#include <stdio.h>
#include <stdlib.h>
#include <string.h>
#include <unistd.h>

typedef ssize_t Write(int, const void *, size_t);
typedef int Sync(int);
typedef int Rename(const char *, const char *);
typedef int Unlink(const char *);

static void *real(const char *name) { return dlsym(RTLD_NEXT, name); }

static void say(const char *what, const char *path, const char *then) {
    static int said = 0;
    const char *kill = getenv("KILL");
    if (kill && *kill && said++ == atoi(kill)) {
        raise(SIGKILL);
    }
    char line[9000];
    const int length = snprintf(line, sizeof line, "%s %s%s%s\n", what, path, *then ? " " : "", then);
    const int to = open(getenv("SYNCS"), O_WRONLY | O_APPEND | O_CREAT, 0666);
    if (to < 0 || ((Write *)real("write"))(to, line, (size_t)length) != length) {
        abort();
    }
    close(to);
}

/* The path of an open file. */
static const char *path_of(int file) {
    static char path[4096];
    char link[64];
    snprintf(link, sizeof link, "/proc/self/fd/%d", file);
    const ssize_t length = readlink(link, path, sizeof path - 1);
    path[length < 0 ? 0 : length] = 0;
    return path;
}

ssize_t write(int file, const void *bytes, size_t count) {
    if (strstr(path_of(file), ".unfinished")) {
        say("write", path_of(file), "");
    }
    return ((Write *)real("write"))(file, bytes, count);
}

int fsync(int file) {
    say("sync", path_of(file), "");
    return ((Sync *)real("fsync"))(file);
}

int rename(const char *from, const char *to) {
    say("rename", from, to);
    return ((Rename *)real("rename"))(from, to);
}

int unlink(const char *path) {
    if (!strstr(path, ".unfinished") && access(path, F_OK) == 0) {
        say("remove", path, "");
    }
    return ((Unlink *)real("unlink"))(path);
}
