"""A library that stands between a program of one thread and the system's files: it counts the calls, and ends the process at one, or fails
one, by what the environment says.

    CALLS=FILE        each call is noted in this file, as its name and the name of what it is for
    KILL=N            the process is killed before the N-th call
    CUT=N             so it is, after the N-th call has written half of its bytes, where these are more than a line
    SHORT=N           the N-th call, a read or a write, does half of its bytes, and says so
    FAIL=N ERRNO=E    the N-th call is not made, and fails with this error
    LACKS=N           the N-th call is not made, and says that no file has this name
    DISK=FOLDER       this folder has what a loss of power would leave of the files: a sync that is done makes the bytes that were written
                      since the last try durable; of one that fails they are lost, until they are written again
    NAMES=FOLDER      which names there are is durable by a sync of their folder alone: until then what a file's own sync made durable
                      stands in this folder, and is lost with the power. Without it a name is durable at once
    OWN=1             a file's own sync makes its name durable too, as most file systems do"""
import os
import shutil
import subprocess

from memory import make_library

LIBRARY = r"""
#define _GNU_SOURCE
#include <dirent.h>
#include <errno.h>
#include <fcntl.h>
#include <signal.h>
#include <stdarg.h>
#include <stdio.h>
#include <stdlib.h>
#include <string.h>
#include <sys/stat.h>
#include <sys/syscall.h>
#include <unistd.h>

static char names[1024][256];                                    /* of the open files, by their descriptors */
static struct { char name[256]; off_t from, to; } waiting[65536]; /* bytes that wait for a sync */
static int many;
static long calls;

static long number(const char *name) { return getenv(name) ? atol(getenv(name)) : 0; }
static const char *name_of(int fd) { return fd == 1 ? "output" : names[fd]; }
static void die(void) { kill(getpid(), SIGKILL); for (;;) pause(); }

static int refused(const char *call, const char *name) {
    static int notes = -1;
    char note[320];
    if (!calls && getenv("CALLS")) notes = syscall(SYS_openat, AT_FDCWD, getenv("CALLS"), O_WRONLY | O_CREAT | O_TRUNC, 0644);
    calls++;
    if (notes >= 0) syscall(SYS_write, notes, note, snprintf(note, sizeof note, "%s %s\n", call, name));
    if (calls == number("KILL")) die();
    if (calls != number("FAIL") && calls != number("LACKS")) return 0;
    errno = calls == number("LACKS") ? ENOENT : number("ERRNO");
    return 1;
}

static void written(const char *name, off_t from, off_t to) {
    if (!*name) return;
    if (many == 65536) abort();
    strcpy(waiting[many].name, name);
    waiting[many].from = from;
    waiting[many++].to = to;
}

static off_t length_of(int fd) {
    struct stat data;
    return fstat(fd, &data) ? 0 : data.st_size;
}

static int is_there(const char *path) { return !syscall(SYS_access, path, F_OK); }

/* The path of this name in the folder that a variable names; none where it names none. */
static int path_in(const char *variable, const char *name, char path[600]) {
    const char *folder = getenv(variable);
    snprintf(path, 600, "%s/%s", folder ? folder : "", name);
    return folder != NULL;
}

/* Where that stands of the file of this name which is durable, or is but for the name. */
static void path_of(const char *name, char path[600]) {
    char beside[600];
    path_in("DISK", name, path);
    if (path_in("NAMES", name, beside) && (is_there(beside) || !is_there(path))) strcpy(path, beside);
}

/* Does this for each name in a folder. */
static void each_in(const char *path, void (*one)(const char *)) {
    DIR *folder = opendir(path);
    for (struct dirent *found; folder && (found = readdir(folder));) if (*found->d_name != '.') one(found->d_name);
    if (folder) closedir(folder);
}

/* A name that there is becomes durable. */
static void keep_name(const char *name) {
    char path[600], beside[600];
    path_in("DISK", name, path);
    if (path_in("NAMES", name, beside) && is_there(beside)) syscall(SYS_rename, beside, path);
    else if (!is_there(path)) close(syscall(SYS_openat, AT_FDCWD, path, O_WRONLY | O_CREAT, 0644));
}

/* A durable name of which there is no file any more is lost. */
static void lose_name(const char *name) {
    char path[600];
    path_in("DISK", name, path);
    if (!is_there(name)) syscall(SYS_unlink, path);
}

/* What a sync of the folder does that is done. */
static void synced_names(void) {
    if (!getenv("NAMES")) return;
    each_in(".", keep_name);
    each_in(getenv("DISK"), lose_name);
}

/* What waits for a sync under one name waits under another one, or no more. */
static void move_waiting(const char *from, const char *to) {
    int kept = 0;
    for (int i = 0; i < many; i++) {
        int moved = !strcmp(waiting[i].name, from);
        if (!strcmp(waiting[i].name, to) || (moved && !*to)) continue;
        waiting[kept] = waiting[i];
        if (moved) strcpy(waiting[kept].name, to);
        kept++;
    }
    many = kept;
}

/* What is durable has the new name only in NAMES, where there is that folder. */
static void renamed(const char *from, const char *to) {
    char old[600], fresh[600], beside[600];
    for (int fd = 0; fd < 1024; fd++) {
        if (!strcmp(names[fd], to)) *names[fd] = 0;
        else if (!strcmp(names[fd], from)) snprintf(names[fd], sizeof names[fd], "%s", to);
    }
    move_waiting(from, to);
    if (!getenv("DISK")) return;
    path_in("DISK", from, old);
    path_in("DISK", to, fresh);
    if (!path_in("NAMES", to, beside)) { syscall(SYS_rename, old, fresh); return; }
    syscall(SYS_unlink, beside);
    syscall(SYS_link, old, beside);
    path_in("NAMES", from, old);
    if (is_there(old)) syscall(SYS_rename, old, beside);
    if (!is_there(beside)) close(syscall(SYS_openat, AT_FDCWD, beside, O_WRONLY | O_CREAT, 0644));
}

/* What is durable is there until the folder is synced, where names wait for that. */
static void removed(const char *name) {
    char path[600];
    for (int fd = 0; fd < 1024; fd++) if (!strcmp(names[fd], name)) *names[fd] = 0;
    move_waiting(name, "");
    if (!getenv("DISK")) return;
    path_in(getenv("NAMES") ? "NAMES" : "DISK", name, path);
    syscall(SYS_unlink, path);
}

/* What a sync does that is done, or fails, for the file of this name. */
static void synced(const char *name, int done) {
    char path[600], bytes[65536];
    if (!getenv("DISK") || !*name) return;
    if (!strcmp(name, ".")) { if (done) synced_names(); return; }
    path_of(name, path);
    int file = syscall(SYS_openat, AT_FDCWD, name, O_RDONLY), kept = 0, disk = -1;
    if (done) disk = syscall(SYS_openat, AT_FDCWD, path, O_WRONLY | O_CREAT, 0644);
    for (int i = 0; i < many; i++) {
        if (strcmp(waiting[i].name, name)) { waiting[kept++] = waiting[i]; continue; }
        for (off_t at = waiting[i].from; done && at < waiting[i].to;) {
            off_t left = waiting[i].to - at;
            long got = syscall(SYS_pread64, file, bytes, left < 65536 ? left : 65536, at);
            if (got <= 0) break;
            syscall(SYS_pwrite64, disk, bytes, got, at);
            at += got;
        }
    }
    many = kept;
    if (done) { syscall(SYS_ftruncate, disk, length_of(file)); close(disk); }
    if (done && number("OWN")) keep_name(name);
    close(file);
}

/* How much of its bytes a write writes: the last one some whole words, and no part of a line alone, which is within a sector. */
static long cut(long count, int last) { return !last ? count : count > 64 ? (count / 2 + 8) & ~7L : 0; }

/* How much of its bytes a call does that isn't the last. */
static size_t some(size_t count) { return calls == number("SHORT") ? (count + 1) / 2 : count; }

int open(const char *name, int flags, ...) {
    va_list rest;
    va_start(rest, flags);
    int mode = flags & O_CREAT ? va_arg(rest, int) : 0;
    va_end(rest);
    if (refused("open", name)) return -1;
    struct stat data;
    off_t had = flags & O_TRUNC && !stat(name, &data) ? data.st_size : 0;
    int fd = syscall(SYS_openat, AT_FDCWD, name, flags, mode);
    if (fd >= 0) snprintf(names[fd], sizeof names[fd], "%s", name);
    if (fd >= 0 && had) written(name, 0, had);
    return fd;
}
int statx(int folder, const char *name, int flags, unsigned wanted, struct statx *found) {
    if (refused("stat", *name ? name : name_of(folder))) return -1;
    return syscall(SYS_statx, folder, name, flags, wanted, found);
}
ssize_t read(int fd, void *bytes, size_t count) {
    return refused("read", name_of(fd)) ? -1 : syscall(SYS_read, fd, bytes, some(count));
}
ssize_t write(int fd, const void *bytes, size_t count) {
    if (refused("write", name_of(fd))) return -1;
    int last = calls == number("CUT");
    long done = syscall(SYS_write, fd, bytes, cut(some(count), last));
    if (done > 0 && fd > 2) written(names[fd], lseek(fd, 0, SEEK_CUR) - done, lseek(fd, 0, SEEK_CUR));
    if (last) die();
    return done;
}
ssize_t pwrite(int fd, const void *bytes, size_t count, off_t at) {
    if (refused("write", name_of(fd))) return -1;
    int last = calls == number("CUT");
    long done = syscall(SYS_pwrite64, fd, bytes, cut(some(count), last), at);
    if (done > 0) written(names[fd], at, at + done);
    if (last) die();
    return done;
}
int ftruncate(int fd, off_t length) {
    if (refused("truncate", name_of(fd))) return -1;
    off_t had = length_of(fd);
    int done = syscall(SYS_ftruncate, fd, length);
    if (!done && had > length) written(names[fd], length, had);
    return done;
}
int fchmod(int fd, mode_t mode) { return refused("permit", name_of(fd)) ? -1 : syscall(SYS_fchmod, fd, mode); }
/* It is not passed on: what a loss of power would leave stands in the folder DISK. */
int fsync(int fd) {
    int done = refused("sync", name_of(fd)) ? -1 : 0, error = errno;
    synced(names[fd], !done);
    errno = error;
    return done;
}
int fdatasync(int fd) { return fsync(fd); }
int rename(const char *from, const char *to) {
    if (refused("rename", to)) return -1;
    int done = syscall(SYS_rename, from, to);
    if (!done) renamed(from, to);
    return done;
}
int unlink(const char *name) {
    if (refused("remove", name)) return -1;
    int done = syscall(SYS_unlink, name);
    if (!done) removed(name);
    return done;
}
int flock(int fd, int how) { return refused("lock", name_of(fd)) ? -1 : syscall(SYS_flock, fd, how); }
"""


class Outside:
    """One program, its files, what a loss of power would leave of them, and the calls of its last run."""

    def __init__(self, program, work):
        self.program, self.library = program, make_library(work, "failing", LIBRARY)
        self.files, self.disk, self.names, self.noted = (os.path.join(work, name) for name in ("files", "disk", "names", "calls"))

    def put(self, files, folder=None):
        """Makes these the files, and no other."""
        folder = folder or self.files
        shutil.rmtree(folder, ignore_errors=True)
        os.mkdir(folder)
        for name, data in files.items():
            with open(os.path.join(folder, name), "wb") as file:
                file.write(data)

    def run(self, words, **asked):
        """A run in which the library is asked for this: its status and the lines that it printed whole."""
        environment = {"LD_PRELOAD": self.library, "CALLS": self.noted, **{name: str(value) for name, value in asked.items()}}
        done = subprocess.run([self.program, *words], cwd=self.files, env=environment, capture_output=True, timeout=60)
        return done.returncode, done.stdout.decode().split("\n")[:-1]

    def calls(self):
        """The calls of the last run, each with the name of what it was for."""
        with open(self.noted) as file:
            return file.read().splitlines()
