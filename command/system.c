/* Files of the operating system: what all have, then POSIX, then Windows. */
#ifndef _WIN32
#define _XOPEN_SOURCE 700
#define _FILE_OFFSET_BITS 64
#endif
#include "command.h"
#include <errno.h>
#include <fcntl.h>
#include <stdio.h>
#include <sys/stat.h>
#include <sys/types.h>
#ifdef _WIN32
#define WIN32_LEAN_AND_MEAN
#include <io.h>
#include <windows.h>
#define read(from, room, n) _read(from, room, (unsigned)(n))
#define write(to, from, n) _write(to, from, (unsigned)(n))
#define close _close
#else
#include <signal.h>
#include <unistd.h>
#endif

enum { AT_ONCE = 1 << 20 }; /* so many bytes at most are read or written by one call */

struct which { /* file it is, by whatever name */
    unsigned long long volume, file;
    int is_known;
};
static struct which inputs[4];
static size_t input_count;

static struct which which_file(int from, int *is_folder);

const char *why(void) { return strerror(errno); }

int is_regular(const char *name) {
    struct stat s;
    return stat(name, &s) == 0 && (s.st_mode & S_IFMT) == S_IFREG;
}

int note_input(int from) {
    int is_folder = 0;
    struct which w = which_file(from, &is_folder);
    if (!is_folder && input_count < sizeof inputs / sizeof *inputs) inputs[input_count++] = w;
    return is_folder;
}

int close_file(int fd) { return close(fd); }

long read_some(int from, void *room, size_t n) {
    long k;
    do k = (long)read(from, room, n < AT_ONCE ? n : AT_ONCE);
    while (k < 0 && errno == EINTR);
    return k;
}

int write_all(int to, const void *from, size_t n) {
    for (const char *at = from; n > 0;) {
        long k = (long)write(to, at, n < AT_ONCE ? n : AT_ONCE);
        if (k < 0 && errno == EINTR) continue;
        if (k == 0) errno = EIO;
        if (k <= 0) return -1;
        at += k;
        n -= (size_t)k;
    }
    return 0;
}

static NEVER_RETURNS void fail_writing(const char *name, const char *cause) { fail("%s could not be written: %s", escaped(name), cause); }
static NEVER_RETURNS void fail_beside(const char *name) { fail("no file can be made beside %s: %s", escaped(name), why()); }

static void fail_over_input(const char *name, struct which w) {
    for (size_t i = 0; i < input_count; i++)
        if (w.is_known && inputs[i].is_known && w.volume == inputs[i].volume && w.file == inputs[i].file)
            fail("%s is an input, and is not written over", escaped(name));
}

#ifndef _WIN32
/* A descriptor that is closed is taken by one that cannot be used, so that no file takes its number. A write that fails is seen where it is made. */
void prepare(void) {
    signal(SIGPIPE, SIG_IGN);
    signal(SIGXFSZ, SIG_IGN);
    for (int fd = 0; fd < 3; fd++)
        if (fcntl(fd, F_GETFD) < 0 && open("/dev/null", fd == 0 ? O_WRONLY : O_RDONLY) != fd) _exit(FAILED);
}

int open_input(const char *name) { return open(name, O_RDONLY | O_NOCTTY | O_CLOEXEC); }

static struct which which_of(const struct stat *s) {
    return (struct which){(unsigned long long)s->st_dev, (unsigned long long)s->st_ino, S_ISREG(s->st_mode)};
}

static struct which which_file(int from, int *is_folder) {
    struct stat s;
    if (fstat(from, &s) != 0) return (struct which){0, 0, 0};
    *is_folder = S_ISDIR(s.st_mode);
    return which_of(&s);
}

/* Where a name leads: through links, also where the last one leads to a file that is not there yet. */
static void follow(const char *name, char *path, size_t room) {
    for (int turns = 0; turns < 40; turns++) {
        char link[4096];
        ssize_t n = readlink(path, link, sizeof link - 1);
        if (n < 0) return;
        char *slash = strrchr(path, '/');
        size_t keep = link[0] == '/' || !slash ? 0 : (size_t)(slash - path) + 1;
        if (keep + (size_t)n + 1 > room) break;
        memcpy(path + keep, link, (size_t)n);
        path[keep + (size_t)n] = 0;
    }
    fail_writing(name, "too many links");
}

/* The file beside its place, with the mode and, where that is allowed, the owner of the file that it replaces. */
static int fill_part(int fd, const struct stat *old, mode_t mode, struct bytes text) {
    if (old && fchown(fd, old->st_uid, old->st_gid) != 0) errno = 0; /* not everybody may */
    int good = fchmod(fd, mode) == 0 && write_all(fd, text.at, text.len) == 0 && fsync(fd) == 0, cause = errno;
    if (close(fd) != 0 && good) return -1;
    errno = cause;
    return good ? 0 : -1;
}

static int make_part(char *part, size_t room, const char *path) {
    const char *slash = strrchr(path, '/');
    int fd = -1, folder = slash ? (int)(slash - path) + 1 : 0;
    for (int i = 0; i < 100 && (i == 0 || (fd < 0 && errno == EEXIST)); i++) {
        snprintf(part, room, "%.*s.denkumari-%ld-%d", folder, path, (long)getpid(), i);
        fd = open(part, O_WRONLY | O_CREAT | O_EXCL | O_CLOEXEC, 0600);
    }
    return fd;
}

/* Whole or not at all: made beside its place, on the disk, and then put there. While it is written signals wait, so that no part is left behind. */
void put_in_place(const char *name, struct bytes text) {
    char path[4096], part[4200];
    struct stat s;
    sigset_t all, before;
    if (strlen(name) >= sizeof path) fail_writing(name, "its name is too long");
    strcpy(path, name);
    follow(name, path, sizeof path);
    int is_there = stat(path, &s) == 0;
    if (!is_there && errno != ENOENT) fail_writing(name, why());
    if (is_there && !S_ISREG(s.st_mode)) fail("%s is not a regular file", escaped(name));
    if (is_there) fail_over_input(name, which_of(&s));
    mode_t mask = umask(077);
    umask(mask);
    sigfillset(&all);
    sigprocmask(SIG_BLOCK, &all, &before);
    int fd = make_part(part, sizeof part, path);
    if (fd < 0) fail_beside(name);
    if (fill_part(fd, is_there ? &s : NULL, is_there ? s.st_mode & 07777 : 0666 & ~mask, text) != 0 || rename(part, path) != 0) {
        const char *cause = why();
        unlink(part);
        fail_writing(name, cause);
    }
    sigprocmask(SIG_SETMASK, &before, NULL);
}

#else
void prepare(void) {
    for (int fd = 0; fd < 3; fd++) _setmode(fd, _O_BINARY);
}

int open_input(const char *name) { return _open(name, _O_RDONLY | _O_BINARY | _O_NOINHERIT); }

static struct which which_file(int from, int *is_folder) {
    BY_HANDLE_FILE_INFORMATION i;
    *is_folder = 0;
    if (!GetFileInformationByHandle((HANDLE)_get_osfhandle(from), &i)) return (struct which){0, 0, 0};
    return (struct which){i.dwVolumeSerialNumber, ((unsigned long long)i.nFileIndexHigh << 32) | i.nFileIndexLow, 1};
}

void put_in_place(const char *name, struct bytes text) {
    char part[4200];
    int is_folder, old = open_input(name);
    if (old >= 0) fail_over_input(name, which_file(old, &is_folder));
    if (old >= 0) close(old);
    if (strlen(name) > 4096) fail_writing(name, "its name is too long");
    snprintf(part, sizeof part, "%s.part-%lu", name, (unsigned long)GetCurrentProcessId());
    int fd = _open(part, _O_WRONLY | _O_CREAT | _O_EXCL | _O_BINARY, _S_IREAD | _S_IWRITE);
    if (fd < 0) fail_beside(name);
    int good = write_all(fd, text.at, text.len) == 0 && _commit(fd) == 0;
    if (close(fd) != 0 || !good || !MoveFileExA(part, name, MOVEFILE_REPLACE_EXISTING | MOVEFILE_WRITE_THROUGH)) {
        _unlink(part);
        fail("%s could not be written", escaped(name));
    }
}
#endif
