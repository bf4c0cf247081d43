/* SPDX-License-Identifier: Apache-2.0 OR MIT */
/* Stands between confd and the C library, so that a check can refuse a call, cut it short or turn the clock.

   Built by checks/lib/shim.py and loaded ahead of the C library (LD_PRELOAD). SHIM_ORDERS names a file with the numbers
   below: what is counted is written there, what is to be done is read from there, and both sides may look while the
   program runs. Without that file each call is handed on as it is. SHIM_MEDIA names a folder in which it keeps what the
   disk has of each file; without it nothing is kept.

   A count starts when the shim is loaded. Nothing here takes memory from the program's heap. */

#define _GNU_SOURCE
#include <dirent.h>
#include <errno.h>
#include <fcntl.h>
#include <limits.h>
#include <stdarg.h>
#include <stdint.h>
#include <stdio.h>
#include <stdlib.h>
#include <string.h>
#include <sys/mman.h>
#include <sys/socket.h>
#include <sys/stat.h>
#include <sys/syscall.h>
#include <sys/time.h>
#include <sys/uio.h>
#include <time.h>
#include <unistd.h>

/* The order of these fields is that of FIELDS in shim.py. */
struct orders {
    /* What was counted: allocations and the bytes that they asked for; reads, writes and syncs of the program, and how
       often it asked for the time of day. */
    uint64_t allocations, allocated, reads, writes, syncs, times;
    /* Call number so and so, from 1, is refused; from that number on, where `lasts` is not 0. 0: none. */
    uint64_t refuse_allocation, refuse_read, refuse_write, refuse_sync, refuse_time, lasts;
    /* The error of a read, write or sync that is refused. */
    uint64_t error;
    /* Reads, and writes, of more bytes are cut to so many; 0: none is. */
    uint64_t most_read, most_write;
    /* The clock goes so many times as fast, and is so many nanoseconds ahead; waits are as much shorter. 0 is as 1. */
    uint64_t speed, ahead;
    /* The time of day stands at so many seconds since 1970, fewer than none as a negative number; 0: it goes on. */
    int64_t moment;
    /* Reads and writes are counted, refused and cut short on: 0 every descriptor, 1 files alone, 2 sockets alone, 3 all
       but files. */
    uint64_t scope;
    /* Where this is not 0, a write of a file that is refused is made all the same. */
    uint64_t made;
    /* Where this is not 0, a read that is refused finds the end, and no error. */
    uint64_t ended;
    /* Counted: files cut to a length, and advice on their pages; which of them is refused. */
    uint64_t truncates, advices, refuse_truncate, refuse_advice;
    /* Of how many bytes a page of the system's memory is; 0 is as 1. */
    uint64_t page;
};

static struct orders none;
static struct orders *orders = &none;

/* The clock when the shim was loaded, by kind; the clock goes on from there. */
static struct timespec begun[2];

__attribute__((constructor)) static void load(void) {
    clockid_t kinds[2] = {CLOCK_REALTIME, CLOCK_MONOTONIC};
    for (int i = 0; i < 2; i++) syscall(SYS_clock_gettime, kinds[i], &begun[i]);
    const char *path = getenv("SHIM_ORDERS");
    if (path == NULL) return;
    int file = open(path, O_RDWR | O_CLOEXEC);
    if (file < 0) return;
    void *place = mmap(NULL, sizeof(struct orders), PROT_READ | PROT_WRITE, MAP_SHARED, file, 0);
    syscall(SYS_close, file);
    if (place != MAP_FAILED) orders = place;
}

static uint64_t count(uint64_t *word) { return __atomic_add_fetch(word, 1, __ATOMIC_SEQ_CST); }

/* Whether call number `at` is to be refused. */
static int is_refused(uint64_t at, uint64_t refused) {
    if (refused == 0) return 0;
    return orders->lasts ? at >= refused : at == refused;
}

/* ---- memory */

void *__libc_malloc(size_t);
void *__libc_calloc(size_t, size_t);
void *__libc_realloc(void *, size_t);
void *__libc_memalign(size_t, size_t);

/* Whether an allocation of so many bytes is refused, which is counted either way. */
static int want(size_t size) {
    uint64_t at = count(&orders->allocations);
    __atomic_add_fetch(&orders->allocated, size, __ATOMIC_SEQ_CST);
    if (!is_refused(at, orders->refuse_allocation)) return 0;
    errno = ENOMEM;
    return 1;
}

void *malloc(size_t size) { return want(size) ? NULL : __libc_malloc(size); }

void *calloc(size_t count, size_t size) { return want(count * size) ? NULL : __libc_calloc(count, size); }

void *realloc(void *old, size_t size) { return want(size) ? NULL : __libc_realloc(old, size); }

void *memalign(size_t align, size_t size) { return want(size) ? NULL : __libc_memalign(align, size); }

void *aligned_alloc(size_t align, size_t size) { return memalign(align, size); }

int posix_memalign(void **into, size_t align, size_t size) {
    void *made = memalign(align, size);
    if (made == NULL) return ENOMEM;
    *into = made;
    return 0;
}

/* ---- what the disk has

   Of each file that is written with pwrite: the bytes that the disk has, beside those that a read gives, which stand in
   the file itself, as the system's memory has them. A page that is written is changed until a sync; one that succeeds
   puts the changed pages on the disk, and one that fails leaves them readable and unchanged (Linux; Rebello et al., "Can
   Applications Recover from fsync Failures?", ATC 2020). Advice lets go of the pages that aren't changed, so reads then
   give what the disk has. A name is on the disk once its folder was synced. A file that the shim hasn't met is all
   changed, and its name is not on the disk, as where it was copied there just now. */

/* The longest file of which it is known what the disk has. */
#define MOST (1 << 20)

/* The order of these fields is that of Medium in shim.py. */
struct medium {
    /* How many bytes of the file the disk has, and whether it has the name. */
    uint64_t length, is_named;
    /* By byte: whether it may differ on the disk and is written there by the next sync; and what the disk has. */
    uint8_t is_changed[MOST], bytes[MOST];
};

static off_t size_of(int file) {
    struct stat about;
    if (syscall(SYS_fstat, file, &about) != 0) return 0;
    if (about.st_size > MOST) abort();
    return about.st_size;
}

static void change(struct medium *medium, off_t at, off_t size) {
    off_t page = orders->page > 1 ? (off_t)orders->page : 1;
    off_t end = (at + size + page - 1) / page * page;
    if (end > MOST) abort();
    memset(medium->is_changed + at / page * page, 1, (size_t)(end - at / page * page));
}

/* The path of a file of this kind. Whether it is of it. */
static int path_of(int file, mode_t kind, char *path) {
    struct stat about;
    char link[64];
    if (syscall(SYS_fstat, file, &about) != 0 || (about.st_mode & S_IFMT) != kind) return 0;
    snprintf(link, sizeof link, "/proc/self/fd/%d", file);
    ssize_t size = readlink(link, path, PATH_MAX - 1);
    if (size < 0) return 0;
    path[size] = 0;
    return 1;
}

/* The medium of that name, at hand; one that is missing is made where that is asked, else none is given. */
static struct medium *medium_named(const char *name, int made) {
    char path[PATH_MAX + 64];
    snprintf(path, sizeof path, "%s/%s", getenv("SHIM_MEDIA"), name);
    int file = open(path, O_RDWR | O_CLOEXEC | (made ? O_CREAT | O_EXCL : 0), 0600);
    if (file < 0) return NULL;
    if (made) syscall(SYS_ftruncate, file, sizeof(struct medium));
    void *place = mmap(NULL, sizeof(struct medium), PROT_READ | PROT_WRITE, MAP_SHARED, file, 0);
    syscall(SYS_close, file);
    return place == MAP_FAILED ? NULL : place;
}

/* What the disk has of a file; none where nothing is kept. It stays at hand until the process ends, for eight files. */
static struct medium *medium_of(int file) {
    static struct { dev_t device; ino_t number; struct medium *medium; } met[8];
    struct stat about;
    char path[PATH_MAX];
    if (getenv("SHIM_MEDIA") == NULL || !path_of(file, S_IFREG, path)) return NULL;
    syscall(SYS_fstat, file, &about);
    int i = 0;
    for (; i < 8 && met[i].medium != NULL; i++)
        if (met[i].device == about.st_dev && met[i].number == about.st_ino) return met[i].medium;
    if (i == 8) abort();
    const char *name = strrchr(path, '/') + 1;
    struct medium *medium = medium_named(name, 0);
    if (medium == NULL) {
        medium = medium_named(name, 1);
        if (medium != NULL) memset(medium->is_changed, 1, (size_t)size_of(file));
    }
    met[i].device = about.st_dev;
    met[i].number = about.st_ino;
    met[i].medium = medium;
    return medium;
}

/* The names in this folder are on the disk from now on. */
static void name_all(int folder) {
    /* As getdents64 gives them. */
    struct entry { uint64_t number; int64_t next; unsigned short size; unsigned char kind; char name[]; } *entry;
    static char entries[1 << 16] __attribute__((aligned(8)));
    syscall(SYS_lseek, folder, 0, SEEK_SET);
    long size = syscall(SYS_getdents64, folder, entries, sizeof entries);
    for (long at = 0; at < size; at += entry->size) {
        entry = (struct entry *)(entries + at);
        int file = entry->kind == DT_REG ? (int)syscall(SYS_openat, folder, entry->name, O_RDONLY | O_CLOEXEC) : -1;
        if (file < 0) continue;
        struct medium *medium = medium_of(file);
        if (medium != NULL) medium->is_named = 1;
        syscall(SYS_close, file);
    }
}

/* A sync of this file, or of a folder, succeeded. */
static void settle(int file) {
    char path[PATH_MAX];
    if (getenv("SHIM_MEDIA") == NULL) return;
    if (path_of(file, S_IFDIR, path)) name_all(file);
    struct medium *medium = medium_of(file);
    if (medium == NULL) return;
    off_t size = size_of(file);
    for (off_t at = 0, end; at < MOST; at = end) {
        end = at + 1;
        if (!medium->is_changed[at]) continue;
        while (end < MOST && medium->is_changed[end]) end++;
        memset(medium->bytes + at, 0, (size_t)(end - at));
        if (at < size) syscall(SYS_pread64, file, medium->bytes + at, (size_t)((end < size ? end : size) - at), at);
    }
    memset(medium->is_changed, 0, MOST);
    medium->length = (uint64_t)size;
}

/* A sync of this file failed. */
static void forget(int file) {
    struct medium *medium = medium_of(file);
    if (medium != NULL) memset(medium->is_changed, 0, MOST);
}

/* The pages that lie within this range, up to the end of the file where it has no size, are read from the disk. */
static void read_anew(int file, off_t from, off_t size) {
    struct medium *medium = medium_of(file);
    if (medium == NULL) return;
    off_t page = orders->page > 1 ? (off_t)orders->page : 1;
    off_t whole = size_of(file);
    off_t end = size == 0 ? whole : (from + size) / page * page;
    for (off_t at = (from + page - 1) / page * page; at < end && at < whole; at++)
        if (!medium->is_changed[at]) syscall(SYS_pwrite64, file, medium->bytes + at, 1, at);
}

/* ---- reads, writes and syncs */

static int is_in_scope(int file) {
    struct stat about;
    if (orders->scope == 0) return 1;
    if (syscall(SYS_fstat, file, &about) != 0) return 0;
    switch (orders->scope) {
        case 1: return S_ISREG(about.st_mode);
        case 2: return S_ISSOCK(about.st_mode);
        default: return !S_ISREG(about.st_mode);
    }
}

static int refuse(void) {
    errno = orders->error ? (int)orders->error : EIO;
    return -1;
}

/* How many of so many bytes this call may move; -1 where it is refused. */
static ssize_t may_move(int file, size_t size, uint64_t *counted, uint64_t refused, uint64_t most) {
    if (!is_in_scope(file)) return (ssize_t)size;
    if (is_refused(count(counted), refused)) return refuse();
    return (ssize_t)(most == 0 || size <= most ? size : most);
}

static ssize_t may_read(int file, size_t size) {
    ssize_t most = may_move(file, size, &orders->reads, orders->refuse_read, orders->most_read);
    return most < 0 && orders->ended ? 0 : most;
}

static ssize_t may_write(int file, size_t size) {
    return may_move(file, size, &orders->writes, orders->refuse_write, orders->most_write);
}

ssize_t read(int file, void *into, size_t size) {
    ssize_t most = may_read(file, size);
    return most < 0 ? -1 : syscall(SYS_read, file, into, (size_t)most);
}

ssize_t pread(int file, void *into, size_t size, off_t at) {
    ssize_t most = may_read(file, size);
    return most < 0 ? -1 : syscall(SYS_pread64, file, into, (size_t)most, at);
}

ssize_t pread64(int file, void *into, size_t size, off_t at) { return pread(file, into, size, at); }

ssize_t recvfrom(int file, void *into, size_t size, int flags, struct sockaddr *from, socklen_t *len) {
    ssize_t most = may_read(file, size);
    return most < 0 ? -1 : syscall(SYS_recvfrom, file, into, (size_t)most, flags, from, len);
}

ssize_t recv(int file, void *into, size_t size, int flags) { return recvfrom(file, into, size, flags, NULL, NULL); }

ssize_t write(int file, const void *from, size_t size) {
    ssize_t most = may_write(file, size);
    return most < 0 ? -1 : syscall(SYS_write, file, from, (size_t)most);
}

static ssize_t put(int file, const void *from, size_t size, off_t at) {
    struct medium *medium = medium_of(file);
    ssize_t moved = syscall(SYS_pwrite64, file, from, size, at);
    if (moved > 0 && medium != NULL) change(medium, at, moved);
    return moved;
}

ssize_t pwrite(int file, const void *from, size_t size, off_t at) {
    ssize_t most = may_write(file, size);
    if (most >= 0) return put(file, from, (size_t)most, at);
    if (orders->made) put(file, from, size, at);
    return refuse();
}

ssize_t pwrite64(int file, const void *from, size_t size, off_t at) { return pwrite(file, from, size, at); }

ssize_t sendto(int file, const void *from, size_t size, int flags, const struct sockaddr *to, socklen_t len) {
    ssize_t most = may_write(file, size);
    return most < 0 ? -1 : syscall(SYS_sendto, file, from, (size_t)most, flags, to, len);
}

ssize_t send(int file, const void *from, size_t size, int flags) { return sendto(file, from, size, flags, NULL, 0); }

/* Of several pieces the first alone is moved where a call is to be cut short. */
ssize_t writev(int file, const struct iovec *pieces, int number) {
    for (int i = 0; i < number; i++)
        if (pieces[i].iov_len > 0) {
            ssize_t most = may_write(file, pieces[i].iov_len);
            if (most < 0) return -1;
            if (orders->most_write != 0) return syscall(SYS_write, file, pieces[i].iov_base, (size_t)most);
            break;
        }
    return syscall(SYS_writev, file, pieces, number);
}

ssize_t sendmsg(int file, const struct msghdr *message, int flags) {
    ssize_t most = may_write(file, 1);
    return most < 0 ? -1 : syscall(SYS_sendmsg, file, message, flags);
}

static int sync_by(long call, int file) {
    if (is_refused(count(&orders->syncs), orders->refuse_sync)) {
        forget(file);
        return refuse();
    }
    int ended = (int)syscall(call, file);
    if (ended == 0) settle(file);
    return ended;
}

int fsync(int file) { return sync_by(SYS_fsync, file); }

int fdatasync(int file) { return sync_by(SYS_fdatasync, file); }

int ftruncate(int file, off_t size) {
    if (is_refused(count(&orders->truncates), orders->refuse_truncate)) return refuse();
    struct medium *medium = medium_of(file);
    off_t old = medium == NULL ? 0 : size_of(file);
    int ended = (int)syscall(SYS_ftruncate, file, size);
    if (ended == 0 && medium != NULL && size < old) change(medium, size, old - size);
    return ended;
}

int ftruncate64(int file, off_t size) { return ftruncate(file, size); }

int posix_fadvise(int file, off_t at, off_t size, int advice) {
    if (is_refused(count(&orders->advices), orders->refuse_advice)) return orders->error ? (int)orders->error : EIO;
    int ended = (int)syscall(SYS_fadvise64, file, at, size, advice);
    if (ended != 0) return errno;
    if (advice == POSIX_FADV_DONTNEED) read_anew(file, at, size);
    return 0;
}

int posix_fadvise64(int file, off_t at, off_t size, int advice) { return posix_fadvise(file, at, size, advice); }

/* ---- time */

static int64_t speed(void) { return orders->speed > 1 ? (int64_t)orders->speed : 1; }

static int64_t nanoseconds(const struct timespec *moment) { return moment->tv_sec * 1000000000LL + moment->tv_nsec; }

int clock_gettime(clockid_t kind, struct timespec *into) {
    if (kind == CLOCK_REALTIME && is_refused(count(&orders->times), orders->refuse_time)) return refuse();
    int ended = (int)syscall(SYS_clock_gettime, kind, into);
    if (ended != 0 || (kind != CLOCK_REALTIME && kind != CLOCK_MONOTONIC)) return ended;
    if (kind == CLOCK_REALTIME && orders->moment != 0) {
        into->tv_sec = orders->moment;
        into->tv_nsec = 0;
        return 0;
    }
    int64_t from = nanoseconds(&begun[kind == CLOCK_MONOTONIC]);
    int64_t now = from + (nanoseconds(into) - from) * speed() + (int64_t)orders->ahead;
    into->tv_sec = now / 1000000000;
    into->tv_nsec = now % 1000000000;
    return 0;
}

static struct timespec shorter(const struct timespec *span) {
    int64_t left = nanoseconds(span) / speed();
    struct timespec found = {left / 1000000000, left % 1000000000};
    return found;
}

int nanosleep(const struct timespec *span, struct timespec *left) {
    struct timespec wanted = shorter(span);
    return (int)syscall(SYS_nanosleep, &wanted, left);
}

int clock_nanosleep(clockid_t kind, int flags, const struct timespec *span, struct timespec *left) {
    if (flags != 0) return (int)syscall(SYS_clock_nanosleep, kind, flags, span, left) == 0 ? 0 : errno;
    struct timespec wanted = shorter(span);
    return (int)syscall(SYS_clock_nanosleep, kind, flags, &wanted, left) == 0 ? 0 : errno;
}

int setsockopt(int file, int level, int name, const void *value, socklen_t len) {
    struct timeval wanted;
    if (level == SOL_SOCKET && (name == SO_RCVTIMEO || name == SO_SNDTIMEO) && len == sizeof wanted) {
        memcpy(&wanted, value, sizeof wanted);
        int64_t whole = wanted.tv_sec * 1000000LL + wanted.tv_usec;
        int64_t span = whole / speed();
        if (whole > 0 && span == 0) span = 1;
        wanted.tv_sec = span / 1000000;
        wanted.tv_usec = span % 1000000;
        value = &wanted;
    }
    return (int)syscall(SYS_setsockopt, file, level, name, value, len);
}
