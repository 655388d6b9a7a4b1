/* Cuts the power of a program's disk, or makes its calls fail, from outside. Preloaded, it replaces
   the functions of the C library by which the program changes files. It watches those with names in
   `.db` and `.db-wal`, and syncs of folders.

   CRASH_STOP    the number of the call, from 1 on, at which the power fails, before it or after it:
                 the process ends there, with status 99; with 0 or without it, at none
   CRASH_AT_END  if set, the power fails when the process ends by itself, or gets SIGTERM
   CRASH_FAULT   the number of the first call that fails, with the error CRASH_ERROR, and CRASH_UPTO
                 that of the last one; a write may write a part first
   CRASH_SEED    a number, from which all that is drawn follows, also the program's random octets
   CRASH_LYING   if set, a sync does nothing, though it succeeds
   CRASH_LOSING  if set, a write of a file's last sync is lost, too. Without both the disk is honest

   A call is one that may change a watched file or its name: the open that makes it, a write, a new
   length, and a sync of it or of a folder. Each change is kept, with what was there before, until a
   sync of that file succeeds. When the power fails, each file goes back to what was synced. Then a
   drawn part of the changes is made again, in order: whole writes, sectors of them, or octets. The
   length is drawn among those since the sync, and between them. Past the synced end, octets that
   are zero may become others. A new file may lose its name, unless a folder was synced since; one
   that is removed stays so.

   After a sync that failed, no later one of that file counts in this process: the kernel may have
   dropped what was written, and need not say so again. */

#define _GNU_SOURCE
#include <assert.h>
#include <errno.h>
#include <fcntl.h>
#include <signal.h>
#include <stdarg.h>
#include <stdio.h>
#include <stdlib.h>
#include <string.h>
#include <sys/stat.h>
#include <sys/syscall.h>
#include <unistd.h>

enum { FILES = 4, PLACES = 1024, CHANGES = 1 << 16, SECTOR = 512, PAGE = 4096 };
enum { LOST, KEPT, WRITES, SECTORS, OCTETS, WAYS }; /* what is made again: none, all, or parts */

static struct file {
    int own, is_new, is_spoilt; /* a descriptor of our own; the name isn't synced; a sync failed */
    char path[512];
} files[FILES], *places[PLACES];

static struct change {
    struct file *file;          /* none once it is synced, but for the last sync on a losing disk */
    int is_synced;
    off_t at, length;           /* where it begins, and the length of the file before it */
    ssize_t had, has;           /* the number of octets there before it, and of those written */
    unsigned char *old, *new;
} changes[CHANGES];

static unsigned long calls, stop_at, fault_at, fault_upto, state;
static int file_count, change_count, error;

static unsigned long draw(unsigned long below)
{
    state ^= state << 13;
    state ^= state >> 7;
    state ^= state << 17;
    return (state * 0x2545f4914f6cdd1dUL >> 33) % below;
}

/* A part of what wasn't synced is on the disk: a write, a sector or some octets. */
static int is_there(int way)
{
    return way == KEPT || (way != LOST && draw(2));
}

static void put(const struct file *file, off_t at, const unsigned char *octets, ssize_t count)
{
    assert(count == 0 || syscall(SYS_pwrite64, file->own, octets, count, at) == count);
}

static void cut(const struct file *file, off_t length)
{
    assert(syscall(SYS_ftruncate, file->own, length) == 0);
}

/* Keeps a change before it is made: octets to write, or, if there are none, a new length. */
static void keep(struct file *file, off_t at, const void *octets, ssize_t has)
{
    off_t length = lseek(file->own, 0, SEEK_END);
    ssize_t most = octets ? has : length > at ? length - at : 0;
    unsigned char *old = malloc(most + 1), *new = malloc(has + 1);

    assert(change_count < CHANGES && old && new);
    if (octets)
        memcpy(new, octets, has);
    most = pread(file->own, old, most, at);
    changes[change_count++] = (struct change){file, 0, at, length, most, has, old, new};
}

static void redo(const struct change *it, int way)
{
    off_t end = it->at + it->has, next;

    if (it->has == 0 && is_there(way))
        cut(it->file, it->at);
    for (off_t at = it->at; at < end; at = next) {
        next = way == SECTORS ? at - at % SECTOR + SECTOR : end;
        if (way == OCTETS)
            next = at + 1 + draw(it->has / 64 + 1);
        next = next < end ? next : end;
        if (is_there(way))
            put(it->file, at, it->new + (at - it->at), next - at);
    }
}

/* Some pages past the synced end have octets that the file never had. */
static void spoil_end(const struct file *file, off_t synced)
{
    unsigned char page[PAGE];

    for (off_t at = synced, length = lseek(file->own, 0, SEEK_END); at < length; at += PAGE) {
        ssize_t count = draw(8) ? 0 : pread(file->own, page, PAGE, at);
        for (ssize_t place = 0; place < count; place++)
            page[place] = page[place] ? page[place] : draw(256);
        put(file, at, page, count);
    }
}

static void lose(struct file *file)
{
    int way = draw(WAYS), count = 0, synced_count = 0;
    off_t synced = lseek(file->own, 0, SEEK_END), least = synced, most = synced;
    struct change *it, *lost = NULL;

    for (it = changes + change_count; it-- > changes;)
        if (it->file == file) {
            cut(file, it->length);
            put(file, it->at, it->old, it->had);
            if (it->is_synced) {
                lost = draw(++synced_count) ? lost : it;
                continue;
            }
            count++;
            synced = it->length;
            least = synced < least ? synced : least;
            most = synced > most ? synced : most;
        }
    for (it = changes; it < changes + change_count; it++)
        if (it->file == file)
            redo(it, it == lost ? LOST : it->is_synced ? KEPT : way);
    if (most > least && draw(3) == 0)
        cut(file, least + draw(most - least + 1));
    if (most > synced && draw(4) == 0)
        spoil_end(file, synced);
    file->is_new = file->is_new && draw(2) && unlink(file->path) == 0;
    dprintf(2, "crash: %s: %d changes not synced, way %d, length %ld%s\n", file->path, count, way,
            (long)lseek(file->own, 0, SEEK_END), file->is_new ? ", name lost" : "");
}

static void stop(int signal)
{
    dprintf(2, "crash: the power fails at call %lu\n", calls);
    for (int each = 0; each < file_count; each++)
        lose(&files[each]);
    if (signal >= 0)
        _exit(99);
}

static unsigned long number(const char *name)
{
    return strtoul(getenv(name) ? getenv(name) : "0", NULL, 10);
}

__attribute__((constructor)) static void begin(void)
{
    stop_at = number("CRASH_STOP");
    fault_at = number("CRASH_FAULT");
    error = number("CRASH_ERROR");
    fault_upto = number("CRASH_UPTO");
    state = (number("CRASH_SEED") + 1) * 0x9e3779b97f4a7c15UL;
    if (getenv("CRASH_AT_END"))
        signal(SIGTERM, stop);
}

__attribute__((destructor)) static void end(void)
{
    if (getenv("CRASH_AT_END"))
        stop(-1);
}

/* Counts a call, before which the power may fail. Returns whether the call fails. */
static int fails(const char *name)
{
    calls++;
    if (stop_at && calls >= stop_at && draw(2))
        stop(0);
    if (calls < fault_at || calls > fault_upto)
        return 0;
    dprintf(2, "crash: call %lu fails: %s, error %d\n", calls, name, error);
    errno = error;
    return 1;
}

/* The result of a call that was made, unless the power fails after it. */
static ssize_t made(ssize_t result)
{
    if (stop_at && calls >= stop_at)
        stop(0);
    return result;
}

int open(const char *path, int flags, ...)
{
    const char *name = strrchr(path, '.');
    int is_watched = name && (strcmp(name, ".db") == 0 || strcmp(name, ".db-wal") == 0), place;
    int is_new = is_watched && flags & O_CREAT && access(path, F_OK) != 0;
    struct file *file = files;
    va_list more;

    if (is_new && fails("open"))
        return -1;
    va_start(more, flags);
    place = syscall(SYS_openat, AT_FDCWD, path, flags, flags & O_CREAT ? va_arg(more, mode_t) : 0);
    va_end(more);
    if (!is_watched || place < 0)
        return place;
    while (file < files + file_count && strcmp(file->path, path) != 0)
        file++;
    if (file == files + file_count) {
        assert(file_count++ < FILES && strlen(path) < sizeof file->path);
        *file = (struct file){.own = syscall(SYS_openat, AT_FDCWD, path, O_RDWR), .is_new = is_new};
        strcpy(file->path, path);
    }
    assert(place < PLACES);
    places[place] = file;
    return is_new ? made(place) : place;
}

int close(int place)
{
    if (place >= 0 && place < PLACES)
        places[place] = NULL;
    return syscall(SYS_close, place);
}

ssize_t pwrite(int place, const void *octets, size_t count, off_t at)
{
    struct file *file = place < PLACES ? places[place] : NULL;

    if (file && fails("write")) {
        if (count < 2 || draw(2))
            return -1;
        count = 1 + draw(count - 1); /* a part is written, and the next call fails */
        fault_upto += fault_upto == calls;
    }
    if (!file)
        return syscall(SYS_pwrite64, place, octets, count, at);
    keep(file, at, octets, count);
    return made(syscall(SYS_pwrite64, place, octets, count, at));
}

int ftruncate(int place, off_t length)
{
    struct file *file = place < PLACES ? places[place] : NULL;

    if (!file)
        return syscall(SYS_ftruncate, place, length);
    if (fails("new length"))
        return -1;
    keep(file, length, NULL, 0);
    return made(syscall(SYS_ftruncate, place, length));
}

int fdatasync(int place)
{
    struct file *file = place < PLACES ? places[place] : NULL;
    struct change *it, *end = changes + change_count;
    struct stat about;

    if (!file && (fstat(place, &about) != 0 || !S_ISDIR(about.st_mode)))
        return syscall(SYS_fdatasync, place);
    if (fails(file ? "sync" : "sync of a folder")) {
        if (file)
            file->is_spoilt = 1;
        return -1;
    }
    for (it = changes; it < end && file && !file->is_spoilt && !getenv("CRASH_LYING"); it++)
        if (it->file == file) {
            it->file = getenv("CRASH_LOSING") && !it->is_synced ? file : NULL;
            it->is_synced = 1;
        }
    for (int each = 0; !file && each < file_count; each++)
        files[each].is_new = 0;
    return made(0);
}

int fsync(int place) __attribute__((alias("fdatasync")));

int getentropy(void *octets, size_t count)
{
    for (size_t each = 0; each < count; each++)
        ((unsigned char *)octets)[each] = draw(256);
    return 0;
}
