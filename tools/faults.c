// Stands between a program and the C library (LD_PRELOAD), counts its calls of a kind, and lets some of them fail, or ends the program in its place.
//
//   FAULTS       the file, of one `struct told`, into which it counts; with none it does nothing
//   FAULTS_KIND  allocation, read, write, create (an open that may make a file), sync or rename; of several calls, with commas between them
//   FAULTS_AT    the number, from 1, of the call of that kind that fails; of several, with commas
//   FAULTS_OF    the name of the file whose calls alone are counted for it, or 0, 1 or 2; of several, with commas; with none those of all files
//   FAULTS_END   the status with which the program ends at that call; with none the call fails
//   FAULTS_STEP  the most bytes that a read or a write moves; 0: as many as the program asks for
#define _GNU_SOURCE
#include <dlfcn.h>
#include <errno.h>
#include <fcntl.h>
#include <stdatomic.h>
#include <stdio.h>
#include <stdlib.h>
#include <string.h>
#include <stdarg.h>
#include <sys/mman.h>
#include <sys/stat.h>
#include <sys/syscall.h>
#include <sys/uio.h>
#include <unistd.h>

enum kind { ALLOCATION, READ, WRITE, CREATE, SYNC, RENAME, KINDS };

static const char *const names[KINDS] = {"allocation", "read", "write", "create", "sync", "rename"};

// The path is that of the file whose call failed, or that was to be renamed. A rename is unsynced where the file was written after its last sync.
struct told {
  _Atomic unsigned long calls[KINDS];
  _Atomic unsigned long failed;
  _Atomic unsigned long unsynced;
  char path[256];
};

// A call that is to fail: the file is a name, "" for any, and the calls are those so far that could have been it.
struct wanted {
  enum kind kind;
  unsigned long at;
  char file[64];
  _Atomic unsigned long calls;
};

enum { MOST_WANTED = 8 };

static struct told *told;
static struct wanted wanted[MOST_WANTED];
static int wanted_count;
static size_t step;
static const char *ends;

// What dlsym allocates before the real calls are known.
static char early[65536];
static _Atomic size_t early_used;

static void *(*real_malloc)(size_t);
static void *(*real_calloc)(size_t, size_t);
static void *(*real_realloc)(void *, size_t);
static void *(*real_aligned_alloc)(size_t, size_t);
static int (*real_posix_memalign)(void **, size_t, size_t);
static void (*real_free)(void *);
static ssize_t (*real_read)(int, void *, size_t);
static ssize_t (*real_write)(int, const void *, size_t);
static ssize_t (*real_readv)(int, const struct iovec *, int);
static ssize_t (*real_writev)(int, const struct iovec *, int);

static void find(void) {
  real_calloc = dlsym(RTLD_NEXT, "calloc");
  real_realloc = dlsym(RTLD_NEXT, "realloc");
  real_aligned_alloc = dlsym(RTLD_NEXT, "aligned_alloc");
  real_posix_memalign = dlsym(RTLD_NEXT, "posix_memalign");
  real_free = dlsym(RTLD_NEXT, "free");
  real_read = dlsym(RTLD_NEXT, "read");
  real_write = dlsym(RTLD_NEXT, "write");
  real_readv = dlsym(RTLD_NEXT, "readv");
  real_writev = dlsym(RTLD_NEXT, "writev");
  real_malloc = dlsym(RTLD_NEXT, "malloc");
}

// Copies what stands before the next comma, and returns what stands behind it.
static const char *part(const char *from, char *to, size_t room) {
  size_t length = from ? strcspn(from, ",") : 0;
  snprintf(to, room, "%.*s", (int)length, from ? from : "");
  return from && from[length] ? from + length + 1 : NULL;
}

static void want(const char *names_of_kinds, const char *numbers, const char *files) {
  while (names_of_kinds && wanted_count < MOST_WANTED) {
    struct wanted *next = &wanted[wanted_count++];
    char name[32], number[32];
    names_of_kinds = part(names_of_kinds, name, sizeof name);
    numbers = part(numbers, number, sizeof number);
    files = part(files, next->file, sizeof next->file);
    next->at = strtoul(number, NULL, 10);
    next->kind = KINDS;
    for (int of = 0; of < KINDS; of++)
      if (!strcmp(name, names[of])) next->kind = of;
  }
}

__attribute__((constructor)) static void begin(void) {
  if (!real_malloc) find();
  const char *path = getenv("FAULTS"), *most = getenv("FAULTS_STEP");
  if (!path) return;
  int file = open(path, O_RDWR);
  if (file < 0) return;
  void *place = mmap(NULL, sizeof(struct told), PROT_READ | PROT_WRITE, MAP_SHARED, file, 0);
  close(file);
  if (place == MAP_FAILED) return;
  step = most ? strtoul(most, NULL, 10) : 0;
  ends = getenv("FAULTS_END");
  want(getenv("FAULTS_KIND"), getenv("FAULTS_AT"), getenv("FAULTS_OF"));
  told = place;
}

static int is_named(const char *path, const char *name) {
  const char *last = strrchr(path, '/');
  return !strcmp(last ? last + 1 : path, name);
}

// Whether this call of a file, or of none, is one that is to fail.
static int fails(enum kind of, const char *path) {
  int found = 0;
  if (!told) return 0;
  atomic_fetch_add(&told->calls[of], 1);
  for (int i = 0; i < wanted_count; i++)
    if (wanted[i].kind == of && (!*wanted[i].file || is_named(path, wanted[i].file)))
      found |= atomic_fetch_add(&wanted[i].calls, 1) + 1 == wanted[i].at;
  if (!found) return 0;
  atomic_fetch_add(&told->failed, 1);
  if (ends) _exit(atoi(ends));
  return 1;
}

static int is_early(const void *place) { return (const char *)place >= early && (const char *)place < early + sizeof early; }

static void *from_early(size_t bytes) {
  size_t used = atomic_fetch_add(&early_used, (bytes + 15) / 16 * 16);
  return used + bytes <= sizeof early ? early + used : NULL;
}

void *malloc(size_t bytes) {
  if (!real_malloc) return from_early(bytes);
  if (fails(ALLOCATION, "")) return errno = ENOMEM, NULL;
  return real_malloc(bytes);
}

void *calloc(size_t items, size_t bytes) {
  if (!real_calloc) return from_early(items * bytes);
  if (fails(ALLOCATION, "")) return errno = ENOMEM, NULL;
  return real_calloc(items, bytes);
}

void *realloc(void *place, size_t bytes) {
  if (is_early(place) || !real_realloc) {
    void *moved = malloc(bytes);
    size_t most = place ? early + sizeof early - (char *)place : 0;
    return moved ? memcpy(moved, place ? place : moved, bytes < most ? bytes : most) : NULL;
  }
  if (fails(ALLOCATION, "")) return errno = ENOMEM, NULL;
  return real_realloc(place, bytes);
}

void *aligned_alloc(size_t unit, size_t bytes) {
  if (fails(ALLOCATION, "")) return errno = ENOMEM, NULL;
  return real_aligned_alloc(unit, bytes);
}

int posix_memalign(void **place, size_t unit, size_t bytes) {
  if (fails(ALLOCATION, "")) return ENOMEM;
  return real_posix_memalign(place, unit, bytes);
}

void free(void *place) {
  if (!is_early(place) && place) real_free(place);
}

// Whether the call fails; notes of which file.
static int fault_at(enum kind of, const char *path) {
  if (!fails(of, path)) return 0;
  snprintf(told->path, sizeof told->path, "%s", path);
  errno = EIO;
  return 1;
}

// The same of an open file, whose path is its number where that is 0, 1 or 2.
static int fault(enum kind of, int file) {
  char link[64], path[256];
  if (!told) return 0;
  snprintf(link, sizeof link, "/proc/self/fd/%d", file);
  ssize_t length = file > 2 ? readlink(link, path, sizeof path - 1) : snprintf(path, sizeof path, "%d", file);
  path[length < 0 ? 0 : length] = 0;
  return fault_at(of, path);
}

static size_t within(size_t bytes) { return step && bytes > step ? step : bytes; }

// The files that were written and not synced since, by their numbers; 0 where there is none.
enum { MOST = 64 };
static _Atomic unsigned long written[MOST];

static int place_of(unsigned long number) {
  for (int i = 0; i < MOST; i++)
    if (written[i] == number) return i;
  return -1;
}

static void note_written(int file) {
  struct stat found;
  if (!told || fstat(file, &found) || !S_ISREG(found.st_mode) || place_of(found.st_ino) >= 0) return;
  int place = place_of(0);
  if (place >= 0) written[place] = found.st_ino;
}

static void note_synced(int file) {
  struct stat found;
  int place = !told || fstat(file, &found) ? -1 : place_of(found.st_ino);
  if (place >= 0) written[place] = 0;
}

static int is_unsynced(const char *path) {
  struct stat found;
  return !stat(path, &found) && place_of(found.st_ino) >= 0;
}

ssize_t read(int file, void *to, size_t bytes) { return fault(READ, file) ? -1 : real_read(file, to, within(bytes)); }

ssize_t write(int file, const void *from, size_t bytes) {
  if (fault(WRITE, file)) return -1;
  note_written(file);
  return real_write(file, from, within(bytes));
}

// Of several pieces only the first is moved where there is a most.
ssize_t readv(int file, const struct iovec *pieces, int count) {
  if (fault(READ, file)) return -1;
  return step && count > 0 ? real_read(file, pieces->iov_base, within(pieces->iov_len)) : real_readv(file, pieces, count);
}

ssize_t writev(int file, const struct iovec *pieces, int count) {
  if (fault(WRITE, file)) return -1;
  note_written(file);
  return step && count > 0 ? real_write(file, pieces->iov_base, within(pieces->iov_len)) : real_writev(file, pieces, count);
}

static int opened(int folder, const char *path, int flags, mode_t mode) {
  if (flags & O_CREAT && fault_at(CREATE, path)) return -1;
  return syscall(SYS_openat, folder, path, flags, mode);
}

// The mode of an open, which is the last argument where there may be one.
#define MODE(flags, last, mode)             \
  mode_t mode = 0;                          \
  if ((flags) & (O_CREAT | __O_TMPFILE)) {  \
    va_list rest;                           \
    va_start(rest, last);                   \
    mode = va_arg(rest, mode_t);            \
    va_end(rest);                           \
  }

int open(const char *path, int flags, ...) {
  MODE(flags, flags, mode)
  return opened(AT_FDCWD, path, flags, mode);
}

int open64(const char *path, int flags, ...) {
  MODE(flags, flags, mode)
  return opened(AT_FDCWD, path, flags, mode);
}

int openat(int folder, const char *path, int flags, ...) {
  MODE(flags, flags, mode)
  return opened(folder, path, flags, mode);
}

int openat64(int folder, const char *path, int flags, ...) {
  MODE(flags, flags, mode)
  return opened(folder, path, flags, mode);
}

int creat(const char *path, mode_t mode) { return opened(AT_FDCWD, path, O_CREAT | O_WRONLY | O_TRUNC, mode); }

static int synced(int file, long call) {
  if (fault(SYNC, file)) return -1;
  note_synced(file);
  return syscall(call, file);
}

int fsync(int file) { return synced(file, SYS_fsync); }

int fdatasync(int file) { return synced(file, SYS_fdatasync); }

static int renamed(int from_folder, const char *from, int to_folder, const char *to, unsigned flags) {
  if (told && from_folder == AT_FDCWD && is_unsynced(from)) atomic_fetch_add(&told->unsynced, 1);
  if (fault_at(RENAME, from)) return -1;
  return syscall(SYS_renameat2, from_folder, from, to_folder, to, flags);
}

int rename(const char *from, const char *to) { return renamed(AT_FDCWD, from, AT_FDCWD, to, 0); }

int renameat(int from_folder, const char *from, int to_folder, const char *to) { return renamed(from_folder, from, to_folder, to, 0); }

int renameat2(int from_folder, const char *from, int to_folder, const char *to, unsigned flags) {
  return renamed(from_folder, from, to_folder, to, flags);
}
