/* A library that is loaded before the C library (LD_PRELOAD), and lets one kind of call fail. tests/faults.py says which:

   REFUSE_CALL   memory, thread, open, read, write, close, sync, rename, remove, look, or none
   REFUSE_AT     the number of the call, from 1 on
   REFUSE_MODE   once: that call alone; from: that call and all later ones; kill: the process ends at that call
   REFUSE_ERROR  the error's number; 0: a read or a write moves no byte
   REFUSE_SHORT  1: a read or a write moves one byte at most
   REFUSE_LOG    a file in which the numbers of calls stand afterwards, and of growths since the last thread was asked for (late)

   Memory is counted where the program itself asks for it, not the C library. */
#define _GNU_SOURCE
#include <dlfcn.h>
#include <errno.h>
#include <fcntl.h>
#include <link.h>
#include <pthread.h>
#include <signal.h>
#include <stdarg.h>
#include <stdint.h>
#include <stdio.h>
#include <stdlib.h>
#include <string.h>
#include <sys/mman.h>
#include <sys/stat.h>
#include <sys/syscall.h>
#include <sys/uio.h>
#include <unistd.h>

enum { MEMORY, THREAD, OPEN, READ, WRITE, CLOSE, SYNC, RENAME, REMOVE, LOOK, KINDS };
static const char *const names[KINDS] = {"memory", "thread", "open", "read", "write", "close", "sync", "rename", "remove", "look"};

static long counts[KINDS], late; /* late: growths since the last thread was asked for */
static int kind = -1, error_number = ENOMEM, moves_one;
static long at;
static enum { ONCE, FROM, KILL } mode;
static uintptr_t low, high;

static long setting(const char *name, long otherwise) {
  const char *text = getenv(name);
  return text && *text ? strtol(text, 0, 10) : otherwise;
}

/* The first object is the program. */
static int note_program(struct dl_phdr_info *info, size_t size, void *data) {
  (void)size, (void)data;
  for (int i = 0; i < info->dlpi_phnum; i++) {
    const ElfW(Phdr) *part = &info->dlpi_phdr[i];
    uintptr_t end = info->dlpi_addr + part->p_vaddr + part->p_memsz;
    if (part->p_type == PT_LOAD && end > high) high = end;
  }
  low = info->dlpi_addr;
  return 1;
}

__attribute__((destructor)) static void end(void) {
  const char *path = getenv("REFUSE_LOG");
  if (!path) return;
  char line[512];
  int used = 0;
  for (int i = 0; i < KINDS; i++) used += snprintf(line + used, sizeof line - used, "%s %ld\n", names[i], counts[i]);
  used += snprintf(line + used, sizeof line - used, "late %ld\n", late);
  int fd = syscall(SYS_openat, AT_FDCWD, path, O_WRONLY | O_CREAT | O_TRUNC | O_CLOEXEC, 0644);
  if (fd < 0) return;
  syscall(SYS_write, fd, line, used);
  syscall(SYS_close, fd);
}

void _exit(int status) {
  end();
  syscall(SYS_exit_group, status);
  __builtin_unreachable();
}

/* Counts a call, and tells whether it fails. */
static int fails(int of) {
  long number = __atomic_add_fetch(&counts[of], 1, __ATOMIC_RELAXED);
  if (of == MEMORY) __atomic_add_fetch(&late, 1, __ATOMIC_RELAXED);
  if (of == THREAD) __atomic_store_n(&late, 0, __ATOMIC_RELAXED);
  if (of != kind || (mode == FROM ? number < at : number != at)) return 0;
  if (mode == KILL) kill(getpid(), SIGKILL);
  errno = error_number;
  return 1;
}

/* ---- memory ---- */

void *__libc_malloc(size_t);
void *__libc_calloc(size_t, size_t);
void *__libc_realloc(void *, size_t);
void *__libc_memalign(size_t, size_t);

/* What takes memory: the C library, or the program itself where it brings an allocator along, as a checked build does. */
static void *(*take)(size_t) = __libc_malloc;
static void *(*take_clear)(size_t, size_t) = __libc_calloc;
static void *(*take_again)(void *, size_t) = __libc_realloc;
static void *(*take_aligned)(size_t, size_t) = __libc_memalign;

#define IS_REFUSED ((uintptr_t)__builtin_return_address(0) - low < high - low && fails(MEMORY))

void *malloc(size_t size) { return IS_REFUSED ? 0 : take(size); }
void *calloc(size_t count, size_t size) { return IS_REFUSED ? 0 : take_clear(count, size); }
void *realloc(void *old, size_t size) { return IS_REFUSED ? 0 : take_again(old, size); }
void *memalign(size_t align, size_t size) { return IS_REFUSED ? 0 : take_aligned(align, size); }
void *aligned_alloc(size_t align, size_t size) { return IS_REFUSED ? 0 : take_aligned(align, size); }

int posix_memalign(void **to, size_t align, size_t size) {
  if (IS_REFUSED) return ENOMEM;
  void *made = take_aligned(align, size);
  if (made) *to = made;
  return made ? 0 : ENOMEM;
}

/* Turns the jump that stands at such a name in the program to another function; the answer is where it led. */
static void *turned(const char *name, void *to) {
  static unsigned char *far;
  unsigned char *place = dlsym(RTLD_DEFAULT, name);
  if (!place || (uintptr_t)place - low >= high - low || *place != 0xe9) return 0;
  for (uintptr_t near = (high + 0xfffff) & ~0xffffful; !far && near < high + (1ul << 30); near += 1 << 20) {
    void *page = mmap((void *)near, 4096, PROT_READ | PROT_WRITE | PROT_EXEC, MAP_PRIVATE | MAP_ANONYMOUS | MAP_FIXED_NOREPLACE, -1, 0);
    if (page != MAP_FAILED) far = page;
  }
  if (!far) return 0;
  int32_t away;
  memcpy(&away, place + 1, 4);
  void *led = place + 5 + away;
  memcpy(far, "\xff\x25\0\0\0\0", 6);
  memcpy(far + 6, &to, 8);
  away = far - (place + 5);
  void *page = (void *)((uintptr_t)place & ~4095ul);
  mprotect(page, 8192, PROT_READ | PROT_WRITE | PROT_EXEC);
  memcpy(place + 1, &away, 4);
  mprotect(page, 8192, PROT_READ | PROT_EXEC);
  far += 16;
  return led;
}

static void turn_all(void) {
  void *own = turned("malloc", malloc);
  if (!own) return;
  take = own;
  take_clear = turned("calloc", calloc);
  take_again = turned("realloc", realloc);
  take_aligned = turned("memalign", memalign);
  turned("aligned_alloc", aligned_alloc);
  turned("posix_memalign", posix_memalign);
}

__attribute__((constructor)) static void begin(void) {
  dl_iterate_phdr(note_program, 0);
  at = setting("REFUSE_AT", 0);
  error_number = setting("REFUSE_ERROR", ENOMEM);
  moves_one = setting("REFUSE_SHORT", 0);
  const char *word = getenv("REFUSE_MODE");
  mode = word && !strcmp(word, "from") ? FROM : word && !strcmp(word, "kill") ? KILL : ONCE;
  const char *call = getenv("REFUSE_CALL");
  for (int i = 0; call && i < KINDS; i++)
    if (!strcmp(call, names[i])) kind = i;
  turn_all();
}

/* ---- threads ---- */

int pthread_create(pthread_t *thread, const pthread_attr_t *how, void *(*does)(void *), void *with) {
  static int (*real)(pthread_t *, const pthread_attr_t *, void *(*)(void *), void *);
  if (!real) real = (int (*)(pthread_t *, const pthread_attr_t *, void *(*)(void *), void *))dlsym(RTLD_NEXT, "pthread_create");
  return fails(THREAD) ? error_number : real(thread, how, does, with);
}

/* ---- files ---- */

static int open_as(int folder, const char *path, int flags, int bits) {
  return fails(OPEN) ? -1 : syscall(SYS_openat, folder, path, flags, bits);
}

#define WITH_BITS                                                       \
  int bits = 0;                                                         \
  if (flags & O_CREAT) {                                                \
    va_list rest;                                                       \
    va_start(rest, flags);                                              \
    bits = va_arg(rest, int);                                           \
    va_end(rest);                                                       \
  }

int open(const char *path, int flags, ...) { WITH_BITS return open_as(AT_FDCWD, path, flags, bits); }
int open64(const char *path, int flags, ...) { WITH_BITS return open_as(AT_FDCWD, path, flags, bits); }
int openat(int folder, const char *path, int flags, ...) { WITH_BITS return open_as(folder, path, flags, bits); }
int openat64(int folder, const char *path, int flags, ...) { WITH_BITS return open_as(folder, path, flags, bits); }

static size_t moved(size_t size) { return moves_one && size > 1 ? 1 : size; }

ssize_t read(int fd, void *to, size_t size) {
  if (fails(READ)) return error_number ? -1 : 0;
  return syscall(SYS_read, fd, to, moved(size));
}

ssize_t write(int fd, const void *from, size_t size) {
  if (fails(WRITE)) return error_number ? -1 : 0;
  return syscall(SYS_write, fd, from, moved(size));
}

ssize_t readv(int fd, const struct iovec *parts, int count) {
  if (fails(READ)) return error_number ? -1 : 0;
  return syscall(SYS_readv, fd, parts, count);
}

ssize_t writev(int fd, const struct iovec *parts, int count) {
  if (fails(WRITE)) return error_number ? -1 : 0;
  return syscall(SYS_writev, fd, parts, count);
}

int close(int fd) {
  int hit = fails(CLOSE), done = syscall(SYS_close, fd);
  if (hit) errno = error_number;
  return hit ? -1 : done;
}

#define CALL(of, name, parameters, ...) \
  int name parameters { return fails(of) ? -1 : syscall(__VA_ARGS__); }
CALL(SYNC, fsync, (int fd), SYS_fsync, fd)
CALL(SYNC, fdatasync, (int fd), SYS_fdatasync, fd)
CALL(RENAME, rename, (const char *from, const char *to), SYS_renameat2, AT_FDCWD, from, AT_FDCWD, to, 0)
CALL(RENAME, renameat, (int a, const char *from, int b, const char *to), SYS_renameat2, a, from, b, to, 0)
CALL(RENAME, renameat2, (int a, const char *from, int b, const char *to, unsigned how), SYS_renameat2, a, from, b, to, how)
CALL(REMOVE, unlink, (const char *path), SYS_unlinkat, AT_FDCWD, path, 0)
CALL(REMOVE, unlinkat, (int folder, const char *path, int how), SYS_unlinkat, folder, path, how)
CALL(LOOK, stat, (const char *path, struct stat *to), SYS_newfstatat, AT_FDCWD, path, to, 0)
CALL(LOOK, lstat, (const char *path, struct stat *to), SYS_newfstatat, AT_FDCWD, path, to, AT_SYMLINK_NOFOLLOW)
CALL(LOOK, fstat, (int fd, struct stat *to), SYS_fstat, fd, to)
CALL(LOOK, fstatat, (int folder, const char *path, struct stat *to, int how), SYS_newfstatat, folder, path, to, how)
CALL(LOOK, statx, (int folder, const char *path, int how, unsigned mask, struct statx *to), SYS_statx, folder, path, how, mask, to)
CALL(LOOK, fchmod, (int fd, mode_t bits), SYS_fchmod, fd, bits)
CALL(LOOK, ftruncate, (int fd, off_t size), SYS_ftruncate, fd, size)
CALL(LOOK, ftruncate64, (int fd, off_t size), SYS_ftruncate, fd, size)
