// Counts the bytes that a program has in use, and writes "live N " before each line that it prints. LD_PRELOAD loads it.
#include <malloc.h>
#include <stddef.h>
#include <stdio.h>
#include <sys/syscall.h>
#include <unistd.h>

extern void *__libc_malloc(size_t), *__libc_calloc(size_t, size_t), *__libc_realloc(void *, size_t), *__libc_memalign(size_t, size_t);
extern void __libc_free(void *);

static long live;

// What was given out, with the word before it that the allocator keeps.
static void *counted(void *given, int sign) {
  if (given) live += sign * (long)(malloc_usable_size(given) + sizeof(size_t));
  return given;
}

void *malloc(size_t size) { return counted(__libc_malloc(size), 1); }
void *calloc(size_t count, size_t size) { return counted(__libc_calloc(count, size), 1); }
void *memalign(size_t align, size_t size) { return counted(__libc_memalign(align, size), 1); }
void *aligned_alloc(size_t align, size_t size) { return memalign(align, size); }
void free(void *given) { __libc_free(counted(given, -1)); }

void *realloc(void *given, size_t size) {
  counted(given, -1);
  return counted(__libc_realloc(given, size), 1);
}

int posix_memalign(void **given, size_t align, size_t size) {
  *given = memalign(align, size);
  return *given ? 0 : 12;
}

ssize_t write(int file, const void *bytes, size_t count) {
  char text[32];
  if (file == 1) syscall(SYS_write, 1, text, snprintf(text, sizeof text, "live %ld ", live));
  return syscall(SYS_write, file, bytes, count);
}
