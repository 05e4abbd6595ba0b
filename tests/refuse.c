/* Counts the growths of memory that a program asks for (malloc, calloc, realloc and their aligned kin), and refuses some:
   REFUSE_AT=N the N-th alone, REFUSE_FROM=N that one and all behind it. REFUSE_TOLD=PATH: at the end the file PATH says how
   many were asked for, how many bytes the greatest of them had, and how many were held at most. Loaded by LD_PRELOAD; see bench/growth.py. */
#define _GNU_SOURCE
#include <dlfcn.h>
#include <fcntl.h>
#include <malloc.h>
#include <stdio.h>
#include <stdlib.h>
#include <string.h>
#include <unistd.h>

static long asked, at = -1, from = -1;
static size_t greatest, used, held, most;
static char early[65536];
static const char *told;
static void (*real_free)(void *);
static void *(*real_malloc)(size_t), *(*real_realloc)(void *, size_t), *(*real_calloc)(size_t, size_t), *(*real_aligned)(size_t, size_t);
static int (*real_memalign)(void **, size_t, size_t);

__attribute__((constructor)) static void start(void) {
  real_malloc = dlsym(RTLD_NEXT, "malloc");
  real_realloc = dlsym(RTLD_NEXT, "realloc");
  real_calloc = dlsym(RTLD_NEXT, "calloc");
  real_memalign = dlsym(RTLD_NEXT, "posix_memalign");
  real_aligned = dlsym(RTLD_NEXT, "aligned_alloc");
  real_free = dlsym(RTLD_NEXT, "free");
  if (getenv("REFUSE_AT")) at = atol(getenv("REFUSE_AT"));
  if (getenv("REFUSE_FROM")) from = atol(getenv("REFUSE_FROM"));
  told = getenv("REFUSE_TOLD");
  asked = 0;
  greatest = 0;
}

__attribute__((destructor)) static void stop(void) {
  char text[64];
  int file = told ? open(told, O_WRONLY | O_CREAT | O_TRUNC, 0644) : -1;
  if (file >= 0) {
    int length = snprintf(text, sizeof text, "%ld %zu %zu\n", asked, greatest, most);
    if (write(file, text, length) < 0) _exit(99);
    close(file);
  }
}

static int refused(size_t bytes) {
  asked++;
  if (bytes > greatest) greatest = bytes;
  return asked == at || (from > 0 && asked >= from);
}

static int is_early(void *place) { return (char *)place >= early && (char *)place < early + sizeof early; }

static void *counted(void *place) {
  if (place) held += malloc_usable_size(place);
  if (held > most) most = held;
  return place;
}

static void *early_place(size_t bytes) {
  void *place = early + used;
  used += (bytes + 15) & ~15ul;
  return place;
}

void *malloc(size_t bytes) {
  if (!real_malloc) return early_place(bytes);
  return refused(bytes) ? 0 : counted(real_malloc(bytes));
}

void *calloc(size_t count, size_t bytes) {
  if (!real_calloc) return early_place(count * bytes);
  return refused(count * bytes) ? 0 : counted(real_calloc(count, bytes));
}

void *realloc(void *place, size_t bytes) {
  if (!real_realloc) return early_place(bytes);
  if (refused(bytes)) return 0;
  size_t before = place && !is_early(place) ? malloc_usable_size(place) : 0;
  void *next = real_realloc(is_early(place) ? 0 : place, bytes);
  if (next) held -= before;
  return counted(next);
}

int posix_memalign(void **place, size_t step, size_t bytes) {
  int status = refused(bytes) ? 12 : real_memalign(place, step, bytes);
  if (!status) counted(*place);
  return status;
}

void *aligned_alloc(size_t step, size_t bytes) { return refused(bytes) ? 0 : counted(real_aligned(step, bytes)); }

void free(void *place) {
  if (!place || !real_free || is_early(place)) return;
  held -= malloc_usable_size(place);
  real_free(place);
}
