/* A disk that takes no more: while the file UNSYNCED names stands, fsync and fdatasync fail with EIO, after UNSYNCED_MS milliseconds.
   With UNSYNCED_ONCE the file goes with the first that fails. Loaded by LD_PRELOAD; see broken.py. */
#define _GNU_SOURCE
#include <dlfcn.h>
#include <errno.h>
#include <stdlib.h>
#include <unistd.h>

static int fails(void) {
  const char *path = getenv("UNSYNCED");
  if (!path || access(path, F_OK) != 0) return 0;
  const char *wait = getenv("UNSYNCED_MS");
  if (wait) usleep(1000 * atoi(wait));
  if (getenv("UNSYNCED_ONCE")) unlink(path);
  errno = EIO;
  return 1;
}

int fsync(int file) {
  static int (*real)(int);
  if (!real) real = dlsym(RTLD_NEXT, "fsync");
  return fails() ? -1 : real(file);
}

int fdatasync(int file) {
  static int (*real)(int);
  if (!real) real = dlsym(RTLD_NEXT, "fdatasync");
  return fails() ? -1 : real(file);
}
