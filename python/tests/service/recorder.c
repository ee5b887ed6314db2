/* Records what a process writes, truncates, syncs and removes in a folder, in the order in which it happens.

   gcc -shared -fPIC -O1 -o recorder.so recorder.c -ldl
   LD_PRELOAD=recorder.so EVP_RECORD_FOLDER=/path EVP_RECORD_LOG=/path/to/log program

   A record is four numbers of 8 bytes (kind, offset, length of the name, length of the data), the name of the file in
   the folder (none for the folder itself), and the data. The log is outside of the folder. */
#define _GNU_SOURCE
#include <dlfcn.h>
#include <fcntl.h>
#include <limits.h>
#include <pthread.h>
#include <stdint.h>
#include <stdio.h>
#include <stdlib.h>
#include <string.h>
#include <sys/types.h>
#include <sys/uio.h>
#include <unistd.h>

enum { WRITE = 1, TRUNCATE = 2, SYNC = 3, REMOVE = 4 };

static pthread_mutex_t lock = PTHREAD_MUTEX_INITIALIZER;
static int log_file = -1;

#define REAL(name) ((__typeof__(&name)) dlsym(RTLD_NEXT, #name))

/* The name of a path in the folder, or NULL where it is elsewhere. */
static const char *name_in_folder(const char *path)
{
    const char *folder = getenv("EVP_RECORD_FOLDER");
    size_t length = folder ? strlen(folder) : 0;
    if (!length || strncmp(path, folder, length))
        return NULL;
    return path[length] == '/' ? path + length + 1 : path[length] ? NULL : path + length;
}

static const char *name_of(int file, char path[PATH_MAX])
{
    char link[64];
    snprintf(link, sizeof link, "/proc/self/fd/%d", file);
    ssize_t length = readlink(link, path, PATH_MAX - 1);
    if (length < 0)
        return NULL;
    path[length] = 0;
    return name_in_folder(path);
}

static void record(uint64_t kind, uint64_t offset, const char *name, const void *data, uint64_t length)
{
    uint64_t head[4] = {kind, offset, strlen(name), length};
    struct iovec parts[3] = {{head, sizeof head}, {(void *) name, head[2]}, {(void *) data, length}};
    if (log_file < 0)
        log_file = open(getenv("EVP_RECORD_LOG"), O_WRONLY | O_CREAT | O_APPEND | O_CLOEXEC, 0600);
    if (writev(log_file, parts, 3) != (ssize_t) (sizeof head + head[2] + length))
        abort();  /* a recording that is not whole would show what did not happen */
}

/* Does a call, and records it under one lock where it concerns the folder and did something. */
#define RECORDED(file, call, kind, offset, data, length)         \
    char path[PATH_MAX];                                         \
    const char *name = name_of(file, path);                      \
    if (!name)                                                   \
        return call;                                             \
    pthread_mutex_lock(&lock);                                   \
    ssize_t done = call;                                         \
    if (done >= 0)                                               \
        record(kind, offset, name, data, length);                \
    pthread_mutex_unlock(&lock);                                 \
    return done;

ssize_t pwrite(int file, const void *data, size_t size, off_t offset)
{
    RECORDED(file, REAL(pwrite)(file, data, size, offset), WRITE, offset, data, done)
}

ssize_t pwrite64(int file, const void *data, size_t size, off64_t offset)
{
    RECORDED(file, REAL(pwrite64)(file, data, size, offset), WRITE, offset, data, done)
}

ssize_t write(int file, const void *data, size_t size)
{
    RECORDED(file, REAL(write)(file, data, size), WRITE, lseek(file, 0, SEEK_CUR) - done, data, done)
}

int ftruncate(int file, off_t size)
{
    RECORDED(file, REAL(ftruncate)(file, size), TRUNCATE, size, "", 0)
}

int ftruncate64(int file, off64_t size)
{
    RECORDED(file, REAL(ftruncate64)(file, size), TRUNCATE, size, "", 0)
}

int fsync(int file)
{
    RECORDED(file, REAL(fsync)(file), SYNC, 0, "", 0)
}

int fdatasync(int file)
{
    RECORDED(file, REAL(fdatasync)(file), SYNC, 0, "", 0)
}

int unlink(const char *path)
{
    const char *name = name_in_folder(path);
    if (!name)
        return REAL(unlink)(path);
    pthread_mutex_lock(&lock);
    int done = REAL(unlink)(path);
    if (!done)
        record(REMOVE, 0, name, "", 0);
    pthread_mutex_unlock(&lock);
    return done;
}
