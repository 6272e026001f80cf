// Makes the calls of a list, each on the thread that the list has it for, takes an MD5 for each request, and does nothing
// else: plain_workers LIST NAME. bench/workers.py makes the list of the calls that `rock bench` or `rock run` makes, with
// the key of a URL for each request. The list is mapped into memory, so it is not copied.
//
// The list: the greatest number of bytes of a step; for each thread where its steps begin, and where they end; the steps;
// the URLs. A step has its kind, the number of an open file, a number of bytes and a place:
//   m  takes the MD5 of the key of the URL at this place of the list
//   e  makes the file NAME; t gives it its length, the place; y syncs the file, d its bytes alone
//   s  asks for the file by its name; f by its number
//   o  opens it, to read and write it where the place is 1, else to read it; c closes it
//   g  reads so many bytes at this place; p writes as many
//   r  reads at most so many bytes of standard input; w writes so many to standard output
//   T  starts the thread of this number, the place; J waits until it has ended
// What is written is what the buffer of the thread holds.
#define EACH_ROUND _Pragma("GCC unroll 64")
#include <fcntl.h>
#include <pthread.h>
#include <stdlib.h>
#include <sys/mman.h>
#include <sys/stat.h>
#include <unistd.h>

#include "md5.h"

enum { MOST_THREADS = 32 };

struct step {
    uint16_t kind, file;
    uint32_t count;
    uint64_t at;
};

struct part {
    uint64_t from, to;
};

static const uint8_t *list;
static const char *name;
static pthread_t threads[MOST_THREADS];

static void *serve(void *which);

static int make(const struct step *step, uint8_t *buffer) {
    uint32_t count = step->count, sum[4];
    uint64_t at = step->at;
    struct stat file;
    switch (step->kind) {
    case 'm':
        key_of(sum, list + at, count);
        memcpy(buffer, sum, 16);
        return 1;
    case 'g': return pread(step->file, buffer, count, at) == count;
    case 'p': return pwrite(step->file, buffer, count, at) == count;
    case 'd': return fdatasync(step->file) == 0;
    case 'y': return fsync(step->file) == 0;
    case 's': return stat(name, &file) == 0;
    case 'f': return fstat(step->file, &file) == 0;
    case 'e': return open(name, O_WRONLY | O_CREAT | O_EXCL | O_CLOEXEC, 0666) == step->file;
    case 't': return ftruncate(step->file, at) == 0;
    case 'o': return open(name, (at ? O_RDWR : O_RDONLY) | O_CLOEXEC) == step->file;
    case 'c': return close(step->file) == 0;
    case 'r': return read(0, buffer, count) == (ssize_t)at;
    case 'w': return write(1, buffer, count) == count;
    case 'T': return at < MOST_THREADS && pthread_create(&threads[at], NULL, serve, (void *)at) == 0;
    case 'J': return pthread_join(threads[at], NULL) == 0;
    }
    return 0;
}

// Makes the steps of a thread in order, and ends the program at the first that fails.
static void *serve(void *which) {
    const struct part *part = (const struct part *)(list + 8) + (uintptr_t)which;
    const struct step *step = (const struct step *)(list + part->from), *end = (const struct step *)(list + part->to);
    uint64_t most = *(const uint64_t *)list;
    uint8_t *buffer = malloc(most);
    if (buffer == NULL) _exit(1);
    memset(buffer, 'a', most);
    for (; step < end; step++)
        if (!make(step, buffer)) _exit(1);
    free(buffer);
    return NULL;
}

int main(int count, char **words) {
    struct stat file;
    if (count != 3) return 2;
    int given = open(words[1], O_RDONLY);
    if (given < 0 || fstat(given, &file) != 0) return 1;
    list = mmap(NULL, file.st_size, PROT_READ, MAP_PRIVATE, given, 0);
    if (list == MAP_FAILED || close(given) != 0) return 1;
    name = words[2];
    serve((void *)0);
    return 0;
}
