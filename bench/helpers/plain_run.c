// Makes the calls of a list on standard input, on a file and on standard output, each with the bytes that the list
// gives it, and nothing else: plain_run NAME. bench/run.py makes the list of those that `rock run` makes, and builds
// this with the folder of the list as FOLDER and the text that is to be printed as ANSWERS. The list, the bytes of the
// slots and the text are part of the program, so that it reads no file for them.
//
// A call of the list has its kind, a number of bytes and a place:
//   r  reads at most so many bytes of standard input; the place is how many it is to get
//   s  asks for the file by its name; f by its number
//   o  opens it, to read and write it where the number is 1, else to read it; c closes the one that was opened last
//   g  reads so many bytes at this place
//   p  writes a slot at this place: so many of the bytes of slots, and zeros behind them
//   w  writes so many bytes of the text; the place is how many are to be taken
#include <fcntl.h>
#include <stdint.h>
#include <string.h>
#include <sys/stat.h>
#include <unistd.h>

#define HELD(name, file)                                                      \
    __asm__(".section .rodata\n.balign 16\n" #name ":\n.incbin \"" file "\"\n" #name "_end:\n.byte 0\n.previous\n"); \
    extern const uint8_t name[], name##_end[]

HELD(calls, FOLDER "/calls.bin");
HELD(images, FOLDER "/images.bin");
HELD(answers, ANSWERS);

enum { SLOT = 16384, MOST = 65536, MOST_OPEN = 8 };

struct call {
    uint32_t kind, count;
    uint64_t at;
};

static uint8_t buffer[MOST];

int main(int count, char **words) {
    const struct call *call = (const struct call *)calls, *end = (const struct call *)calls_end;
    const uint8_t *image = images, *text = answers;
    struct stat file;
    int opened[MOST_OPEN], many = 0, db = -1;
    if (count != 2) return 2;
    for (; call < end; call++) {
        int done = 0;
        switch (call->kind) {
        case 'r':
            done = call->count <= MOST && read(0, buffer, call->count) == (ssize_t)call->at;
            break;
        case 's':
            done = stat(words[1], &file) == 0;
            break;
        case 'f':
            done = fstat(db, &file) == 0;
            break;
        case 'o':
            if (many == MOST_OPEN) return 1;
            db = opened[many++] = open(words[1], (call->count ? O_RDWR : O_RDONLY) | O_CLOEXEC);
            done = db >= 0;
            break;
        case 'c':
            done = many > 0 && close(opened[--many]) == 0;
            db = many > 0 ? opened[many - 1] : -1;
            break;
        case 'g':
            done = call->count <= MOST && pread(db, buffer, call->count, call->at) == (ssize_t)call->count;
            break;
        case 'p':
            memcpy(buffer, image, call->count);
            memset(buffer + call->count, 0, SLOT - call->count);
            image += call->count;
            done = pwrite(db, buffer, SLOT, call->at) == SLOT;
            break;
        case 'w':
            done = write(1, text, call->count) == (ssize_t)call->at;
            text += call->at;
            break;
        }
        if (!done) return 1;
    }
    return image == images_end && text == answers_end ? 0 : 1;
}
