// Reads the slots of a file in order, so many by one call into one buffer as 65,536 bytes have room for, and where a slot
// is an entry by itself takes the MD5 of its URL and compares it with the slot's key, as `rock check` has to:
// plain_sums NAME SLOT. It looks at nothing else and keeps nothing. It is for little-endian machines.
#include <fcntl.h>
#include <stdint.h>
#include <stdio.h>
#include <stdlib.h>
#include <sys/stat.h>
#include <unistd.h>

#include "md5.h"

int main(int count, char **words) {
    struct stat file;
    if (count != 3) return 2;
    long slot = atol(words[2]);
    int db = open(words[1], O_RDONLY);
    uint8_t *buffer = malloc(65536);
    if (slot < 512 || slot > 65536 || db < 0 || buffer == NULL || fstat(db, &file) != 0) return 1;
    long slots = (file.st_size - 16384) / slot, most = 65536 / slot, entries = 0;
    if (slots > 1048576) slots = 1048576;
    for (long s = 0; s < slots; s++) {
        uint32_t length, sum[4];
        int32_t links[2];
        long some = slots - s < most ? slots - s : most;
        if (s % most == 0 && pread(db, buffer, some * slot, 16384 + s * slot) != some * slot) return 1;
        uint8_t *image = buffer + s % most * slot;
        memcpy(links, image + 32, 8);
        memcpy(&length, image + 67, 4);
        if (links[0] != s || links[1] != -1 || length < 2 || length > 2049 || 71 + (long)length > slot) continue;
        key_of(sum, image + 71, length - 1);
        entries += memcmp(sum, image, 16) == 0;
    }
    printf("%ld\n", entries);
    return 0;
}
