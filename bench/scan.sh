#!/usr/bin/env bash
# Times `rock list` and `rock check` on large files, warm, beside a plain program that makes the same reads,
# and one that takes the MD5s of entries of one slot too.
#
#   bench/scan.sh [FOLDER] [MIB ..]
#
# The files are made in FOLDER (default: a new folder under /tmp, removed at the end), of 64 and 1,024
# MiB unless sizes are named. Of seven runs of each the least time is told. This stands
# outside the gate: it needs python3, a C compiler and 2 GiB of disk.
set -eu -o pipefail

root=$(dirname "$(dirname "$(readlink -f "${BASH_SOURCE[0]}")")")
if [ $# -gt 0 ]; then
    folder=$1
    shift
else
    folder=$(mktemp -d /tmp/scan.XXXXXX)
    trap 'rm -rf "$folder"' EXIT
fi
[ $# -gt 0 ] || set -- 64 1024
mkdir -p "$folder"

"$root/rock" --version >/dev/null
"${CC:-cc}" -O2 -x c -o "$folder/plain_read" - <<'END'
// Reads the slots of a file in order, so many by one call into one buffer as 65,536 bytes have room for, as `rock list`
// does, and looks at none of them: plain_read NAME SLOT
#include <fcntl.h>
#include <stdio.h>
#include <stdlib.h>
#include <sys/stat.h>
#include <unistd.h>

int main(int count, char **words) {
    struct stat file;
    if (count != 3) return 2;
    long slot = atol(words[2]);
    int db = open(words[1], O_RDONLY);
    char *buffer = malloc(65536);
    if (slot < 512 || slot > 65536 || db < 0 || buffer == NULL || fstat(db, &file) != 0) return 1;
    long slots = (file.st_size - 16384) / slot, most = 65536 / slot, seen = 0;
    if (slots > 1048576) slots = 1048576;
    for (long s = 0; s < slots; s += most) {
        long some = slots - s < most ? slots - s : most;
        if (pread(db, buffer, some * slot, 16384 + s * slot) != some * slot) return 1;
        for (long k = 0; k < some; k++) seen += buffer[k * slot];
    }
    printf("%ld\n", seen);
    return 0;
}
END
"${CC:-cc}" -O2 -o "$folder/plain_sums" "$root/bench/helpers/plain_sums.c"
"${CC:-cc}" -O2 -o "$folder/run_once" "$root/bench/helpers/run_once.c"
printf '%5s %6s %-10s %9s %9s %7s %8s %7s %10s %9s %7s %7s %9s %7s %7s\n' MiB slot file entries plain_s list_s list_MB/s ratio peak_MiB bytes/slot check_s to_list bytes/slot sums_s of_rate
for mib in "$@"; do
    for slot in 512 4096 16384; do
        for kind in entries one-slot one-tail chain ring; do
            python3 "$root/bench/helpers/make_file.py" "$folder/db" "$mib" "$slot" "$kind"
            python3 "$root/bench/helpers/measure.py" "$folder" "$root/crates/rock_main/out/rock_main" "$mib" "$slot" "$kind"
            rm -f "$folder/db"
        done
    done
done
