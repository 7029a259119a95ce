/* applied replay|apply FILE: makes one call of avm_c_replay or of avm_c_apply on the ledger and the block of a file, two lines of
   digits, and prints the status. By hand, so that callgrind counts the instructions of each:

       cc -O2 -I include -o applied tests/embedding/applied.c LIBRARY liblibc_c.a
       valgrind --tool=callgrind --toggle-collect=avm_c_apply ./applied apply FILE
       callgrind_annotate --inclusive=yes callgrind.out.* | grep -e 'PROGRAM TOTALS' -e canonical

   What avm_c_apply takes beyond avm_c_replay is the encoding of the ledger, `canonical`. */
#include "avm.h"

#include <stdio.h>
#include <stdlib.h>
#include <string.h>

struct line {
    uint8_t *at;
    size_t length;
};

static struct line line_of(FILE *file) {
    char *digits = NULL;
    size_t room = 0;
    ssize_t count = getline(&digits, &room, file);
    struct line line = {malloc(room / 2 + 1), 0};
    if (count < 1 || !line.at) exit(2);
    for (char pair[3] = {0}; digits[2 * line.length] > ' '; line.length++) {
        memcpy(pair, digits + 2 * line.length, 2);
        line.at[line.length] = (uint8_t)strtoul(pair, NULL, 16);
    }
    free(digits);
    return line;
}

int main(int words, char **word) {
    FILE *file = words == 3 ? fopen(word[2], "r") : NULL;
    if (!file) return fprintf(stderr, "usage: applied replay|apply FILE\n"), 2;
    struct line ledger = line_of(file), block = line_of(file);
    size_t room = ledger.length + block.length, written = 0;
    uint8_t digest[32], *after = malloc(room);
    struct avm_difference difference;
    if (!after) return 2;
    uint32_t status = strcmp(word[1], "apply")
                          ? avm_c_replay(ledger.at, ledger.length, block.at, block.length, digest, &difference)
                          : avm_c_apply(ledger.at, ledger.length, block.at, block.length, after, room, &written, &difference);
    printf("status %u, %zu bytes\n", status, written);
    return (int)status;
}
