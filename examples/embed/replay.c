/* replay FILE..: the verdict on each block, which stands in its file behind the ledger before it, as two lines of hexadecimal
   digits of either case. The status is 0 where every block agrees, 1 where one does not or where a line is refused (another character,
   an odd count of digits), and 2 where a file cannot be read. */
#define _POSIX_C_SOURCE 200809L
#include "avm.h"

#include <stdbool.h>
#include <stdio.h>
#include <stdlib.h>
#include <sys/types.h>

struct bytes {
    uint8_t *at;
    size_t length;
    bool refused;
};

static int value_of(char digit) {
    if (digit >= '0' && digit <= '9') return digit - '0';
    if (digit >= 'a' && digit <= 'f') return digit - 'a' + 10;
    if (digit >= 'A' && digit <= 'F') return digit - 'A' + 10;
    return -1;
}

/* How many characters a line has before its end. */
static size_t without_end(const char *line, size_t count) {
    if (count == 0 || line[count - 1] != '\n') return count;
    return count > 1 && line[count - 2] == '\r' ? count - 2 : count - 1;
}

/* The bytes that digits encode. Of none the pointer is not null either: room for one byte more is asked for. */
static struct bytes bytes_of(const char *digits, size_t count) {
    struct bytes read = {malloc(count / 2 + 1), 0, count % 2 != 0};
    for (; read.at && !read.refused && read.length < count / 2; read.length++) {
        int high = value_of(digits[2 * read.length]), low = value_of(digits[2 * read.length + 1]);
        read.refused = high < 0 || low < 0;
        if (!read.refused) read.at[read.length] = (uint8_t)(high << 4 | low);
    }
    return read;
}

/* The bytes that the next line encodes; the pointer is null where there is no such line. */
static struct bytes next_line(FILE *file) {
    struct bytes read = {NULL, 0, false};
    char *line = NULL;
    size_t room = 0;
    ssize_t count = getline(&line, &room, file);
    if (count > 0) read = bytes_of(line, without_end(line, (size_t)count));
    free(line);
    return read;
}

static void print_ending(const struct avm_difference *found) {
    static const char *const endings[] = {"approved", "rejected", "faulted", "refused", "cleared gone", "cleared rejected",
                                          "cleared faulted"};
    printf("wrong outcome %llu %s", (unsigned long long)found->entry, endings[found->ending]);
    if (found->number) printf(" %u", found->number);
    if (found->ending == AVM_FAULTED || found->ending == AVM_CLEARED_FAULTED) printf(" %u", found->place);
    printf("\n");
}

static int print_verdict(struct bytes ledger, struct bytes block) {
    if (ledger.refused || block.refused) {
        printf("refused\n");
        return 1;
    }
    uint8_t digest[32];
    struct avm_difference found;
    uint32_t status = avm_c_replay(ledger.at, ledger.length, block.at, block.length, digest, &found);
    switch (status) {
    case AVM_DONE:
        printf("agrees ");
        for (size_t i = 0; i < sizeof digest; i++) printf("%02x", digest[i]);
        printf("\n");
        return 0;
    case AVM_WRONG_OUTCOME: print_ending(&found); return 1;
    case AVM_NO_LEDGER: printf("no ledger\n"); return 1;
    case AVM_NO_BLOCK: printf("no block\n"); return 1;
    case AVM_WRONG_BASE: printf("wrong base\n"); return 1;
    case AVM_WRONG_STATE: printf("wrong state\n"); return 1;
    default: fprintf(stderr, "replay: out of memory\n"); return 2;
    }
}

static int replay_file(const char *name) {
    int status = 2;
    FILE *file = fopen(name, "r");
    if (file) {
        struct bytes ledger = next_line(file), block = next_line(file);
        if (ledger.at && block.at) status = print_verdict(ledger, block);
        free(ledger.at);
        free(block.at);
        fclose(file);
    }
    if (status == 2) fprintf(stderr, "replay: %s: no verdict\n", name);
    return status;
}

int main(int count, char **names) {
    int worst = 0;
    for (int i = 1; i < count; i++) {
        int status = replay_file(names[i]);
        if (status > worst) worst = status;
    }
    return worst;
}
