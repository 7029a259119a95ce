/* avm_c_answer: a command says what the function of its own says. The first byte of an input chooses the words and how the rest
   is handed over: as it is, or as the digits of a program or of a ledger and a block. */
#include "blocks.h"
#include "listings.h"

#include <string.h>

enum { COMMANDS = 7, AS_DIGITS = 8, WORDS = 16, MOST_INPUT = 1 << 14 };

struct words {
    const char *at;
    size_t length;
};

static const struct words commands[COMMANDS] = {
    {"asm", 3}, {"dis", 3}, {"check", 5}, {"replay", 6}, {"state\0--at\0" "2", 12}, {"debug\0--entry\0" "2\0--steps\0" "3", 25},
    {"propose\0--workers\0" "2", 19}};

static uint8_t digits[2 * MOST_INPUT + 8];

/* Lines of digits for the rest of an input. */
static struct bytes digits_of(unsigned command, struct bytes rest, const struct pair *pair) {
    if (command < 3) return bytes_of(digits, hex_of(rest, digits));
    size_t length = hex_of(pair->ledger, digits);
    return bytes_of(digits, length + hex_of(pair->block, digits + length));
}

/* The answer of a program's command is the function's. */
static void compare_program(unsigned command, struct bytes program, const struct answer *found) {
    static struct answer answer;
    struct call call = {CHECK, program, bytes_of("", 0), 0, 0, {NULL, 0}};
    uint32_t status = command == 1 ? listed(program, &answer) : called(call, &answer);
    demand((found->status == AVM_DONE) == (status == AVM_DONE), "a command on a program says otherwise");
    bool is_listing = command == 1 && status == AVM_DONE;
    demand(!is_listing || memcmp(answer.room, found->room, sizeof answer.room) == 0, "the command `dis` lists otherwise");
}

/* What a command writes where the function has this status. */
static const char *text_of(unsigned command, uint32_t status) {
    switch (status) {
    case AVM_NO_LEDGER: return "refused ledger ";
    case AVM_NO_BLOCK: return "refused block ";
    case AVM_WRONG_BASE: return command == 3 ? "wrong base\n" : command == 4 ? "refused state WrongBase\n" : "refused debug WrongBase\n";
    case AVM_WRONG_OUTCOME: return "wrong outcome ";
    case AVM_WRONG_STATE: return "wrong state\n";
    case AVM_NO_ENTRY: return "refused debug NoEntry\n";
    case AVM_NO_RUN: return "refused debug NoProgram\n";
    case AVM_ENDED: return "refused debug Ended\n";
    default: return "";
    }
}

static void compare_block(unsigned command, const struct pair *pair, const struct answer *found) {
    static struct answer answer;
    static uint8_t line[2 * ROOM + 1];
    uint32_t status = command == 3   ? replayed(pair->ledger, pair->block, &answer)
                      : command == 4 ? state_at(pair->ledger, pair->block, 2, &answer)
                                     : viewed(pair->ledger, pair->block, 2, 3, &answer);
    if (found->status == AVM_NO_ROOM || status == AVM_NO_ROOM) return;
    demand((found->status == AVM_DONE) == (status == AVM_DONE), "a command on a block says otherwise");
    struct bytes text = bytes_of(found->room, found->written);
    if (status != AVM_DONE) {
        const char *wanted = text_of(command, status);
        /* A line without digits is none. */
        bool are_lines = pair->ledger.length > 0 && pair->block.length > 0;
        demand(!are_lines || (text.length >= strlen(wanted) && memcmp(text.at, wanted, strlen(wanted)) == 0), "another reason");
        return;
    }
    if (command == 3) {
        memcpy(line, "agrees ", 7);
        demand(are_same(text, bytes_of(line, 7 + hex_of(bytes_of(answer.digest, DIGEST), line + 7))), "another digest");
    } else if (command == 4) {
        demand(are_same(text, bytes_of(line, hex_of(answered(&answer), line))), "the command `state` gives another ledger");
    } else {
        demand(are_same(text, answered(&answer)), "the command `debug` gives another view");
    }
}

/* Words as they are: no status but these. */
static void look_at_words(struct bytes rest) {
    static struct answer answer;
    size_t length = rest.length > 0 ? rest.at[0] : 0;
    if (length + 1 > rest.length) return;
    uint32_t status = asked(bytes_of(rest.at + 1, length), bytes_of(rest.at + 1 + length, rest.length - 1 - length), &answer);
    demand(status <= AVM_USAGE || status == AVM_PROPOSE || status == AVM_NO_ROOM, "answer has another status");
    bool is_propose = length >= 7 && memcmp(rest.at + 1, "propose", 7) == 0;
    demand(status != AVM_PROPOSE || is_propose, "other words are said to be `propose`");
    demand(status != AVM_USAGE || (answer.written > 10 && memcmp(answer.room, "usage: avm ", 11) == 0), "the usage line is another");
}

int LLVMFuzzerTestOneInput(const uint8_t *at, size_t length) {
    static struct answer answer;
    if (length < 1 || length > MOST_INPUT) return 0;
    struct bytes rest = bytes_of(at + 1, length - 1);
    unsigned command = at[0] % 8 % COMMANDS;
    if (at[0] & WORDS) {
        look_at_words(rest);
        return 0;
    }
    struct pair pair = pair_of(rest.at, rest.length);
    bool as_digits = (at[0] & AS_DIGITS) && command > 0;
    struct bytes input = as_digits ? digits_of(command, rest, &pair) : rest;
    uint32_t status = asked(bytes_of(commands[command].at, commands[command].length), input, &answer);
    demand((status == AVM_PROPOSE) == (command == 6), "`propose` is said to be a command, or another command is not");
    demand(status == AVM_PROPOSE || status == AVM_NO_ROOM || status <= AVM_REFUSED, "a command has another status");
    if (!as_digits || command == 6) return 0;
    if (command < 3) compare_program(command, rest, &answer);
    else compare_block(command, &pair, &answer);
    return 0;
}
