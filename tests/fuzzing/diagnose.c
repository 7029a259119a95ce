/* avm_c_diagnose: bytes are what a status says that they are not exactly where the function that gives the status takes them; the fault
   and its place are those that commands print for the same bytes, that the functions beside them give, and that are read here apart
   from the library. The first byte of an input chooses the status. */
#include "listings.h"
#include "made.h"
#include "sha256.h"

#include <stdio.h>
#include <string.h>

enum { KINDS_OF_BYTES = 8, MOST_INPUT = 1 << 14 };

static const char *const rules[] = {"", "Version", "Length", "", "OutOfProfile", "Backward", "NotAligned", "PastEnd", "Cost",
                                    "UnknownField"};
static const char *const codes[] = {"", "UnknownOp", "Truncated", "BadVaruint"};
static const char *const sources[] = {"", "Text", "NoPragma", "Version", "UnknownName", "Operands", "BadNumber", "BadBytes", "LabelTwice",
                                      "LabelMissing", "LabelBehind", "TooManyConstants", "MixedBlock", "TooLong"};
static const char *const ledgers[] = {"", "Malformed", "Truncated", "Rest"};
static const char *const blocks[] = {"", "Magic", "Format", "Truncated", "Rest", "Order", "Field", "Digest"};
#define NAME(names, number) \
    (demand((number) > 0 && (number) < sizeof names / sizeof *names, "a fault has no such number"), names[number])

static uint8_t digits[2 * MOST_INPUT + 2 * EMPTY_BLOCK + 8];

/* The command refuses the input by this line. */
static void look_at_line(const char *command, struct bytes input, const char *wanted) {
    static struct answer answer;
    demand(asked(bytes_of(command, strlen(command)), input, &answer) == AVM_REFUSED, "the command takes what is diagnosed");
    demand(are_same(answered(&answer), bytes_of(wanted, strlen(wanted))), "the command names another fault");
}

static void look_at_text(struct bytes text) {
    static struct answer answer, found;
    char line[64] = "refused input\n";
    uint32_t status = assembled(text, &answer), told = diagnosed(AVM_NOT_ASSEMBLED, text, &found);
    demand(status == told, "assemble says otherwise");
    if (told == AVM_DONE) return;
    const struct avm_trouble *it = &found.trouble;
    demand(it->code == 0 && (told != AVM_NO_TEXT || (it->place == 0 && it->number == 0)), "a text has a fault that it should not");
    if (told == AVM_NOT_ASSEMBLED) {
        size_t lines = 1;
        for (size_t i = 0; i < text.length; i++) lines += text.at[i] == '\n' || text.at[i] == '\r';
        demand(it->place >= 1 && it->place <= lines, "a text has no such line");
        snprintf(line, sizeof line, "refused asm %zu %s\n", (size_t)it->place, NAME(sources, it->number));
        note(NAMES, 4200 + it->number);
    }
    look_at_line("asm", text, line);
}

/* Where the first instruction stands that was not read. */
static size_t stopped_at(const struct program *program) {
    size_t place = 0;
    if (program->count > 0) return program->at[program->count - 1].next;
    while (place < program->bytes.length && program->bytes.at[place] >= 128) place++;
    return place + 1;
}

/* The rule is one that the bytes break as they are read here: of the whole, of the first instruction that is none, or of a branch. */
static void look_at_rule(struct bytes bytes, const struct avm_trouble *it) {
    static struct program program;
    bool keeps_all = read_program(bytes, &program), is_length = bytes.length == 0 || bytes.length > MOST_BYTES;
    demand(!keeps_all || (program.cost > MOST_COST && it->number == AVM_RULE_COST), "a rule is said to be broken that is kept");
    demand((it->number == AVM_RULE_LENGTH) == is_length, "the length is said to be wrong, or right");
    bool is_whole = it->number == AVM_RULE_LENGTH || it->number == AVM_RULE_VERSION || it->number == AVM_RULE_COST;
    bool is_branch = it->number >= AVM_RULE_BACKWARD && it->number <= AVM_RULE_PAST_END;
    demand(!is_whole || it->place == 0, "a rule of the whole has a place");
    if (is_branch) {
        const struct instruction *at = instruction_at(&program, it->place);
        demand(stopped_at(&program) >= bytes.length && at && at->row->shape == OFFSET, "no branch stands there");
    } else if (!is_whole && it->place > 0) {
        demand(it->place == stopped_at(&program), "another instruction is none");
    }
}

static void look_at_program(struct bytes bytes) {
    static struct answer answer, found;
    char line[64], place[32] = "";
    struct call check = {CHECK, bytes, bytes_of("", 0), 0, 0, {NULL, 0}};
    uint32_t status = called(check, &answer), told = diagnosed(AVM_NO_PROGRAM, bytes, &found);
    demand(status == told, "check says otherwise");
    if (told == AVM_DONE) return;
    const struct avm_trouble *it = &found.trouble;
    bool is_code = it->number == AVM_RULE_CODE;
    demand(is_code == (it->code != 0), "a fault of code, or none, that should not be");
    look_at_rule(bytes, it);
    bool is_whole = it->number == AVM_RULE_LENGTH || it->number == AVM_RULE_VERSION || it->number == AVM_RULE_COST;
    if (!is_whole) snprintf(place, sizeof place, " %zu", (size_t)it->place);
    snprintf(line, sizeof line, "refused check %s%s\n", is_code ? NAME(codes, it->code) : NAME(rules, it->number), place);
    note(NAMES, 4300 + it->number * 4 + it->code);
    if (bytes.length > 0) look_at_line("check", bytes_of(digits, hex_of(bytes, digits)), line);
}

/* Lines of digits of a ledger and a block. */
static struct bytes lines_of(struct bytes ledger, struct bytes block) {
    size_t length = hex_of(ledger, digits);
    return bytes_of(digits, length + hex_of(block, digits + length));
}

static void look_at_ledger(struct bytes bytes) {
    static struct answer answer, found;
    static struct parts parts;
    static uint8_t room[EMPTY_BLOCK];
    char line[64];
    uint32_t status = replayed(bytes, empty_block(bytes, room), &answer), told = diagnosed(AVM_NO_LEDGER, bytes, &found);
    demand((status == AVM_NO_LEDGER) == (told == AVM_NO_LEDGER), "replay says otherwise");
    bool is_read = read_ledger(bytes, &parts);
    if (told == AVM_DONE) return demand(is_read || parts.application_count == MOST_APPLICATIONS, "a ledger is read by the library alone");
    const struct avm_trouble *it = &found.trouble;
    demand(it->place == 0 && it->code == 0, "a ledger has a fault at a place");
    if (parts.application_count < MOST_APPLICATIONS) {
        /* The library has rules that are not read here: it may stop before. */
        demand(it->number != AVM_LEDGER_TRUNCATED || parts.ends.is_short, "a ledger is not cut short");
        demand(it->number != AVM_LEDGER_REST || parts.ends.has_rest, "a ledger has no rest");
    }
    snprintf(line, sizeof line, "refused ledger %s\n", NAME(ledgers, it->number));
    note(NAMES, 4400 + it->number);
    if (bytes.length > 0) look_at_line("replay", lines_of(bytes, bytes_of(room, EMPTY_BLOCK)), line);
}

static void look_at_block(struct bytes bytes) {
    static struct answer answer, found;
    static struct parts parts;
    static const uint8_t empty[16] = {0, 0, 0, 0, 0, 0, 0, 1};
    char line[64];
    struct bytes ledger = bytes_of(empty, sizeof empty);
    uint32_t status = replayed(ledger, bytes, &answer), told = diagnosed(AVM_NO_BLOCK, bytes, &found);
    demand((status == AVM_NO_BLOCK) == (told == AVM_NO_BLOCK), "replay says otherwise");
    bool is_read = read_block(bytes, &parts), is_whole = parts.entry_count < MOST_ENTRIES;
    if (told == AVM_DONE) return demand(is_read || !is_whole, "a block is read by the library alone");
    const struct avm_trouble *it = &found.trouble;
    demand(it->place == 0 && it->code == 0, "a block has a fault at a place");
    bool is_magic = bytes.length >= 4 && memcmp(bytes.at, "AVMB", 4) != 0;
    demand((it->number == AVM_BLOCK_MAGIC) == is_magic, "the letters are said to be wrong, or right");
    if (is_whole) {
        demand(it->number != AVM_BLOCK_TRUNCATED || parts.ends.is_short, "a block is not cut short");
        demand(it->number != AVM_BLOCK_REST || parts.ends.has_rest, "a block has no rest");
        demand(it->number != AVM_BLOCK_DIGEST || is_read, "a block without a digest has a wrong one");
    }
    snprintf(line, sizeof line, "refused block %s\n", NAME(blocks, it->number));
    note(NAMES, 4500 + it->number);
    if (bytes.length > 0) look_at_line("replay", lines_of(ledger, bytes), line);
}

/* A call alone, as the only one of a list, and in an attempt. */
static void look_at_call(struct bytes bytes) {
    static struct answer answer, found;
    static uint8_t list[MOST_INPUT + 4];
    static const uint8_t header[HEADER], one[] = {0, 0, 0, 1}, empty[16] = {0, 0, 0, 0, 0, 0, 0, 1};
    memcpy(list, one, sizeof one);
    memcpy(list + sizeof one, bytes.at, bytes.length);
    uint32_t told = diagnosed(AVM_NO_CALL, bytes, &found), number = told == AVM_NO_CALL ? found.trouble.number : 0;
    uint32_t status = attempted(bytes_of(header, HEADER), bytes, bytes_of(one, 0), &answer);
    demand(status == (told == AVM_DONE ? AVM_NO_ITEMS : AVM_NO_CALL) && answer.end.number == number, "attempt says otherwise");
    status = proposed(bytes_of(empty, sizeof empty), bytes_of(header, HEADER), bytes_of(list, sizeof one + bytes.length), &answer);
    demand((status == AVM_NO_CALL) == (told == AVM_NO_CALL), "propose says otherwise");
    if (told == AVM_DONE) return;
    demand(found.trouble.place == 0 && found.trouble.code == 0 && is_call_fault(number), "a call has no such fault");
    /* In a list a call ends before what is a rest alone, and its rules are tested there. */
    const struct avm_trouble *it = &answer.trouble;
    bool is_rest = number == AVM_CALL_REST && it->place == 0 && it->number == number;
    bool is_rule = number == AVM_CALL_REST && it->place == 1 && it->number >= AVM_CALL_ACCOUNTS;
    bool is_same = number != AVM_CALL_REST && it->place == 1 && it->number == number;
    demand(is_rest || is_rule || is_same, "propose has another fault");
    note(NAMES, 4600 + number);
}

static void look_at_items(struct bytes bytes) {
    static struct answer found;
    static struct table table;
    uint32_t told = diagnosed(AVM_NO_ITEMS, bytes, &found);
    bool are_items = read_items(bytes, &table);
    demand((told == AVM_DONE) == are_items, "items are read otherwise by the library");
    if (are_items) return;
    uint32_t wanted = table.ends.is_short ? AVM_LEDGER_TRUNCATED : table.ends.has_rest ? AVM_LEDGER_REST : AVM_LEDGER_MALFORMED;
    demand(found.trouble.number == wanted && found.trouble.place == 0 && found.trouble.code == 0, "items have another fault");
    note(NAMES, 4700 + wanted);
}

static void look_at_header(struct bytes bytes) {
    static struct answer found;
    uint32_t told = diagnosed(AVM_NO_HEADER, bytes, &found);
    demand(told == (bytes.length == HEADER ? AVM_DONE : AVM_NO_HEADER), "a header is not of 40 bytes");
    demand(told == AVM_DONE || (found.trouble.place == 0 && found.trouble.number == 0 && found.trouble.code == 0), "a header has a fault");
}

static void look_at_other(uint32_t status, struct bytes bytes) {
    static struct answer found;
    bool is_said = status == AVM_NO_TEXT || status == AVM_NOT_ASSEMBLED || status == AVM_NO_PROGRAM || status == AVM_NO_LEDGER ||
                   status == AVM_NO_BLOCK || status == AVM_NO_HEADER || status == AVM_NO_CALL || status == AVM_NO_ITEMS;
    demand((diagnosed(status, bytes, &found) == AVM_USAGE) == !is_said, "a status says something of bytes that should not, or nothing");
}

int LLVMFuzzerTestOneInput(const uint8_t *at, size_t length) {
    if (length < 1 || length > MOST_INPUT) return 0;
    struct bytes bytes = bytes_of(at + 1, length - 1);
    switch (at[0] % KINDS_OF_BYTES) {
    case 0: look_at_text(bytes); break;
    case 1: look_at_program(bytes); break;
    case 2: look_at_ledger(bytes); break;
    case 3: look_at_block(bytes); break;
    case 4: look_at_call(bytes); break;
    case 5: look_at_items(bytes); break;
    case 6: look_at_header(bytes); break;
    default: look_at_other(at[0] / KINDS_OF_BYTES, bytes);
    }
    return 0;
}
