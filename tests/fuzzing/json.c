/* avm_c_json: a command answers one line that refuses, or JSON, lines of digits or a page; the same with just as much room as is
   wanted, and nothing with less. What `show` writes of a ledger and a block is read by `lines`. The first byte of an input chooses the
   words and how the rest is handed over: as it is, or as the digits of a ledger and a block. */
#include "blocks.h"
#include "listings.h"

#include <string.h>

enum { COMMANDS = 8, AS_DIGITS = 8, WORDS = 16, MOST_INPUT = 1 << 14, DEEPEST = 64 };

static const struct {
    const char *at;
    size_t length;
} commands[COMMANDS] = {{"show", 4}, {"lines", 5}, {"run", 3}, {"trace", 5}, {"trace\0--entry=2", 15}, {"page", 4},
                        {"page\0--entry=1", 14}, {"trace\0--entry=1", 15}};

static uint32_t answer_to(struct bytes words, struct bytes input, struct answer *answer) {
    struct call call = {JSON, words, input, 0, 0, {NULL, 0}};
    return called(call, answer);
}

/* ---- JSON (RFC 8259), as far as a text of the library is written */

static void skip_spaces(struct bytes *text) {
    while (text->length > 0 && (*text->at == ' ' || *text->at == '\n')) text->at++, text->length--;
}

static bool skip(struct bytes *text, const char *word) {
    size_t length = strlen(word);
    skip_spaces(text);
    if (text->length < length || memcmp(text->at, word, length)) return false;
    text->at += length, text->length -= length;
    return true;
}

static bool skip_string(struct bytes *text) {
    if (!skip(text, "\"")) return false;
    for (; text->length > 0 && *text->at >= ' '; text->at++, text->length--) {
        if (*text->at == '"') return skip(text, "\"");
        if (*text->at != '\\') continue;
        text->at++, text->length--;
        if (text->length == 0 || !strchr("\"\\/bfnrtu", *text->at)) return false;
    }
    return false;
}

static bool skip_number(struct bytes *text) {
    const uint8_t *begin = text->at;
    while (text->length > 0 && *text->at >= '0' && *text->at <= '9') text->at++, text->length--;
    return text->at > begin;
}

static bool skip_value(struct bytes *text, int depth) {
    bool is_object = skip(text, "{");
    if (is_object || skip(text, "[")) {
        const char *end = is_object ? "}" : "]";
        if (skip(text, end)) return true;
        do {
            if (is_object && (!skip_string(text) || !skip(text, ":"))) return false;
            if (depth == 0 || !skip_value(text, depth - 1)) return false;
        } while (skip(text, ","));
        return skip(text, end);
    }
    return skip(text, "true") || skip(text, "false") || skip(text, "null") || skip_string(text) || skip_number(text);
}

static bool is_json(struct bytes text) {
    if (!skip_value(&text, DEEPEST)) return false;
    skip_spaces(&text);
    return text.length == 0;
}

/* ---- answers */

static bool is_line(struct bytes text) {
    const uint8_t *end = text.length ? memchr(text.at, '\n', text.length) : NULL;
    return end && (size_t)(end - text.at) == text.length - 1;
}

static bool are_digits(struct bytes text) {
    for (size_t i = 0; i < text.length; i++) {
        if (!strchr("0123456789abcdef\n", text.at[i]) || text.at[i] == 0) return false;
    }
    return text.length > 0 && text.at[text.length - 1] == '\n';
}

static bool begins(struct bytes text, const char *with) {
    return text.length >= strlen(with) && memcmp(text.at, with, strlen(with)) == 0;
}

static void look_at_answer(struct bytes words, struct bytes text) {
    if (begins(words, "lines")) demand(are_digits(text), "`lines` writes no lines of digits");
    else if (begins(words, "page")) demand(begins(text, "<!DOCTYPE html>\n"), "`page` writes no page");
    else demand(is_json(text), "what is written is no JSON");
}

/* Every room from none to more than is wanted, but for some between. */
static void look_at_rooms(struct bytes words, struct bytes input, const struct answer *wanted) {
    static struct answer found;
    struct call call = {JSON, words, input, 0, 0, {NULL, 0}};
    const size_t rooms[] = {0, 1, wanted->written / 2, wanted->written - 1, wanted->written};
    for (size_t i = 0; i < sizeof rooms / sizeof *rooms; i++) {
        clear(&found);
        make(&call, &found, rooms[i]);
        bool fits = rooms[i] >= wanted->written;
        demand(found.written == wanted->written, "another size is wanted with other room");
        demand(found.status == (fits ? wanted->status : AVM_NO_ROOM), "room is said to be enough, or not");
        size_t filled = fits ? wanted->written : 0;
        demand(memcmp(found.room, wanted->room, filled) == 0 && found.room[filled] == MARK, "another answer with other room");
    }
}

/* What `show` writes of a ledger and a block has lines, with as many calls as the block. */
static void look_at_shown(struct bytes shown, const struct pair *pair) {
    static struct answer answer;
    static struct parts parts;
    uint32_t status = answer_to(bytes_of("lines", 5), shown, &answer);
    if (status == AVM_NO_ROOM || !read_block(pair->block, &parts)) return;
    demand(status == AVM_DONE, "what `show` writes has no lines");
    size_t lines = 0;
    for (size_t i = 0; i < answer.written; i++) lines += answer.room[i] == '\n';
    demand(lines == 2 + parts.entry_count, "what `show` writes has more lines or fewer");
}

static void look_at(struct bytes words, struct bytes input, const struct pair *pair) {
    static struct answer answer;
    uint32_t status = answer_to(words, input, &answer);
    demand(status <= AVM_USAGE || status == AVM_NO_ROOM, "a command has another status");
    if (status == AVM_NO_ROOM) return;
    struct bytes text = answered(&answer);
    if (status == AVM_DONE) look_at_answer(words, text);
    if (status == AVM_REFUSED) demand(begins(text, "refused ") && is_line(text), "a refusal is no line");
    if (status == AVM_REFUSED) note(NAMES, hash_of(text.at, strcspn((const char *)text.at, "#0123456789\n")));
    if (status == AVM_USAGE) demand(begins(text, "usage: avm_json ") && is_line(text), "the usage line is another");
    look_at_rooms(words, input, &answer);
    if (pair && status == AVM_DONE && words.length == 4 && begins(words, "show")) look_at_shown(text, pair);
}

int LLVMFuzzerTestOneInput(const uint8_t *at, size_t length) {
    static uint8_t digits[2 * MOST_INPUT + 8];
    if (length < 1 || length > MOST_INPUT) return 0;
    struct bytes rest = bytes_of(at + 1, length - 1);
    struct bytes words = bytes_of(commands[at[0] % COMMANDS].at, commands[at[0] % COMMANDS].length);
    if ((at[0] & WORDS) && rest.length > 0 && (size_t)rest.at[0] + 1 <= rest.length) {
        look_at(bytes_of(rest.at + 1, rest.at[0]), bytes_of(rest.at + 1 + rest.at[0], rest.length - 1 - rest.at[0]), NULL);
    } else if (at[0] & AS_DIGITS) {
        struct pair pair = pair_of(rest.at, rest.length);
        size_t front = hex_of(pair.ledger, digits);
        look_at(words, bytes_of(digits, front + hex_of(pair.block, digits + front)), &pair);
    } else {
        look_at(words, rest, NULL);
    }
    return 0;
}
