/* The Algorand Virtual Machine in your own process: programs are checked, assembled and listed; blocks are replayed, and calls in
   them are stepped through. Link with libavm_c.a and with the kit's liblibc_c.a, which hands growth on to malloc.

   The library starts no thread, opens no file, and keeps nothing between calls: what a call answers is decided by the bytes
   that it is given, unless memory is refused. What is said below of statuses, of answers and of what is written is proved, by
   the contracts of crates/avm_c/src/lib.rt, which cite the definitions of the commands of the program `avm`.

   docs/FORMATS.md has the bytes of ledgers, items, headers, calls and blocks, field by field; avm_names.h the names of the numbers below.

   What a caller owes
   - Bytes are a pointer and then their number. No pointer is null, also of no bytes and of no room. An empty std::vector or Go
     slice may have a null pointer, so where a length may be 0, write
         avm_c_check(length ? bytes : (const uint8_t *)"", length)
     and for no room the address of any byte of your own.
   - What a call writes to overlaps nothing else that it is given, and nobody else reads or writes it during the call. What a
     call only reads may be shared, also by calls in other threads at once.
   - A thread that makes a call has 524,288 bytes of stack left for it (measured, not proved). Threads of musl have 128 KiB where
     pthread_attr_setstacksize does not say otherwise; give it 1 MiB, say.
   - malloc, realloc and free are of one allocator. No call is made in a signal handler, nor in the forked child of a process
     that has threads.

   How an answer is lent room
   - A function that answers bytes takes room for them, and a place for their number, `written`.
   - AVM_DONE (of avm_c_answer and avm_c_json: 0, 1 and 2; of avm_c_attempt AVM_NEEDS too): the answer stands at the beginning of
     the room, `written` is how many bytes it has, and the room behind them is as it was.
   - AVM_NO_ROOM: the answer is longer than the room. `written` is how many bytes are wanted, and the room is as it was. A call
     with room for no bytes thus asks for the size.
   - Any other status: `written` is 0, and the room is as it was. */
#ifndef AVM_H
#define AVM_H

#include <stddef.h>
#include <stdint.h>

#ifdef __cplusplus
extern "C" {
#endif

/* What a call says: a number has one meaning, whatever function gives it. 0 to 3 are the exit statuses of the command line. */
enum avm_status {
    AVM_DONE = 0,           /* It was done: the bytes are a program, the block agrees, the answer was written. */
    AVM_REFUSED = 1,        /* The command refuses its input, and the answer says why. Of avm_c_answer and avm_c_json alone. */
    AVM_USAGE = 2,          /* The words are no command, and the answer is the usage line. Of these two, and of avm_c_diagnose. */
    AVM_MEMORY = 3,         /* Memory was refused. Nothing was written, but for a 0 in `written`. */
    AVM_NO_ROOM = 4,        /* The answer is longer than the room. */
    AVM_PROPOSE = 5,        /* The words are `propose`, which takes threads: no command here. Of avm_c_answer alone. */
    AVM_NO_TEXT = 6,        /* The text is not UTF-8. */
    AVM_NOT_ASSEMBLED = 7,  /* The text has a fault, as source text. */
    AVM_NO_PROGRAM = 8,     /* The bytes break a rule of programs. */
    AVM_NO_LEDGER = 9,      /* The bytes are no ledger. */
    AVM_NO_BLOCK = 10,      /* The ledger's bytes are one, the block's are no block. */
    AVM_WRONG_BASE = 11,    /* The block stands over another ledger. */
    AVM_WRONG_OUTCOME = 12, /* An entry's call ends otherwise than the entry says. */
    AVM_WRONG_STATE = 13,   /* All calls end as the block says, and the ledger after them has another digest. */
    AVM_NO_ENTRY = 14,      /* The block has no entry of this number. */
    AVM_NO_RUN = 15,        /* No program runs in the entry's call: it is refused, or clears what is left of a gone application. */
    AVM_ENDED = 16,         /* The program ends before so many steps. */
    AVM_NEEDS = 17,         /* The call looks at an item that is not known: it was written. Of avm_c_attempt alone. */
    AVM_NO_HEADER = 18,     /* The bytes are no header. */
    AVM_NO_CALL = 19,       /* The header's bytes are one, the others are no call or no calls, or break a rule of calls. */
    AVM_NO_ITEMS = 20,      /* The header's and the call's bytes are one, the others are no items with their values. */
    AVM_TOO_LONG = 21       /* The trace has more than 67,108,864 bytes. Of avm_c_trace alone. */
};

/* How a call ends. */
enum avm_ending {
    AVM_APPROVED = 0,        /* The program approved. */
    AVM_REJECTED = 1,        /* The program rejected. */
    AVM_FAULTED = 2,         /* `number` is the fault's, `place` the place of its instruction. */
    AVM_CALL_REFUSED = 3,    /* No program ran; `number` is the reason's. */
    AVM_CLEARED_GONE = 4,    /* The sender's local state was cleared: the application is gone, */
    AVM_CLEARED_REJECTED = 5,/* or its clear state program rejected, */
    AVM_CLEARED_FAULTED = 6  /* or faulted, as `number` and `place` say. */
};

/* What stops a program: the numbers that stand in `struct avm_difference` and in the bytes of outcomes. */
enum avm_fault {
    AVM_FAULT_ERR = 1,           /* `err` was executed. */
    AVM_FAULT_UNDERFLOW = 2,     /* The stack has fewer values than the instruction takes. */
    AVM_FAULT_WRONG_TYPE = 3,    /* An operand is of another type than the instruction takes. */
    AVM_FAULT_COMPARE = 4,       /* Two values of different types were compared. */
    AVM_FAULT_OVERFLOW = 5,      /* A result is above 2^64 - 1. */
    AVM_FAULT_NEGATIVE = 6,      /* A difference is below 0. */
    AVM_FAULT_DIV_ZERO = 7,      /* A divisor is 0. */
    AVM_FAULT_TOO_LONG = 8,      /* A byte string is longer than is allowed where it goes. */
    AVM_FAULT_RANGE = 9,         /* An index or a range lies outside its operand. */
    AVM_FAULT_BTOI_LENGTH = 10,  /* `btoi` was given more than 8 bytes. */
    AVM_FAULT_STACK_FULL = 11,   /* More than 1000 values would stand on the stack. */
    AVM_FAULT_NO_CONSTANT = 12,  /* The constant block in force has no such constant. */
    AVM_FAULT_BAD_FIELD = 13,    /* The field has no value in this profile. */
    AVM_FAULT_NO_TXN = 14,       /* The group has no such transaction. */
    AVM_FAULT_NO_ARG = 15,       /* The call has no such argument. */
    AVM_FAULT_NO_ACCOUNT = 16,   /* The call has no such account. */
    AVM_FAULT_NO_FOREIGN = 17,   /* The call has no such foreign application. */
    AVM_FAULT_NOT_OPTED_IN = 18, /* The account has no local state of the application. */
    AVM_FAULT_NO_SUCH_APP = 19,  /* The application doesn't exist. */
    AVM_FAULT_SCHEMA = 20,       /* The state would have more entries than its schema allows. */
    AVM_FAULT_KEY_LENGTH = 21,   /* A key is longer than 64 bytes. */
    AVM_FAULT_FINAL_DEPTH = 22,  /* The program ended with other than one value on the stack. */
    AVM_FAULT_FINAL_BYTES = 23,  /* The program ended with a byte string on the stack. */
    AVM_FAULT_ASSERT = 24        /* `assert` was given 0. */
};

/* Why a call is refused before its program runs, likewise. */
enum avm_why {
    AVM_WHY_NO_APP = 1,     /* The application is gone. */
    AVM_WHY_ALREADY_IN = 2, /* The sender is opted in already. */
    AVM_WHY_NOT_IN = 3,     /* The sender isn't opted in. */
    AVM_WHY_IDS_END = 4     /* No id is left for a creation. */
};

/* Why bytes are no call, or no calls of a block: the numbers that stand in `struct avm_end` and `struct avm_trouble` with AVM_NO_CALL. First
   faults of the bytes, then rules of calls, then those of all calls of a block. */
enum avm_call_fault {
    AVM_CALL_FIELD = 1,            /* A field breaks a limit. */
    AVM_CALL_TRUNCATED = 2,        /* The bytes end inside a field. */
    AVM_CALL_REST = 3,             /* Bytes follow the last field. */
    AVM_CALL_ACCOUNTS = 17,        /* More than 4 accounts. */
    AVM_CALL_ARGS = 18,            /* More than 16 arguments. */
    AVM_CALL_ARG_BYTES = 19,       /* Arguments of more than 2048 bytes in all. */
    AVM_CALL_FOREIGN = 20,         /* More than 2 foreign applications. */
    AVM_CALL_PROGRAMS_MISSING = 21,/* A creation or an update lacks a program. */
    AVM_CALL_PROGRAMS_GIVEN = 22,  /* Another call brings a program. */
    AVM_CALL_SCHEMA_SIZE = 23,     /* A schema is too large, or stands in a call that creates nothing. */
    AVM_CALL_CLEAR_ON_CREATE = 24, /* A creation clears state. */
    AVM_CALL_PROGRAM = 25,         /* A program breaks a rule of programs. */
    AVM_CALL_NOTE = 26,            /* A note of more than 1024 bytes. */
    AVM_CALL_TOO_MANY = 33,        /* More than 4096 calls. */
    AVM_CALL_PROFILE = 34          /* The call needs a newer profile than the header's. No call of this version does. */
};

/* What is wrong with bytes: the numbers that avm_c_diagnose gives. First which rule of programs they break. */
enum avm_rule {
    AVM_RULE_VERSION = 1,        /* The version is neither 2 nor 3. */
    AVM_RULE_LENGTH = 2,         /* There are no bytes, or more than 1024. */
    AVM_RULE_CODE = 3,           /* No instruction is read at the place, or no version at place 0. */
    AVM_RULE_OUT_OF_PROFILE = 4, /* The opcode is one of the public table that this machine leaves out. */
    AVM_RULE_BACKWARD = 5,       /* A branch's offset is above 32767, in the public encoding a backward branch. */
    AVM_RULE_NOT_ALIGNED = 6,    /* A branch's target is neither an instruction's place nor the end. */
    AVM_RULE_PAST_END = 7,       /* A branch's target lies behind the end. */
    AVM_RULE_COST = 8,           /* The costs of the instructions add up to more than 700. */
    AVM_RULE_UNKNOWN_FIELD = 9   /* The opcode has no such field. */
};

/* Why no instruction is read, beside AVM_RULE_CODE. */
enum avm_code_fault {
    AVM_CODE_UNKNOWN_OP = 1, /* The byte is no opcode of the program's version. */
    AVM_CODE_TRUNCATED = 2,  /* The bytes end before the instruction does. */
    AVM_CODE_BAD_VARUINT = 3 /* A varuint has more than ten bytes, or a number of more than 64 bits. */
};

/* Why a text has no meaning. */
enum avm_asm_fault {
    AVM_ASM_TEXT = 1,                /* A string or its escapes. */
    AVM_ASM_NO_PRAGMA = 2,           /* The first line with a token doesn't begin with `#pragma`. */
    AVM_ASM_VERSION = 3,             /* The pragma names another version than 2 and 3, or stands in a later line. */
    AVM_ASM_UNKNOWN_NAME = 4,        /* No instruction or field of the version has the name. */
    AVM_ASM_OPERANDS = 5,            /* The instruction takes another number of operands, or another kind of field. */
    AVM_ASM_BAD_NUMBER = 6,          /* An operand is no number, or is too large for its place. */
    AVM_ASM_BAD_BYTES = 7,           /* An operand is no byte literal, or no address. */
    AVM_ASM_LABEL_TWICE = 8,         /* An earlier line has the same label. */
    AVM_ASM_LABEL_MISSING = 9,       /* No line has the label that a branch names. */
    AVM_ASM_LABEL_BEHIND = 10,       /* A branch names a label that stands at or before it. */
    AVM_ASM_TOO_MANY_CONSTANTS = 11, /* The constants that are gathered are more than 256 of a kind. */
    AVM_ASM_MIXED_BLOCK = 12,        /* A constant is gathered beside an explicit block of its kind. */
    AVM_ASM_TOO_LONG = 13            /* The program has more than 1024 bytes. */
};

/* Why bytes are no ledger, or no items with their values. docs/FORMATS.md says when each comes. */
enum avm_ledger_fault {
    AVM_LEDGER_MALFORMED = 1, /* A field breaks a limit. */
    AVM_LEDGER_TRUNCATED = 2, /* The bytes end inside a field. */
    AVM_LEDGER_REST = 3       /* Bytes follow the last field. */
};

/* Why bytes are no block. */
enum avm_block_fault {
    AVM_BLOCK_MAGIC = 1,     /* The bytes don't begin with `AVMB`. */
    AVM_BLOCK_FORMAT = 2,    /* The number of the format is neither 1 nor 2. */
    AVM_BLOCK_TRUNCATED = 3, /* The bytes end inside a field. */
    AVM_BLOCK_REST = 4,      /* Bytes follow the last field. */
    AVM_BLOCK_ORDER = 5,     /* A timestamp is 0, or not above the one before. */
    AVM_BLOCK_FIELD = 6,     /* A field breaks a limit, or a call a rule of calls. */
    AVM_BLOCK_DIGEST = 7     /* The last digest is wrong. */
};

/* The first entry of a block whose call ends otherwise than the entry says, and how it ends. Fields of which an ending says nothing
   are 0. */
struct avm_difference {
    uint64_t entry;  /* the entry's number, counted from 1 */
    uint32_t ending; /* one of enum avm_ending */
    uint32_t number; /* of enum avm_fault where a program faulted, of enum avm_why where the call was refused */
    uint32_t place;  /* in bytes from the program's beginning */
};

/* How a call ends. Fields of which an ending says nothing are 0. */
struct avm_end {
    uint32_t ending; /* one of enum avm_ending */
    uint32_t number; /* of enum avm_fault where a program faulted, of enum avm_why where the call was refused */
    uint32_t place;  /* in bytes from the program's beginning */
};

/* What is wrong with bytes, and where. Fields of which a fault says nothing are 0. */
struct avm_trouble {
    uint64_t place;  /* of source text the line, of calls of a block the call, both counted from 1; in a program the byte, from 0 */
    uint32_t number; /* of the enum that is said with the status */
    uint32_t code;   /* of enum avm_code_fault, beside AVM_RULE_CODE */
};

/* Whether the bytes are a program: AVM_DONE, AVM_NO_PROGRAM or AVM_MEMORY. avm_c_diagnose tells the rule. */
uint32_t avm_c_check(const uint8_t *program, size_t program_len);

/* The program that source text assembles to. AVM_DONE, AVM_NO_TEXT, AVM_NOT_ASSEMBLED, AVM_NO_ROOM or AVM_MEMORY. No program is
   longer than 1024 bytes. avm_c_diagnose tells the line and the fault. */
uint32_t avm_c_assemble(const uint8_t *text, size_t text_len, uint8_t *room, size_t room_len, size_t *written);

/* A program's listing, as UTF-8 with a line feed behind each line. AVM_DONE, AVM_NO_PROGRAM, AVM_NO_ROOM or AVM_MEMORY. */
uint32_t avm_c_list(const uint8_t *program, size_t program_len, uint8_t *room, size_t room_len, size_t *written);

/* The verdict on a block over the ledger before it: AVM_DONE where it agrees, AVM_WRONG_BASE, AVM_WRONG_OUTCOME, AVM_WRONG_STATE,
   AVM_NO_LEDGER, AVM_NO_BLOCK or AVM_MEMORY. AVM_DONE writes the SHA-256 of the ledger after the block to `digest`, and
   AVM_WRONG_OUTCOME writes `difference`; else each is as it was. */
uint32_t avm_c_replay(const uint8_t *ledger, size_t ledger_len, const uint8_t *block, size_t block_len, uint8_t digest[32],
                      struct avm_difference *difference);

/* The same verdict, with the bytes of the ledger after the block where it agrees, so that a node goes on from a block without making
   its calls twice. A first guess for the room: the bytes of the ledger and of the block together. AVM_DONE, AVM_WRONG_BASE,
   AVM_WRONG_OUTCOME with `difference` (else it is as it was), AVM_WRONG_STATE, AVM_NO_LEDGER, AVM_NO_BLOCK, AVM_NO_ROOM or
   AVM_MEMORY. */
uint32_t avm_c_apply(const uint8_t *ledger, size_t ledger_len, const uint8_t *block, size_t block_len, uint8_t *room,
                     size_t room_len, size_t *written, struct avm_difference *difference);

/* The bytes of the ledger after the calls of a block with timestamps up to this one; outcomes and the digest after are not
   compared. AVM_DONE, AVM_NO_LEDGER, AVM_NO_BLOCK, AVM_WRONG_BASE, AVM_NO_ROOM or AVM_MEMORY. */
uint32_t avm_c_state(const uint8_t *ledger, size_t ledger_len, const uint8_t *block, size_t block_len, uint64_t timestamp,
                     uint8_t *room, size_t room_len, size_t *written);

/* What stands in the machine after so many steps of the call of an entry, counted from 1, over the ledger that it met: the text
   that the command `debug` prints. AVM_DONE, AVM_NO_LEDGER, AVM_NO_BLOCK, AVM_NO_ENTRY, AVM_WRONG_BASE, AVM_NO_RUN, AVM_ENDED,
   AVM_NO_ROOM or AVM_MEMORY. */
uint32_t avm_c_view(const uint8_t *ledger, size_t ledger_len, const uint8_t *block, size_t block_len, uint64_t entry,
                    uint64_t steps, uint8_t *room, size_t room_len, size_t *written);

/* What the program `avm` writes for the words behind its name, and for this input. Words are parted by zero bytes, with none
   behind the last: no bytes are one empty word. The status is the program's exit status, 0 to 2, with the text in the room;
   else AVM_PROPOSE, AVM_NO_ROOM or AVM_MEMORY. Words that are not UTF-8 are AVM_USAGE, as no words are. Input of more than
   16 MiB is refused by every command. */
uint32_t avm_c_answer(const uint8_t *words, size_t words_len, const uint8_t *input, size_t input_len, uint8_t *room,
                      size_t room_len, size_t *written);

/* The same of the program `avm_json`: documents that are read, and ledgers, blocks, calls and pages that are shown. The status is
   the exit status, 0 to 2, with the text in the room; else AVM_NO_ROOM or AVM_MEMORY. */
uint32_t avm_c_json(const uint8_t *words, size_t words_len, const uint8_t *input, size_t input_len, uint8_t *room, size_t room_len,
                    size_t *written);

/* A call over items of a ledger that the caller keeps: how it ends and what it writes, or the first item that it looks at and that
   is not known. The bytes are a header of 40 bytes, a call, and items with their values, in any order and each once. Programs of
   version 3 may run. AVM_DONE, AVM_NEEDS, AVM_NO_HEADER, AVM_NO_CALL, AVM_NO_ITEMS, AVM_NO_ROOM or AVM_MEMORY.

   - AVM_NEEDS: the answer is one item, of at most 74 bytes. Look it up, and call again with it among the known ones, absent where
     you have none. The next id alone is always a number: 1 in an empty ledger.
   - AVM_DONE: `end` says how the call ends, and the answer is items with their new values, by rising item: what the call changes.
     Nothing is written unless it is approved, or clears a local state. Each item that is written as absent is to be deleted, and
     with an application all keys and the counts of its global state; no item says that of them.
   - `end` is written wherever memory is not refused, also with AVM_NO_ROOM. Its fields are 0 where the call has not ended, but for
     the `number` of AVM_NO_CALL, which is one of enum avm_call_fault.

   Each call of this function runs from the beginning. A call that guesses all items, as the sender's local state, the application,
   its counts, and the keys of the last call of the same program, needs one; each further one repeats the run. Known items that the
   call does not look at do no harm: they are read and not used.

   On every ledger that has the known items the call ends so, and changes this; keys and counts of an application that is gone there
   may be known as anything. Each value is tested by itself: a state has at most 16 entries, counts are at most 64 together, keys and
   byte values at most 64 bytes, programs pass `check`. What two items say together, as a state over the schema of its application
   or counts over the keys, is the caller's to keep. */
uint32_t avm_c_attempt(const uint8_t *header, size_t header_len, const uint8_t *call, size_t call_len, const uint8_t *known,
                       size_t known_len, uint8_t *room, size_t room_len, size_t *written, struct avm_end *end);

/* What a call does over a whole ledger: the bytes of the ledger after it are answered, and `end` says how it ends. A ledger after a
   call that is not approved, and clears nothing, is the one before. A first guess for the room: as many bytes as the ledger has, and
   8,192 more. The ledger is read first, then the header, then the call. AVM_DONE, AVM_NO_LEDGER, AVM_NO_HEADER, AVM_NO_CALL with
   the number of enum avm_call_fault in `end`, AVM_NO_ROOM (`end` says how the call ends all the same) or AVM_MEMORY, with `end` as it
   was. */
uint32_t avm_c_call(const uint8_t *ledger, size_t ledger_len, const uint8_t *header, size_t header_len, const uint8_t *call,
                    size_t call_len, uint8_t *room, size_t room_len, size_t *written, struct avm_end *end);

/* The block of calls that are made one after another, in their order, on one thread, by the timestamps 1, 2, 3 and so on. `calls` is a
   list of calls: their count in four bytes, and then each (docs/FORMATS.md). Programs of version 3 may run. A call that is refused, or
   faults, stands in the block with that outcome. The ledger is read first, then the header, then the calls. A first guess for the
   room: the bytes of the header and of the calls, 128 more, and 32 for each call. AVM_DONE, AVM_NO_LEDGER, AVM_NO_HEADER, AVM_NO_CALL with
   `trouble` (a number of enum avm_call_fault, and which call it is of, or 0 where it is of none; else `trouble` is as it was),
   AVM_NO_ROOM or AVM_MEMORY.

   What it answers, avm_c_replay finds to agree. */
uint32_t avm_c_propose(const uint8_t *ledger, size_t ledger_len, const uint8_t *header, size_t header_len, const uint8_t *calls,
                       size_t calls_len, uint8_t *room, size_t room_len, size_t *written, struct avm_trouble *trouble);

/* What the call of an entry does, counted from 1, instruction by instruction, or where the entry is 0 what all calls of the block do:
   the text of a dry-run response, which `avm_json trace` writes. It has all states of a call at once, while avm_c_view makes the calls
   before for each state. AVM_DONE, AVM_NO_LEDGER, AVM_NO_BLOCK, AVM_NO_ENTRY, AVM_WRONG_BASE, AVM_NO_RUN (of an entry alone),
   AVM_TOO_LONG, AVM_NO_ROOM or AVM_MEMORY. */
uint32_t avm_c_trace(const uint8_t *ledger, size_t ledger_len, const uint8_t *block, size_t block_len, uint64_t entry, uint8_t *room,
                     size_t room_len, size_t *written);

/* What is wrong with bytes that a function refused, by the status that it gave: AVM_DONE where nothing is; else the status of what is
   wrong, with `trouble`, which else is as it was; or AVM_MEMORY.

     status                              number of               place
     AVM_NOT_ASSEMBLED, AVM_NO_TEXT      enum avm_asm_fault      the line, from 1; both are 0 where the status of what is wrong is AVM_NO_TEXT
     AVM_NO_PROGRAM                      enum avm_rule           the byte, from 0; of a rule of the whole program 0
     AVM_NO_LEDGER, AVM_NO_ITEMS         enum avm_ledger_fault   0
     AVM_NO_BLOCK                        enum avm_block_fault    0
     AVM_NO_HEADER                       0                       0
     AVM_NO_CALL                         enum avm_call_fault     0

   Another status says nothing of bytes: AVM_USAGE. The calls of avm_c_propose are diagnosed there. */
uint32_t avm_c_diagnose(uint32_t status, const uint8_t *bytes, size_t bytes_len, struct avm_trouble *trouble);

/* The version of the library, as AVM_VERSION is that of this header: 1,000,000 for each major version, 1,000 for each minor one. */
#define AVM_VERSION 7000
uint32_t avm_c_version(void);

#ifdef __cplusplus
}
#endif

#endif
