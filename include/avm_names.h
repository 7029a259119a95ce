/* The names of the numbers of avm.h, as commands print them: `DivZero` for AVM_FAULT_DIV_ZERO. They stand in a header since the library
   exports no function that answers a pointer. A number that no member of the enum has gives no name, "".

   tests/embed compares each with the code. */
#ifndef AVM_NAMES_H
#define AVM_NAMES_H

#include <stddef.h>
#include <stdint.h>

#define AVM_NAMED(names, number) ((number) < sizeof(names) / sizeof *(names) && (names)[number] ? (names)[number] : "")

/* What stops a program (enum avm_fault). */
static inline const char *avm_fault_name(uint32_t number) {
    static const char *const names[] = {
        NULL, "Err", "Underflow", "WrongType", "Compare", "Overflow", "Negative", "DivZero", "TooLong", "Range", "BtoiLength",
        "StackFull", "NoConstant", "BadField", "NoTxn", "NoArg", "NoAccount", "NoForeign", "NotOptedIn", "NoSuchApp", "Schema",
        "KeyLength", "FinalDepth", "FinalBytes", "Assert",
    };
    return AVM_NAMED(names, number);
}

/* Why a call is refused before its program runs (enum avm_why). */
static inline const char *avm_why_name(uint32_t number) {
    static const char *const names[] = {
        NULL, "NoApp", "AlreadyIn", "NotIn", "IdsEnd",
    };
    return AVM_NAMED(names, number);
}

/* Why bytes are no call, or no calls of a block (enum avm_call_fault). */
static inline const char *avm_call_fault_name(uint32_t number) {
    static const char *const names[] = {
        NULL, "Field", "Truncated", "Rest", NULL, NULL, NULL, NULL, NULL, NULL, NULL, NULL, NULL, NULL, NULL, NULL, NULL,
        "Accounts", "Args", "ArgBytes", "Foreign", "ProgramsMissing", "ProgramsGiven", "SchemaSize", "ClearOnCreate", "Program",
        "Note", NULL, NULL, NULL, NULL, NULL, NULL, "TooMany", "Profile",
    };
    return AVM_NAMED(names, number);
}

/* Which rule of programs bytes break (enum avm_rule). AVM_RULE_CODE has none: commands print the name of its enum avm_code_fault. */
static inline const char *avm_rule_name(uint32_t number) {
    static const char *const names[] = {
        NULL, "Version", "Length", NULL, "OutOfProfile", "Backward", "NotAligned", "PastEnd", "Cost", "UnknownField",
    };
    return AVM_NAMED(names, number);
}

/* Why no instruction is read (enum avm_code_fault). */
static inline const char *avm_code_fault_name(uint32_t number) {
    static const char *const names[] = {
        NULL, "UnknownOp", "Truncated", "BadVaruint",
    };
    return AVM_NAMED(names, number);
}

/* Why a text has no meaning (enum avm_asm_fault). */
static inline const char *avm_asm_fault_name(uint32_t number) {
    static const char *const names[] = {
        NULL, "Text", "NoPragma", "Version", "UnknownName", "Operands", "BadNumber", "BadBytes", "LabelTwice", "LabelMissing",
        "LabelBehind", "TooManyConstants", "MixedBlock", "TooLong",
    };
    return AVM_NAMED(names, number);
}

/* Why bytes are no ledger, or no items with their values (enum avm_ledger_fault). */
static inline const char *avm_ledger_fault_name(uint32_t number) {
    static const char *const names[] = {
        NULL, "Malformed", "Truncated", "Rest",
    };
    return AVM_NAMED(names, number);
}

/* Why bytes are no block (enum avm_block_fault). */
static inline const char *avm_block_fault_name(uint32_t number) {
    static const char *const names[] = {
        NULL, "Magic", "Format", "Truncated", "Rest", "Order", "Field", "Digest",
    };
    return AVM_NAMED(names, number);
}

#endif
