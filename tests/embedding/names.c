/* The names of include/avm_names.h: a line for each number up to 64 that has one. */
#include "avm.h"
#include "avm_names.h"

#include <stdio.h>

struct names {
    const char *of;
    const char *(*name)(uint32_t);
};

int main(void) {
    const struct names all[] = {
        {"Fault", avm_fault_name},          {"Why", avm_why_name},           {"CallFault", avm_call_fault_name},
        {"Rule", avm_rule_name},            {"CodeFault", avm_code_fault_name}, {"AsmFault", avm_asm_fault_name},
        {"LedgerFault", avm_ledger_fault_name}, {"BlockFault", avm_block_fault_name},
    };
    for (size_t i = 0; i < sizeof all / sizeof *all; i++) {
        for (uint32_t number = 0; number <= 64; number++) {
            const char *name = all[i].name(number);
            if (*name) printf("%s %u %s\n", all[i].of, number, name);
        }
        if (*all[i].name(UINT32_MAX)) return 1;
    }
    return 0;
}
