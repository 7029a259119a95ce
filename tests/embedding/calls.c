#include "calls.h"

#include <string.h>

const char *const function_names[FUNCTIONS] = {"check", "assemble", "list", "replay", "apply", "state",
                                                   "view", "answer", "json", "attempt", "call",
                                                   "propose", "trace", "diagnose"};

void clear(struct answer *answer) {
    memset(answer, MARK, sizeof *answer);
}

void make(const struct call *call, struct answer *answer, size_t room) {
    const uint8_t *first = call->first.at, *second = call->second.at;
    size_t length = call->first.length, other = call->second.length;
    switch (call->function) {
    case CHECK: answer->status = avm_c_check(first, length); break;
    case ASSEMBLE: answer->status = avm_c_assemble(first, length, answer->room, room, &answer->written); break;
    case LIST: answer->status = avm_c_list(first, length, answer->room, room, &answer->written); break;
    case REPLAY: answer->status = avm_c_replay(first, length, second, other, answer->digest, &answer->difference); break;
    case APPLY:
        answer->status =
            avm_c_apply(first, length, second, other, answer->room, room, &answer->written, &answer->difference);
        break;
    case STATE:
        answer->status = avm_c_state(first, length, second, other, call->number, answer->room, room, &answer->written);
        break;
    case VIEW:
        answer->status =
            avm_c_view(first, length, second, other, call->entry, call->number, answer->room, room, &answer->written);
        break;
    case ANSWER: answer->status = avm_c_answer(first, length, second, other, answer->room, room, &answer->written); break;
    case JSON: answer->status = avm_c_json(first, length, second, other, answer->room, room, &answer->written); break;
    case ATTEMPT:
        answer->status = avm_c_attempt(first, length, second, other, call->third.at, call->third.length, answer->room, room,
                                       &answer->written, &answer->end);
        break;
    case CALL:
        answer->status = avm_c_call(first, length, second, other, call->third.at, call->third.length, answer->room, room,
                                    &answer->written, &answer->end);
        break;
    case PROPOSE:
        answer->status = avm_c_propose(first, length, second, other, call->third.at, call->third.length, answer->room, room,
                                       &answer->written, &answer->trouble);
        break;
    case TRACE:
        answer->status = avm_c_trace(first, length, second, other, call->entry, answer->room, room, &answer->written);
        break;
    case DIAGNOSE: answer->status = avm_c_diagnose((uint32_t)call->number, first, length, &answer->trouble); break;
    }
}
