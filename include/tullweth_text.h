/*
 * Tullweth: texts for the numbers that its entries give back, and functions that read the verdicts
 * and count the rules of a file. They are for C99, C++11 and later. All of them are static inline,
 * so that a host links nothing more for them. Like the library they have no state.
 *
 * A text is in English, without a full stop, and never NULL. Each function with texts has one for
 * every number: for one without a meaning it is "unknown template", "unknown fate" and so on.
 */
#ifndef TULLWETH_TEXT_H
#define TULLWETH_TEXT_H

#include "tullweth.h"

/* The name of a template, as the text form of a rule file has it. */
static inline const char *tullweth_template_name(unsigned number)
{
    switch (number) {
    case TULLWETH_PARTICIPATION: return "Participation";
    case TULLWETH_AT_MOST_ONE: return "AtMostOne";
    case TULLWETH_INIT: return "Init";
    case TULLWETH_END: return "End";
    case TULLWETH_RESPONDED_EXISTENCE: return "RespondedExistence";
    case TULLWETH_RESPONSE: return "Response";
    case TULLWETH_ALTERNATE_RESPONSE: return "AlternateResponse";
    case TULLWETH_CHAIN_RESPONSE: return "ChainResponse";
    case TULLWETH_PRECEDENCE: return "Precedence";
    case TULLWETH_ALTERNATE_PRECEDENCE: return "AlternatePrecedence";
    case TULLWETH_CHAIN_PRECEDENCE: return "ChainPrecedence";
    case TULLWETH_CO_EXISTENCE: return "CoExistence";
    case TULLWETH_SUCCESSION: return "Succession";
    case TULLWETH_ALTERNATE_SUCCESSION: return "AlternateSuccession";
    case TULLWETH_CHAIN_SUCCESSION: return "ChainSuccession";
    case TULLWETH_NOT_CHAIN_SUCCESSION: return "NotChainSuccession";
    case TULLWETH_NOT_SUCCESSION: return "NotSuccession";
    case TULLWETH_NOT_CO_EXISTENCE: return "NotCoExistence";
    case TULLWETH_AT_LEAST: return "AtLeast";
    case TULLWETH_AT_MOST: return "AtMost";
    case TULLWETH_EXACTLY: return "Exactly";
    case TULLWETH_CHOICE: return "Choice";
    case TULLWETH_EXCLUSIVE_CHOICE: return "ExclusiveChoice";
    default: return "unknown template";
    }
}

/* The text of a fate. */
static inline const char *tullweth_fate_text(unsigned number)
{
    switch (number) {
    case TULLWETH_KEPT: return "kept";
    case TULLWETH_CONFLICTING: return "conflicting";
    case TULLWETH_IMPLIED: return "implied";
    case TULLWETH_SET_ASIDE: return "set aside";
    case TULLWETH_DROPPED: return "dropped, implied by the others";
    case TULLWETH_UNTESTED: return "kept untested";
    default: return "unknown fate";
    }
}

/* The text of the value of a rule after a run. It takes 64 bits, as tullweth_state writes them. */
static inline const char *tullweth_value_text(uint64_t number)
{
    switch (number) {
    case TULLWETH_TEMPORARILY_SATISFIED: return "temporarily satisfied";
    case TULLWETH_TEMPORARILY_VIOLATED: return "temporarily violated";
    case TULLWETH_PERMANENTLY_SATISFIED: return "permanently satisfied";
    case TULLWETH_PERMANENTLY_VIOLATED: return "permanently violated";
    default: return "unknown value";
    }
}

/* The text of what an entry returns. No entry returns 16, which belongs to watching from Rattle. */
static inline const char *tullweth_refusal_text(uint32_t number)
{
    switch (number) {
    case TULLWETH_ACCEPTED: return "accepted";
    case TULLWETH_AREA_TOO_SHORT: return "an area lent is too short";
    case TULLWETH_ENDS_INSIDE_FIELD: return "the file ends inside a field";
    case TULLWETH_OTHER_TAG: return "a field is neither a step nor a rule";
    case TULLWETH_STEP_AFTER_RULE: return "a step comes after a rule";
    case TULLWETH_TOO_MANY_STEPS: return "there are more than 24 steps";
    case TULLWETH_BAD_NAME: return "a name is not of 1 to 16 visible characters";
    case TULLWETH_NAME_USED_BEFORE: return "two steps have one name";
    case TULLWETH_TOO_MANY_RULES: return "there are more than 32 rules";
    case TULLWETH_RULE_LENGTH: return "a rule is not 15 bytes long";
    case TULLWETH_NO_SUCH_TEMPLATE: return "a rule has an unknown template";
    case TULLWETH_BAD_STEP_NUMBERS: return "the steps of a rule do not fit its template";
    case TULLWETH_WEIGHT_OUTSIDE: return "a weight is not from 0 to 1";
    case TULLWETH_NO_STEP: return "there is no step";
    case TULLWETH_NO_SUCH_RULE: return "there is no such rule";
    case TULLWETH_UNDECLARED_STEP: return "a step of the run is not declared";
    case 16: return "a watch entry has a standing that its template lacks";
    case TULLWETH_COUNT_OUTSIDE: return "the count of a rule is not from 1 to 14";
    default: return "unknown refusal";
    }
}

/* A number of two bytes, the high one first: a count of the verdicts, or the length of a field. */
static inline unsigned tullweth_count_at(const uint8_t *bytes)
{
    return bytes[0] * 256u + bytes[1];
}

/* The verdict bytes of a rule. Here and in the next three, verdicts is the area that tullweth_prune
 * has written, and the rule is given by its number in file order from 1: the file must have it. */
static inline const uint8_t *tullweth_verdict_of(const uint8_t *verdicts, uint32_t rule)
{
    return verdicts + TULLWETH_BYTES_A_RULE * (rule - 1);
}

/* The fate of a rule. */
static inline unsigned tullweth_fate_of(const uint8_t *verdicts, uint32_t rule)
{
    return tullweth_verdict_of(verdicts, rule)[0];
}

/* The first count of a rule. */
static inline unsigned tullweth_first_count(const uint8_t *verdicts, uint32_t rule)
{
    return tullweth_count_at(tullweth_verdict_of(verdicts, rule) + 1);
}

/* The second count of a rule. */
static inline unsigned tullweth_second_count(const uint8_t *verdicts, uint32_t rule)
{
    return tullweth_count_at(tullweth_verdict_of(verdicts, rule) + 3);
}

/* Counts the rules of a file. It returns TULLWETH_ACCEPTED and sets *rules, or it returns the
 * number by which tullweth_prune too refuses the file, and leaves *rules as it is. As for each
 * entry, file may be NULL where file_len is 0.
 *
 * The verdicts do not tell how many rules there are, as the bytes after the last rule keep their
 * values. So the library is asked for the state of one rule after another, after the empty run,
 * until it says that there is no such rule. */
static inline uint32_t tullweth_count_rules(const uint8_t *file, size_t file_len, uint32_t *rules)
{
    uint64_t answer[TULLWETH_STATE_NUMBERS];
    uint32_t count;
    for (count = 0; count < TULLWETH_MOST_RULES; count++) {
        uint32_t number = tullweth_state(file, file_len, NULL, 0, count + 1,
                                         answer, TULLWETH_STATE_NUMBERS);
        if (number == TULLWETH_NO_SUCH_RULE)
            break;
        if (number != TULLWETH_ACCEPTED)
            return number;
    }
    *rules = count;
    return TULLWETH_ACCEPTED;
}

#endif
