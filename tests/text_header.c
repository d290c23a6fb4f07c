/*
 * Tests include/tullweth_text.h, and the numbers of include/tullweth.h that it needs, against what
 * is written here by hand. It prints how many checks there were and ends with 0; or it prints the
 * first one that fails and ends with 1.
 */
#include "tullweth_text.h"
/* Once more: the header may be included twice. */
#include "tullweth_text.h"

#include <stdio.h>
#include <stdlib.h>
#include <string.h>

/* A step of one byte, and a rule: tag, length and content. */
#define STEP_FIELD 4
#define RULE_FIELD 18

/* A number of rules that no file has: so it is seen where a number is not written. */
#define NOT_WRITTEN 99

#define NUMBER_OF(list) (sizeof(list) / sizeof((list)[0]))

static unsigned checks;

/* Ends the test where a check does not hold: what is checked, and for which number. */
static void check(int holds, const char *what, unsigned long number)
{
    checks++;
    if (!holds) {
        printf("text header: fails: %s, %lu\n", what, number);
        exit(1);
    }
}

/* A text is the one that is expected. */
static void check_text(const char *text, const char *expected, const char *what,
                       unsigned long number)
{
    check(text != NULL && strcmp(text, expected) == 0, what, number);
}

/* A text is there. */
static void check_some_text(const char *text, const char *what, unsigned long number)
{
    check(text != NULL && text[0] != '\0', what, number);
}

static void check_numbers(void)
{
    char version[32];
    snprintf(version, sizeof version, "%d.%d.%d", TULLWETH_VERSION_MAJOR, TULLWETH_VERSION_MINOR,
             TULLWETH_VERSION_PATCH);
    check_text(version, TULLWETH_VERSION, "version", 0);
    check(TULLWETH_TAG_STEP == 83, "tag of a step", TULLWETH_TAG_STEP);
    check(TULLWETH_TAG_RULE == 82, "tag of a rule", TULLWETH_TAG_RULE);
    check(TULLWETH_RULE_BYTES == 15, "bytes of a rule", TULLWETH_RULE_BYTES);
    check(TULLWETH_WITHOUT_Y == 255, "byte without y", TULLWETH_WITHOUT_Y);
    check(TULLWETH_LARGEST_WEIGHT_BITS == 1065353216, "largest weight",
          TULLWETH_LARGEST_WEIGHT_BITS);
}

/* Each function has a text for every number. */
static void check_presence(void)
{
    for (unsigned number = 0; number <= 40; number++) {
        check_some_text(tullweth_template_name(number), "some template", number);
        check_some_text(tullweth_fate_text(number), "some fate", number);
        check_some_text(tullweth_value_text(number), "some value", number);
        check_some_text(tullweth_refusal_text(number), "some refusal", number);
    }
}

static void check_templates(void)
{
    static const char *const names[] = {
        "unknown template", "Participation", "AtMostOne", "Init", "End", "RespondedExistence",
        "Response", "AlternateResponse", "ChainResponse", "Precedence", "AlternatePrecedence",
        "ChainPrecedence", "CoExistence", "Succession", "AlternateSuccession", "ChainSuccession",
        "NotChainSuccession", "NotSuccession", "NotCoExistence", "AtLeast", "AtMost", "Exactly",
        "Choice", "ExclusiveChoice", "unknown template",
    };
    check(NUMBER_OF(names) == 25, "number of templates", NUMBER_OF(names));
    for (unsigned number = 0; number < NUMBER_OF(names); number++)
        check_text(tullweth_template_name(number), names[number], "template", number);
    check_text(tullweth_template_name(257), "unknown template", "template", 257);
    check_text(tullweth_template_name(0xFFFFFFFF), "unknown template", "template", 0xFFFFFFFF);
}

static void check_fates_and_values(void)
{
    static const char *const fates[] = {
        "kept", "conflicting", "implied", "set aside", "dropped, implied by the others",
        "kept untested", "unknown fate", "unknown fate",
    };
    static const char *const values[] = {
        "temporarily satisfied", "temporarily violated", "permanently satisfied",
        "permanently violated", "unknown value", "unknown value",
    };
    for (unsigned number = 0; number < NUMBER_OF(fates); number++)
        check_text(tullweth_fate_text(number), fates[number], "fate", number);
    check_text(tullweth_fate_text(255), "unknown fate", "fate", 255);
    for (unsigned number = 0; number < NUMBER_OF(values); number++)
        check_text(tullweth_value_text(number), values[number], "value", number);
    /* Its low 32 bits alone would be a value. */
    check_text(tullweth_value_text((uint64_t)1 << 32), "unknown value", "value 2 to the", 32);
}

/* The texts of 2 to 15 and of 17 are held by .ci/host, where the host prints them. */
static void check_refusals(void)
{
    check_text(tullweth_refusal_text(0), "accepted", "refusal", 0);
    check_text(tullweth_refusal_text(1), "an area lent is too short", "refusal", 1);
    check_text(tullweth_refusal_text(12), "a weight is not from 0 to 1", "refusal", 12);
    check_text(tullweth_refusal_text(16), "a watch entry has a standing that its template lacks",
               "refusal", 16);
    check_text(tullweth_refusal_text(18), "unknown refusal", "refusal", 18);
    check_text(tullweth_refusal_text(0xFFFFFFFF), "unknown refusal", "refusal", 0xFFFFFFFF);
    for (unsigned number = 0; number <= 17; number++)
        check(strcmp(tullweth_refusal_text(number), "unknown refusal") != 0, "known refusal",
              number);
}

static void check_counts(void)
{
    static const uint8_t bytes[] = {0x00, 0xFF, 0x00, 0x01, 0x02, 0x10, 0x01, 0xFF, 0xFF};
    check(tullweth_count_at(bytes) == 255, "count of 00 FF", tullweth_count_at(bytes));
    check(tullweth_count_at(bytes + 1) == 65280, "count of FF 00", tullweth_count_at(bytes + 1));
    check(tullweth_count_at(bytes + 2) == 1, "count of 00 01", tullweth_count_at(bytes + 2));
    check(tullweth_count_at(bytes + 3) == 258, "count of 01 02", tullweth_count_at(bytes + 3));
    check(tullweth_count_at(bytes + 5) == 4097, "count of 10 01", tullweth_count_at(bytes + 5));
    check(tullweth_count_at(bytes + 7) == 65535, "count of FF FF", tullweth_count_at(bytes + 7));
}

/* The verdict of a rule has this fate and these counts. */
static void check_verdict(const uint8_t *verdicts, uint32_t rule, unsigned fate, unsigned first,
                          unsigned second)
{
    check(tullweth_fate_of(verdicts, rule) == fate, "fate of rule", rule);
    check(tullweth_first_count(verdicts, rule) == first, "first count of rule", rule);
    check(tullweth_second_count(verdicts, rule) == second, "second count of rule", rule);
}

/* The first rule, the second and the last that a file can have. */
static void check_verdicts(void)
{
    uint8_t verdicts[TULLWETH_VERDICT_BYTES] = {5, 0, 3, 16, 1, 4, 1, 2, 3, 4};
    static const uint8_t last[] = {1, 15, 255, 0, 0};
    memcpy(verdicts + 155, last, sizeof last);
    check_verdict(verdicts, 1, 5, 3, 4097);
    check_verdict(verdicts, 2, 4, 258, 772);
    check_verdict(verdicts, 3, 0, 0, 0);
    check_verdict(verdicts, 32, 1, 4095, 0);
}

/* The number of rules is what is expected, or the file is refused by this number. The bytes are in
 * memory of exactly their length, so that valgrind sees a read past them. */
static void check_rules(const uint8_t *bytes, size_t length, uint32_t number, uint32_t expected,
                        const char *what)
{
    uint8_t *file = malloc(length);
    uint32_t rules = NOT_WRITTEN;
    check(file != NULL, "memory", length);
    memcpy(file, bytes, length);
    check(tullweth_count_rules(file, length, &rules) == number, what, number);
    check(rules == expected, what, rules);
    free(file);
}

/* One step, and as many rules after it as are wanted: Participation of that step, the weights 1. */
static size_t make_file(uint8_t *bytes, size_t rules)
{
    static const uint8_t step[STEP_FIELD] = {83, 0, 1, 'a'};
    static const uint8_t rule[RULE_FIELD] = {82, 0, 15, 1, 0, 255, 63, 128, 0, 0,
                                             63, 128, 0, 0, 63, 128, 0, 0};
    memcpy(bytes, step, STEP_FIELD);
    for (size_t place = 0; place < rules; place++)
        memcpy(bytes + STEP_FIELD + RULE_FIELD * place, rule, RULE_FIELD);
    return STEP_FIELD + RULE_FIELD * rules;
}

static void check_accepted(void)
{
    static const uint32_t numbers[] = {0, 1, 2, 15, 16, 17, 31, 32};
    uint8_t bytes[STEP_FIELD + 32 * RULE_FIELD];
    for (size_t place = 0; place < NUMBER_OF(numbers); place++) {
        size_t length = make_file(bytes, numbers[place]);
        check_rules(bytes, length, 0, numbers[place], "rules of a file");
    }
}

static void check_refused(void)
{
    uint8_t bytes[STEP_FIELD + 33 * RULE_FIELD];
    uint32_t rules = NOT_WRITTEN;
    check(tullweth_count_rules(NULL, 0, &rules) == 13, "empty file", 0);
    check(rules == NOT_WRITTEN, "empty file, rules", rules);
    size_t length = make_file(bytes, 33);
    check_rules(bytes, length, 8, NOT_WRITTEN, "33 rules");
    length = make_file(bytes, 2);
    check_rules(bytes, length - 1, 2, NOT_WRITTEN, "a byte less");
    check_rules(bytes + STEP_FIELD, RULE_FIELD, 11, NOT_WRITTEN, "a rule without its step");
    bytes[0] = 65;
    check_rules(bytes, length, 3, NOT_WRITTEN, "another tag");
    make_file(bytes, 2);
    /* The bits 3F800001 of the last rule's interest. */
    bytes[length - 1] = 1;
    check_rules(bytes, length, 12, NOT_WRITTEN, "a weight over 1");
    make_file(bytes, 2);
    /* AtLeast with a count of 255. */
    bytes[length - 15] = 19;
    check_rules(bytes, length, 17, NOT_WRITTEN, "a count over 14");
}

int main(void)
{
    check_numbers();
    check_presence();
    check_templates();
    check_fates_and_values();
    check_refusals();
    check_counts();
    check_verdicts();
    check_accepted();
    check_refused();
    printf("text header: %u checks\n", checks);
    return 0;
}
