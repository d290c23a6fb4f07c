/*
 * A small host of Tullweth.
 *
 * `host RULE-FILE` prunes the rule file and prints a line a rule,
 *
 *     rule 3: conflicting, first count 3, second count 0
 *
 * `host RULE-FILE RULE` shows the sequences of the rule of this number,
 *
 *     satisfying, 1 step, standing 0x1 0x0: expose
 *     violating, 0 steps, standing 0x0 0x0: the empty sequence
 *
 * with the two numbers of the joint standing, or, for one that is absent, `violating: none`.
 *
 * `host RULE-FILE RULE run [STEP ...]` prints the state of the rule after a run, which is given by
 * the names of its steps,
 *
 *     temporarily violated, 3 relevant steps
 *
 * Where it is refused, each prints the number of the refusal and what that means. The host ends
 * with 0 for an accepted call, with 1 for a refused one and with 2 if there was nothing to call for
 * or what it printed could not be written.
 */
#include <inttypes.h>
#include <stdio.h>
#include <stdlib.h>
#include <string.h>

#include "tullweth.h"

#define LONGEST_FILE 65535

/* A step number that no file declares. */
#define UNDECLARED 255

/* One byte more than the longest file, so that a longer one is seen to be longer. */
static uint8_t file[LONGEST_FILE + 1];
static uint64_t found[TULLWETH_FOUND_NUMBERS];
static uint16_t links[TULLWETH_LINK_NUMBERS];
static uint8_t verdicts[TULLWETH_VERDICT_BYTES];
static uint8_t satisfying[TULLWETH_SEQUENCE_BYTES];
static uint8_t violating[TULLWETH_SEQUENCE_BYTES];
static uint64_t answer[TULLWETH_ANSWER_NUMBERS];
static uint64_t state[TULLWETH_STATE_NUMBERS];

static const char *const fate_names[] = {
    [TULLWETH_KEPT] = "kept",
    [TULLWETH_CONFLICTING] = "conflicting",
    [TULLWETH_IMPLIED] = "implied",
    [TULLWETH_SET_ASIDE] = "set aside",
    [TULLWETH_DROPPED] = "dropped, implied by the others",
    [TULLWETH_UNTESTED] = "kept untested",
};

static const char *const value_names[] = {
    [TULLWETH_TEMPORARILY_SATISFIED] = "temporarily satisfied",
    [TULLWETH_TEMPORARILY_VIOLATED] = "temporarily violated",
    [TULLWETH_PERMANENTLY_SATISFIED] = "permanently satisfied",
    [TULLWETH_PERMANENTLY_VIOLATED] = "permanently violated",
};

static const char *const refusal_texts[] = {
    [TULLWETH_ACCEPTED] = "accepted",
    [TULLWETH_AREA_TOO_SHORT] = "an area lent is too short",
    [TULLWETH_ENDS_INSIDE_FIELD] = "the file ends inside a field",
    [TULLWETH_OTHER_TAG] = "a field is neither a step nor a rule",
    [TULLWETH_STEP_AFTER_RULE] = "a step comes after a rule",
    [TULLWETH_TOO_MANY_STEPS] = "there are more than 24 steps",
    [TULLWETH_BAD_NAME] = "a name is not of 1 to 16 visible characters",
    [TULLWETH_NAME_USED_BEFORE] = "two steps have one name",
    [TULLWETH_TOO_MANY_RULES] = "there are more than 32 rules",
    [TULLWETH_RULE_LENGTH] = "a rule is not 15 bytes long",
    [TULLWETH_NO_SUCH_TEMPLATE] = "a rule has an unknown template",
    [TULLWETH_BAD_STEP_NUMBERS] = "the steps of a rule do not fit its template",
    [TULLWETH_WEIGHT_OUTSIDE] = "a weight is not from 0 to 1",
    [TULLWETH_NO_STEP] = "there is no step",
    [TULLWETH_NO_SUCH_RULE] = "there is no such rule",
    [TULLWETH_UNDECLARED_STEP] = "a step of the run is not declared",
    [TULLWETH_COUNT_OUTSIDE] = "the count of a rule is not from 1 to 14",
};

#define NUMBER_OF(table) (sizeof(table) / sizeof((table)[0]))

/* The text of a number, also of one that this host does not know: past the last, or with no text. */
static const char *text_of(const char *const *texts, size_t count, uint64_t number)
{
    return number < count && texts[number] != NULL ? texts[number] : "unknown to this host";
}

/* Prints a message about a path and ends the host. */
static void give_up(const char *path, const char *why)
{
    fprintf(stderr, "host: %s: %s\n", path, why);
    exit(2);
}

/* Reads the whole file and gives its length. */
static size_t read_file(const char *path)
{
    FILE *stream = fopen(path, "rb");
    if (stream == NULL)
        give_up(path, "cannot be opened");
    size_t length = fread(file, 1, sizeof file, stream);
    int failed = ferror(stream);
    fclose(stream);
    if (failed)
        give_up(path, "cannot be read");
    if (length > LONGEST_FILE)
        give_up(path, "is longer than 65,535 bytes");
    return length;
}

/* A count of two bytes, the high one first. */
static unsigned count_at(const uint8_t *bytes)
{
    return (unsigned)bytes[0] << 8 | bytes[1];
}

/* Where the field after this one begins. */
static size_t after_field(size_t at)
{
    return at + 3 + count_at(file + at + 1);
}

/* The rules of an accepted file: its fields are walked, and those of tag 52 (hex) counted. */
static size_t rules_in(size_t length)
{
    size_t rules = 0;
    for (size_t at = 0; at < length; at = after_field(at))
        rules += file[at] == 0x52;
    return rules;
}

static void print_verdicts(size_t rules)
{
    for (size_t rule = 0; rule < rules; rule++) {
        const uint8_t *verdict = verdicts + TULLWETH_BYTES_A_RULE * rule;
        printf("rule %u: %s, first count %u, second count %u\n", (unsigned)rule + 1,
               text_of(fate_names, NUMBER_OF(fate_names), verdict[0]),
               count_at(verdict + 1), count_at(verdict + 3));
    }
}

/* Prints the name of a step of an accepted file, whose first fields are the steps. */
static void print_name(uint8_t step)
{
    size_t at = 0;
    for (uint8_t earlier = 0; earlier < step; earlier++)
        at = after_field(at);
    printf(" %.*s", (int)count_at(file + at + 1), (const char *)file + at + 3);
}

/* Whether a whole step field begins here; in a file that will be refused, there may be none. */
static int is_step_at(size_t at, size_t length)
{
    return at + 3 <= length && file[at] == 0x53 && after_field(at) <= length;
}

/* The number of the step of this name, or one that no file declares. */
static uint8_t step_of(const char *name, size_t length)
{
    size_t at = 0;
    for (uint8_t step = 0; step < TULLWETH_MOST_STEPS && is_step_at(at, length); step++) {
        size_t name_length = count_at(file + at + 1);
        if (name_length == strlen(name) && memcmp(file + at + 3, name, name_length) == 0)
            return step;
        at = after_field(at);
    }
    return UNDECLARED;
}

/* Prints a sequence with its four numbers: presence, length, and the two of the joint standing. */
static void print_sequence(const char *which, const uint64_t *numbers, const uint8_t *steps)
{
    uint64_t length = numbers[1];
    if (numbers[0] == 0) {
        printf("%s: none\n", which);
        return;
    }
    printf("%s, %" PRIu64 " step%s, standing 0x%" PRIX64 " 0x%" PRIX64 ":", which, length,
           length == 1 ? "" : "s", numbers[2], numbers[3]);
    for (uint64_t place = 0; place < length; place++)
        print_name(steps[place]);
    printf("%s\n", length == 0 ? " the empty sequence" : "");
}

/* Prunes and prints the verdicts; gives the number of the refusal, if it is refused. */
static uint32_t prune(size_t length)
{
    uint32_t number = tullweth_prune(file, length, found, NUMBER_OF(found),
                                     links, NUMBER_OF(links), verdicts, NUMBER_OF(verdicts));
    if (number == TULLWETH_ACCEPTED)
        print_verdicts(rules_in(length));
    return number;
}

/* Shows a rule and prints its sequences; gives the number of the refusal, if it is refused. */
static uint32_t show(size_t length, uint32_t rule)
{
    uint32_t number = tullweth_show(file, length, rule, found, NUMBER_OF(found),
                                    links, NUMBER_OF(links), satisfying, NUMBER_OF(satisfying),
                                    violating, NUMBER_OF(violating), answer, NUMBER_OF(answer));
    if (number == TULLWETH_ACCEPTED) {
        print_sequence("satisfying", answer + TULLWETH_SATISFYING_PRESENCE, satisfying);
        print_sequence("violating", answer + TULLWETH_VIOLATING_PRESENCE, violating);
    }
    return number;
}

/* Prints the state of a rule after a run of the steps of these names; gives the number of the
 * refusal, if it is refused. */
static uint32_t monitor(size_t length, uint32_t rule, char **names, size_t count)
{
    /* One byte more, so that an empty run has a place too. */
    uint8_t *run = malloc(count + 1);
    if (run == NULL)
        give_up("run", "is too long");
    for (size_t place = 0; place < count; place++)
        run[place] = step_of(names[place], length);
    uint32_t number = tullweth_state(file, length, run, count, rule, state, NUMBER_OF(state));
    free(run);
    if (number == TULLWETH_ACCEPTED) {
        uint64_t relevant = state[TULLWETH_STATE_RELEVANT_STEPS];
        printf("%s, %" PRIu64 " relevant step%s\n",
               text_of(value_names, NUMBER_OF(value_names), state[TULLWETH_STATE_VALUE]),
               relevant, relevant == 1 ? "" : "s");
    }
    return number;
}

/* Prints how the host is called and ends it. */
static void give_usage(void)
{
    fprintf(stderr, "usage: host RULE-FILE [RULE [run [STEP ...]]]\n");
    exit(2);
}

/* A rule number: decimal digits, at least one, whose number fits into 32 bits. */
static uint32_t rule_number(const char *text)
{
    uint64_t number = 0;
    for (const char *digit = text; *digit != '\0'; digit++) {
        if (*digit < '0' || *digit > '9')
            give_usage();
        number = 10 * number + (uint64_t)(*digit - '0');
        if (number > UINT32_MAX)
            give_usage();
    }
    if (*text == '\0')
        give_usage();
    return (uint32_t)number;
}

/* Calls the library for these arguments; gives the number of the refusal, if it is refused. */
static uint32_t call(int argument_count, char **arguments)
{
    if (argument_count < 2)
        give_usage();
    if (argument_count > 3 && strcmp(arguments[3], "run") != 0)
        give_usage();
    uint32_t rule = argument_count > 2 ? rule_number(arguments[2]) : 0;
    size_t length = read_file(arguments[1]);
    if (argument_count == 2)
        return prune(length);
    if (argument_count == 3)
        return show(length, rule);
    return monitor(length, rule, arguments + 4, (size_t)argument_count - 4);
}

/* Ends the host if something that it printed was not written; what is still held is written now. */
static void end_output(void)
{
    int failed = ferror(stdout);
    if (fclose(stdout) != 0 || failed)
        give_up("standard output", "cannot be written");
}

int main(int argument_count, char **arguments)
{
    uint32_t number = call(argument_count, arguments);
    if (number != TULLWETH_ACCEPTED)
        printf("refused %u: %s\n", (unsigned)number,
               text_of(refusal_texts, NUMBER_OF(refusal_texts), number));
    end_output();
    return number == TULLWETH_ACCEPTED ? 0 : 1;
}
