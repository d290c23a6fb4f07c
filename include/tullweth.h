/*
 * Tullweth: prunes Declare rules of telescope observing blocks, shows the sequences of steps behind
 * the fate of a rule, and gives the state of a rule after a run of steps.
 *
 * A host needs no other document than this header. docs/FORMAT.md says the same at length, with
 * examples. tullweth_text.h has texts for the numbers that are given back, and reads the verdicts.
 *
 * EXAMPLE. Prunes the rule file on standard input and prints the fate of each rule.
 *
 *     #include <stdio.h>
 *     #include "tullweth_text.h"
 *
 *     static uint8_t file[65536], verdicts[TULLWETH_VERDICT_BYTES];
 *     static uint64_t found[TULLWETH_FOUND_NUMBERS];
 *     static uint16_t links[TULLWETH_LINK_NUMBERS];
 *
 *     int main(void)
 *     {
 *         size_t length = fread(file, 1, sizeof file, stdin);
 *         uint32_t rules = 0;
 *         uint32_t number = tullweth_prune(file, length, found, TULLWETH_FOUND_NUMBERS, links,
 *                                          TULLWETH_LINK_NUMBERS, verdicts, sizeof verdicts);
 *         if (number == TULLWETH_ACCEPTED)
 *             number = tullweth_count_rules(file, length, &rules);
 *         printf("%s\n", tullweth_refusal_text(number));
 *         for (unsigned rule = 1; rule <= rules; rule++)
 *             printf("rule %u: %s\n", rule, tullweth_fate_text(tullweth_fate_of(verdicts, rule)));
 *         return number != TULLWETH_ACCEPTED;
 *     }
 *
 * RULE FILE. Fields follow one another to the end: one byte, the tag; two bytes, the length of the
 * content; the content. All numbers have their high byte first.
 *   Tag 53 (hex), a step: its name, 1 to 16 bytes from hex 21 to 7E, no two alike. Steps are
 *   numbered from 0. There are 1 to 24 of them, all before the first rule.
 *   Tag 52 (hex), a rule: 15 bytes: template, x and y, one byte each, then support, confidence and
 *   interest, each a 32-bit IEEE 754 float. Rules are numbered from 1. There are 0 to 32 of them.
 * x and y are the numbers of two different steps. Templates 1 to 4 have no y: there the byte is hex
 * FF. In templates 19 to 21 the byte is n, how often x is to occur, from 1 to 14; it may be more
 * than there are steps. A weight is accepted if its 32 bits as an unsigned number are at most hex
 * 3F800000 (1.0), and so -0 and NaN are not. No file of more than 1,032 bytes is accepted.
 *
 * SEQUENCES AND STANDINGS. A sequence is a list of declared steps of any length, the empty one
 * included. It satisfies a rule if what enum tullweth_template says of the rule's template is true
 * of it. A rule begins in standing 0, and each step leads it to the next one; the enum gives these
 * moves, the standings in which the rule is satisfied, and the broken one, after which no
 * continuation satisfies it. A joint standing holds the standing of each of several rules.
 *
 * PRUNING. Of two rules the better one has the larger support; if these are equal, the larger
 * confidence; then the larger interest; then the larger template number; then the smaller byte x;
 * then the smaller byte y; then the smaller number. So in files with the same steps in the same
 * order, the same rules in any order get the same fates and counts; of rules that are equal as many
 * get each fate. In the first pass the rules are decided from the best to the worst. Each is tested
 * beside the better ones that were kept: its first count is the number of joint standings of these
 * and it to which sequences lead with none of the kept rules broken. Over 4,096 it is set aside; if
 * no sequence satisfies it and the kept ones, it is conflicting; if each that satisfies the kept
 * ones satisfies it too, it is implied; else it is kept. In the second pass those kept are tested
 * again in the same way, from the worst to the best, each beside all others still kept: over 4,096
 * it stays, untested; if implied, it is dropped; else it stays. The second count is that of this
 * test, and 0 for a rule without one.
 *
 * CALLS. Each entry is lent the rule file and some areas, for the duration of the call only;
 * nothing of them is held afterwards:
 *   file      file_len bytes, read and never written;
 * tullweth_prune and tullweth_show are also lent two work areas,
 *   found     found_len numbers, at least TULLWETH_FOUND_NUMBERS;
 *   links     links_len numbers, at least TULLWETH_LINK_NUMBERS;
 * tullweth_state needs none, and is lent a run instead,
 *   run       run_len bytes, read and never written, one a step: its number in file order from 0;
 * and each is lent the areas that it writes its answer into. Bytes may stand at any address,
 * numbers of 16 bits at even ones, numbers of 64 bits at multiples of 8. A pointer may be NULL
 * where its length is 0, and nowhere else: so an empty file or an empty run may be the data() of an
 * empty std::vector. Nothing is read or written through it. No area overlaps another one, the file
 * or the run. What the areas hold before the call does not matter.
 *
 * Each returns TULLWETH_ACCEPTED or the refusal number: TULLWETH_AREA_TOO_SHORT before all others,
 * then that of the first faulty field, then TULLWETH_NO_STEP, then, where a rule is asked for,
 * TULLWETH_NO_SUCH_RULE, then, where a run is lent, TULLWETH_UNDECLARED_STEP. Of several faults of
 * a field the first in this order is returned: 2, 3; of a step 4, 5, 6, 7; of a rule 8, 9, 10, 17,
 * 11, 12.
 *
 * Accepted: what the first TULLWETH_FOUND_NUMBERS numbers of found and the first
 * TULLWETH_LINK_NUMBERS of links hold afterwards is left open; nothing else is. Later numbers of
 * longer work areas keep their values.
 *
 * Refused: nothing is written anywhere.
 *
 * No answer depends on the processor's mode for small floats ("flush to zero", "denormals are
 * zero"), which a host built with -ffast-math sets: of two weights the larger is the one with the
 * larger bits. No entry changes that mode or raises a floating-point exception.
 *
 * The library has no state: calls on different areas may run at once in several threads. On x86-64
 * tullweth_show takes at most 64 bytes of stack for each step of the sequence that it writes, and
 * so less than 300 KiB for the longest; tullweth_prune takes less than 32 KiB and tullweth_state
 * less than 8 KiB.
 */
#ifndef TULLWETH_H
#define TULLWETH_H

#include <stddef.h>
#include <stdint.h>

#ifdef __cplusplus
extern "C" {
#endif

/* The version of this header and of the library that comes with it. */
#define TULLWETH_VERSION_MAJOR 0
#define TULLWETH_VERSION_MINOR 5
#define TULLWETH_VERSION_PATCH 0
#define TULLWETH_VERSION "0.5.0"

/* The least that must be lent, each counted in numbers of its own type. */
#define TULLWETH_FOUND_NUMBERS 8192
#define TULLWETH_LINK_NUMBERS 16384
#define TULLWETH_VERDICT_BYTES 160
#define TULLWETH_SEQUENCE_BYTES 4095
#define TULLWETH_ANSWER_NUMBERS 8
#define TULLWETH_STATE_NUMBERS 2

/* The five verdict bytes of a rule: its fate, then the first and the second count, each count in
 * two bytes, the high one first. */
#define TULLWETH_BYTES_A_RULE 5

/* The most of a rule file. */
#define TULLWETH_MOST_STEPS 24
#define TULLWETH_MOST_RULES 32
#define TULLWETH_LONGEST_NAME 16

/* The tags of the fields. */
#define TULLWETH_TAG_STEP 0x53
#define TULLWETH_TAG_RULE 0x52

/* The length of a rule's content: template, x, y, support, confidence, interest. */
#define TULLWETH_RULE_BYTES 15

/* The byte y of a rule whose template, 1 to 4, has no y. */
#define TULLWETH_WITHOUT_Y 0xFF

/* The bits of the largest weight, 1.0, as an unsigned number. */
#define TULLWETH_LARGEST_WEIGHT_BITS 0x3F800000u

/* The most of a count n in templates 19 to 21; the least is 1. */
#define TULLWETH_MOST_COUNT 14

/* Counts up to this one are exact; a greater one is reported as 4097. */
#define TULLWETH_MOST_STANDINGS 4096

/* The templates. After what each says stand its moves: for each standing from 0 up the next one on
 * x, on y and on any other step (in 1 to 4 on x and on any other step); then the satisfied
 * standings and, after a bar, the broken one, which is never left. Templates 19 to 21 count x, stay
 * at n or at n+1, and do not move on other steps. */
enum tullweth_template {
    TULLWETH_PARTICIPATION = 1,         /* x occurs: 10 11, 1 */
    TULLWETH_AT_MOST_ONE = 2,           /* x occurs at most once: 10 21 22, 0 1 | 2 */
    TULLWETH_INIT = 3,                  /* the first step is x: 12 11 22, 1 | 2 */
    TULLWETH_END = 4,                   /* the last step is x: 10 10, 1 */
    TULLWETH_RESPONDED_EXISTENCE = 5,   /* if x occurs, y occurs: 120 121 222, 0 2 */
    TULLWETH_RESPONSE = 6,              /* each x has a later y: 100 101, 0 */
    TULLWETH_ALTERNATE_RESPONSE = 7,    /* the same with no x between: 100 201 222, 0 | 2 */
    TULLWETH_CHAIN_RESPONSE = 8,        /* each x has y right after it: 100 202 222, 0 | 2 */
    TULLWETH_PRECEDENCE = 9,            /* each y has an earlier x: 120 111 222, 0 1 | 2 */
    TULLWETH_ALTERNATE_PRECEDENCE = 10, /* the same with no y between: 120 101 222, 0 1 | 2 */
    TULLWETH_CHAIN_PRECEDENCE = 11,     /* each y has x right before it: 120 100 222, 0 1 | 2 */
    TULLWETH_CO_EXISTENCE = 12,         /* x occurs exactly if y does: 120 131 322 333, 0 3 */
    TULLWETH_SUCCESSION = 13,           /* 6 and 9: 130 121 122 333, 0 2 | 3 */
    TULLWETH_ALTERNATE_SUCCESSION = 14, /* 7 and 10: 120 201 222, 0 | 2 */
    TULLWETH_CHAIN_SUCCESSION = 15,     /* 8 and 11: 120 202 222, 0 | 2 */
    TULLWETH_NOT_CHAIN_SUCCESSION = 16, /* no x has y right after it: 100 120 222, 0 1 | 2 */
    TULLWETH_NOT_SUCCESSION = 17,       /* no x has a later y: 100 121 222, 0 1 | 2 */
    TULLWETH_NOT_CO_EXISTENCE = 18,     /* not both occur: 120 131 322 333, 0 1 2 | 3 */
    TULLWETH_AT_LEAST = 19,             /* x occurs n times or more: counts to n, n */
    TULLWETH_AT_MOST = 20,              /* x occurs n times or fewer: counts to n+1, 0 to n | n+1 */
    TULLWETH_EXACTLY = 21,              /* x occurs exactly n times: counts to n+1, n | n+1 */
    TULLWETH_CHOICE = 22,               /* x or y occurs, or both: 110 111, 1 */
    TULLWETH_EXCLUSIVE_CHOICE = 23      /* exactly one of them occurs: 120 131 322 333, 1 2 | 3 */
};

/* The fate of a rule. */
enum tullweth_fate {
    TULLWETH_KEPT = 0,        /* needed beside the others */
    TULLWETH_CONFLICTING = 1, /* no sequence satisfies it and the better rules kept */
    TULLWETH_IMPLIED = 2,     /* follows from the better rules kept */
    TULLWETH_SET_ASIDE = 3,   /* too many joint standings: not decided, not kept */
    TULLWETH_DROPPED = 4,     /* kept at first, then found to follow from the others still kept */
    TULLWETH_UNTESTED = 5     /* kept; too many joint standings to see whether it follows */
};

/* Where the eight numbers about the sequences of a rule stand. Presence is 1 or 0; an absent
 * sequence has 0 in its other three. The length is the number of steps. The joint standing is that
 * to which the sequence leads the rule and the better rules kept at first, in two numbers with four
 * bits a rule: rule n from 1 to 16 has bits 4n-4 to 4n-1 of the first number, rule n+16 the same
 * bits of the second. The bits of all other rules are 0. */
enum tullweth_answer {
    TULLWETH_SATISFYING_PRESENCE = 0,
    TULLWETH_SATISFYING_LENGTH = 1,
    TULLWETH_SATISFYING_FIRST_STANDINGS = 2,  /* of rules 1 to 16 */
    TULLWETH_SATISFYING_SECOND_STANDINGS = 3, /* of rules 17 to 32 */
    TULLWETH_VIOLATING_PRESENCE = 4,
    TULLWETH_VIOLATING_LENGTH = 5,
    TULLWETH_VIOLATING_FIRST_STANDINGS = 6,
    TULLWETH_VIOLATING_SECOND_STANDINGS = 7
};

/* The value of a rule after a run: whether the run, as it is, satisfies the rule, and whether some
 * continuation changes that. Continuations are of declared steps and of any length. */
enum tullweth_value {
    TULLWETH_TEMPORARILY_SATISFIED = 0, /* satisfied, but not after some continuation */
    TULLWETH_TEMPORARILY_VIOLATED = 1,  /* not satisfied, but after some continuation */
    TULLWETH_PERMANENTLY_SATISFIED = 2, /* satisfied, also after every continuation */
    TULLWETH_PERMANENTLY_VIOLATED = 3   /* not satisfied, nor after any continuation */
};

/* Where the two numbers about a rule after a run stand. A declared step is permitted after a run if
 * the run with it has not the value TULLWETH_PERMANENTLY_VIOLATED. A step of the run is relevant if
 * the value after it, or the set of the steps permitted after it, differs from that before it;
 * their count is exact up to 4,294,967,295, and a greater one is reported as this. */
enum tullweth_state_answer {
    TULLWETH_STATE_VALUE = 0,
    TULLWETH_STATE_RELEVANT_STEPS = 1
};

/* What an entry returns: accepted, or the number of the refusal. There is no 16 here. */
enum tullweth_refusal {
    TULLWETH_ACCEPTED = 0,
    TULLWETH_AREA_TOO_SHORT = 1,     /* an area lent is shorter than it has to be */
    TULLWETH_ENDS_INSIDE_FIELD = 2,  /* the file ends inside a field */
    TULLWETH_OTHER_TAG = 3,          /* a tag that is neither a step's nor a rule's */
    TULLWETH_STEP_AFTER_RULE = 4,    /* a step after a rule */
    TULLWETH_TOO_MANY_STEPS = 5,     /* a 25th step */
    TULLWETH_BAD_NAME = 6,           /* a name not of 1 to 16 bytes from hex 21 to 7E */
    TULLWETH_NAME_USED_BEFORE = 7,   /* two steps of one name */
    TULLWETH_TOO_MANY_RULES = 8,     /* a 33rd rule */
    TULLWETH_RULE_LENGTH = 9,        /* a rule whose length is not 15 */
    TULLWETH_NO_SUCH_TEMPLATE = 10,  /* a template that is not 1 to 23 */
    TULLWETH_BAD_STEP_NUMBERS = 11,  /* x or y undeclared, x = y, or y not FF in 1 to 4; in 19 to 21
                                        x alone is looked at */
    TULLWETH_WEIGHT_OUTSIDE = 12,    /* a weight whose bits are over 3F800000 (1.0): also -0 */
    TULLWETH_NO_STEP = 13,           /* a file without a step */
    TULLWETH_NO_SUCH_RULE = 14,      /* a rule number that the file lacks, as 0 (not in pruning) */
    TULLWETH_UNDECLARED_STEP = 15,   /* a step of the run that the file lacks (monitor alone) */
    TULLWETH_COUNT_OUTSIDE = 17      /* a count n outside 1 to 14 in templates 19 to 21 */
};

/*
 * Prunes the rules of a rule file.
 *
 * Lent beside the file and the work areas:
 *   verdicts  verdicts_len bytes, at least TULLWETH_VERDICT_BYTES.
 *
 * Accepted: the first TULLWETH_BYTES_A_RULE bytes of verdicts are those of the first rule of the
 * file, and so on in file order; the bytes after those of the last rule keep their values.
 */
uint32_t tullweth_prune(const uint8_t *file, size_t file_len,
                        uint64_t *found, size_t found_len,
                        uint16_t *links, size_t links_len,
                        uint8_t *verdicts, size_t verdicts_len);

/*
 * Shows the sequences of steps behind the fate of a rule, given by its number in file order from 1:
 * a satisfying one, which satisfies the rule and the better rules kept at first, and a violating
 * one, which satisfies those better rules and not the rule. Kept at first are the rules of fates
 * TULLWETH_KEPT, TULLWETH_DROPPED and TULLWETH_UNTESTED. Of all sequences that do so, of any
 * length, the shortest is shown; among several as short the one that has the step with the smaller
 * number where they first differ. So every host shows the same one.
 *
 * Lent beside the file and the work areas:
 *   satisfying  satisfying_len bytes, at least TULLWETH_SEQUENCE_BYTES;
 *   violating   violating_len bytes, at least TULLWETH_SEQUENCE_BYTES;
 *   answer      answer_len numbers, at least TULLWETH_ANSWER_NUMBERS.
 *
 * Accepted: both sequences are present for a rule kept at first, the satisfying one alone for
 * TULLWETH_IMPLIED, the violating one alone for TULLWETH_CONFLICTING, and neither for
 * TULLWETH_SET_ASIDE. The first TULLWETH_ANSWER_NUMBERS numbers of answer say so, in the order of
 * enum tullweth_answer. A sequence that is present stands at the start of its area, one byte a
 * step, the number of the step in file order from 0; it is shorter than the rule's first count, and
 * can be empty. All other bytes and numbers of these three areas keep their values, so that the
 * area of an absent sequence stays as it is.
 */
uint32_t tullweth_show(const uint8_t *file, size_t file_len, uint32_t rule,
                       uint64_t *found, size_t found_len,
                       uint16_t *links, size_t links_len,
                       uint8_t *satisfying, size_t satisfying_len,
                       uint8_t *violating, size_t violating_len,
                       uint64_t *answer, size_t answer_len);

/*
 * Gives the state of a rule, given by its number in file order from 1, after a run.
 *
 * Lent beside the file and the run:
 *   answer      answer_len numbers, at least TULLWETH_STATE_NUMBERS.
 *
 * Accepted: the first TULLWETH_STATE_NUMBERS numbers of answer are the value and the count of the
 * relevant steps, in the order of enum tullweth_state_answer. All later numbers of answer keep
 * their values. For an empty run the value is that before the first step, and the count is 0.
 */
uint32_t tullweth_state(const uint8_t *file, size_t file_len,
                        const uint8_t *run, size_t run_len, uint32_t rule,
                        uint64_t *answer, size_t answer_len);

#ifdef __cplusplus
}
#endif

#endif
