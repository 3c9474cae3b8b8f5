/* The worked example of the requirements through the C interface: decodes automaton P, runs the verifier and a weak enforcer over the trace 1 2 1 1,
   and prints a line for each event: its place, its symbol, the weak and the strong verdict, the estimate size, the released symbols. (P lists no
   symbols: each observable event has its own number.) Then the same with a further secret, whose verdicts follow those of P's own: it keeps back the
   last event. Then the first leaks of offered symbols, some of which are refused, by each notion and with further secrets: the place among the accepted
   ones, or that there is none. Then explorations of P, with other K and further secrets: how many configurations there are and the largest waits, weak
   and strong, or that the budget is spent. Then the canonical form of P as another engineer saved it: how many bytes it has and these, which are
   those below, or that the output has too few. At last witnesses after the trace, with a further secret: the state that each starts in, its steps, event
   and state reached, and whether it passes the checker, as it is, with each other start, and without its last byte; of those that are printed there is
   no other. Or why there is none. c/run compares the lines. */
#include <stdio.h>

#include "opacity.h"

/* Four states, events 0 to 2, K 2, initial state 0, secret {1}, observable {1, 2}; transitions (0,0,2) (0,1,1) (1,2,0) (2,1,3) (3,1,3). */
static const uint8_t encoding[] = {0x0c, 0x44, 0x00, 0x0a, 0x46, 0x00, 0x02, 0x00, 0x20, 0x82, 0x20, 0x02, 0x08, 0x61, 0x84, 0x30};
static const uint8_t trace[] = {1, 2, 1, 1};

/* P with its transitions in the order (3,1,3) (1,2,0) (0,1,1) (2,1,3) (0,0,2), and with symbols, which it does not need: 7 for event 0, which is not
   observable, and their own numbers for the others. */
static const uint8_t saved[] = {0x0c, 0x44, 0x00, 0x0b, 0x46, 0x70, 0x88, 0x30, 0x86, 0x08, 0x80, 0x00, 0x20, 0x84, 0x10, 0xc0, 0x00, 0x40};

/* No further secret; and one, number 1: state 3, with K 1. */
static const uint8_t none[OPACITY_FURTHER_BYTES];
static const uint8_t one[OPACITY_FURTHER_BYTES] = {
    [OPACITY_FURTHER_COUNT] = 1, [OPACITY_FURTHER_STATES(1)] = 1 << 3, [OPACITY_FURTHER_K(1)] = 1};

/* Another one: state 0, with K 1. Every run passes it at first, and may leave it unobserved: a leak under strong alone. */
static const uint8_t passed[OPACITY_FURTHER_BYTES] = {
    [OPACITY_FURTHER_COUNT] = 1, [OPACITY_FURTHER_STATES(1)] = 1 << 0, [OPACITY_FURTHER_K(1)] = 1};

/* Offered symbols: 0 and 200 are never P's, and 2 not before a 1. Those that leak, a drift to state 3 that does not, and none that is accepted. */
static const uint8_t leaking[] = {2, 1, 200, 0, 2, 1};
static const uint8_t drifting[] = {0, 1, 200, 1, 2, 1, 1};
static const uint8_t refused_all[] = {2, 0, 200};

/* Whose first leak is looked for, by which notion and with which further secrets. */
static const struct {
    uint8_t notion;
    const uint8_t *further, *symbols;
    size_t length;
} leaks[] = {
    {OPACITY_WEAK, none, leaking, sizeof leaking},    {OPACITY_STRONG, none, leaking, sizeof leaking},
    {OPACITY_WEAK, passed, leaking, sizeof leaking},  {OPACITY_STRONG, passed, leaking, sizeof leaking},
    {OPACITY_WEAK, none, drifting, sizeof drifting},  {OPACITY_STRONG, none, drifting, sizeof drifting},
    {OPACITY_WEAK, one, drifting, sizeof drifting},   {OPACITY_STRONG, passed, refused_all, sizeof refused_all},
};

/* What is explored: P with this K in place of its own, these further secrets, and this budget. */
static const struct {
    uint8_t k;
    const uint8_t *further;
    uint32_t budget;
} explorations[] = {
    {2, none, OPACITY_BUDGET_MAX}, {2, none, 7},   {2, none, 6},
    {2, one, OPACITY_BUDGET_MAX},  {0, none, 300}, {0, passed, OPACITY_BUDGET_MAX},
    {15, none, 82},                {15, none, 81}, {2, one, 0},
};

/* Which witnesses are asked for: by which notion, of which secret, how many symbols back. */
static const struct {
    uint8_t notion, secret, k;
} witnesses[] = {
    {OPACITY_WEAK, 0, 0}, {OPACITY_WEAK, 0, 1}, {OPACITY_WEAK, 0, 2},   {OPACITY_STRONG, 0, 2}, {OPACITY_WEAK, 0, 3},
    {OPACITY_WEAK, 1, 0}, {OPACITY_WEAK, 1, 1}, {OPACITY_STRONG, 1, 2}, {OPACITY_WEAK, 2, 0},
};

/* All the memory that the library works in besides its stack. */
static uint64_t table[OPACITY_TABLE_WORDS];
static uint8_t header[OPACITY_HEADER_BYTES];
static uint8_t estimator[OPACITY_ESTIMATOR_BYTES];
static uint8_t enforcer[OPACITY_ENFORCER_BYTES];
static uint8_t judgement[OPACITY_JUDGEMENT_BYTES];
static uint8_t output[OPACITY_OUTPUT_BYTES];
static uint8_t release[OPACITY_RELEASE_BYTES];
static uint8_t place[OPACITY_PLACE_BYTES];
static uint8_t exploration[OPACITY_EXPLORATION_BYTES];
static uint8_t form[OPACITY_ENCODING_MAX_BYTES];
static uint8_t size[OPACITY_SIZE_BYTES];
static uint8_t pairs[OPACITY_WITNESS_OUTPUT_BYTES];
static uint8_t witness[OPACITY_RUN_BYTES];
static uint8_t valid[OPACITY_VALID_BYTES];

static int refused(uint8_t number)
{
    printf("refused %d\n", number);
    return 1;
}

/* The number of 8 bytes. */
static unsigned long long number_of(const uint8_t *bytes)
{
    unsigned long long number = 0;

    for (int j = 8; 0 < j; j--)
        number = number << 8 | bytes[j - 1];
    return number;
}

static void print_verdict(uint8_t verdict)
{
    if (verdict == OPACITY_NO_LEAK)
        printf(" -");
    else
        printf(" %d", verdict);
}

/* The trace, on the decoded automaton and with these further secrets. */
static int run(const uint8_t *further)
{
    unsigned long accepted = 0, out = 0;
    uint8_t answer;

    answer = opacity_fresh(table, OPACITY_TABLE_WORDS, header, sizeof header, further, OPACITY_FURTHER_BYTES, estimator, sizeof estimator,
                           judgement, sizeof judgement);
    if (answer != OPACITY_OK)
        return refused(answer);
    answer = opacity_start(table, OPACITY_TABLE_WORDS, header, sizeof header, OPACITY_WEAK, further, OPACITY_FURTHER_BYTES, enforcer,
                           sizeof enforcer);
    if (answer != OPACITY_OK)
        return refused(answer);

    for (size_t i = 0; i < sizeof trace; i++) {
        uint8_t symbol = trace[i];
        answer = opacity_accept(table, OPACITY_TABLE_WORDS, header, sizeof header, symbol, estimator, sizeof estimator, judgement, sizeof judgement);
        /* The enforcer accepts exactly what the verifier accepts, so its answer needs no second report; nor does its estimate size, which is the
           verifier's. */
        if (answer == OPACITY_OK)
            answer = opacity_offer(table, OPACITY_TABLE_WORDS, header, sizeof header, symbol, enforcer, sizeof enforcer, output, sizeof output,
                                   release, sizeof release);
        if (answer != OPACITY_OK) {
            printf("! %d %d\n", symbol, answer);
            continue;
        }
        accepted++;
        out += release[OPACITY_RELEASE_COUNT];
        printf("%lu %d", accepted, symbol);
        for (int number = 0; number <= further[OPACITY_FURTHER_COUNT]; number++) {
            print_verdict(judgement[OPACITY_JUDGEMENT_WEAK(number)]);
            print_verdict(judgement[OPACITY_JUDGEMENT_STRONG(number)]);
        }
        printf(" %d", judgement[OPACITY_JUDGEMENT_SIZE]);
        for (int j = 0; j < release[OPACITY_RELEASE_COUNT]; j++)
            printf("%c%d", j == 0 ? ' ' : ',', output[j]);
        printf(release[OPACITY_RELEASE_COUNT] == 0 ? " -\n" : "\n");
    }
    printf("end %lu %lu %d\n", accepted, out, enforcer[OPACITY_ENFORCER_PENDING]);
    return 0;
}

/* The first leaks, on the decoded automaton. */
static void find_leaks(void)
{
    for (size_t i = 0; i < sizeof leaks / sizeof leaks[0]; i++) {
        const uint8_t *further = leaks[i].further, *symbols = leaks[i].symbols;
        unsigned long long found;
        uint8_t answer;

        answer = opacity_first_leak(table, OPACITY_TABLE_WORDS, header, sizeof header, leaks[i].notion, further, OPACITY_FURTHER_BYTES, symbols,
                                    leaks[i].length, place, sizeof place);
        printf("%s, %d further, offered", leaks[i].notion == OPACITY_WEAK ? "weak" : "strong", further[OPACITY_FURTHER_COUNT]);
        for (size_t j = 0; j < leaks[i].length; j++)
            printf(" %d", symbols[j]);
        printf(": ");
        if (answer != OPACITY_OK) {
            refused(answer);
            continue;
        }
        found = number_of(place);
        if (found == 0)
            printf("no leak\n");
        else
            printf("first leak at %llu\n", found);
    }
}

/* The explorations, on the decoded automaton, which has its own K again after them. */
static void explore_all(void)
{
    uint8_t k = header[OPACITY_HEADER_K];

    for (size_t i = 0; i < sizeof explorations / sizeof explorations[0]; i++) {
        const uint8_t *further = explorations[i].further;
        uint8_t answer;

        header[OPACITY_HEADER_K] = explorations[i].k;
        answer = opacity_explore(table, OPACITY_TABLE_WORDS, header, sizeof header, further, OPACITY_FURTHER_BYTES, explorations[i].budget,
                                 exploration, sizeof exploration);
        printf("K %d, %d further, budget %lu: ", explorations[i].k, further[OPACITY_FURTHER_COUNT], (unsigned long)explorations[i].budget);
        if (answer != OPACITY_OK) {
            refused(answer);
            continue;
        }
        printf("%d configurations, waits %d %d\n",
               exploration[OPACITY_EXPLORATION_NUMBER] + 256 * exploration[OPACITY_EXPLORATION_NUMBER + 1],
               exploration[OPACITY_EXPLORATION_WEAK], exploration[OPACITY_EXPLORATION_STRONG]);
    }
    header[OPACITY_HEADER_K] = k;
}

/* The canonical form, with so many bytes of space. */
static void write_form(size_t space)
{
    uint8_t answer = opacity_canonical(saved, sizeof saved, form, space, size, sizeof size);

    printf("form of %lu bytes, output %lu: ", (unsigned long)sizeof saved, (unsigned long)space);
    if (answer != OPACITY_OK) {
        refused(answer);
        return;
    }
    printf("%llu bytes,", number_of(size));
    for (unsigned long long j = 0; j < number_of(size); j++)
        printf(" %02x", form[j]);
    printf("\n");
}

/* Whether a start and pairs are a witness, by the checker. */
static int passes(uint8_t notion, uint8_t secret, uint8_t k, uint8_t start, size_t length)
{
    uint8_t answer = opacity_check_witness(table, OPACITY_TABLE_WORDS, header, sizeof header, notion, secret, k, start, estimator, sizeof estimator,
                                           pairs, length, valid, sizeof valid);

    return answer == OPACITY_OK && valid[0] == 1;
}

/* One witness of the estimator's trace. */
static void show_witness(uint8_t notion, uint8_t secret, uint8_t k)
{
    uint8_t answer = opacity_witness(table, OPACITY_TABLE_WORDS, header, sizeof header, notion, secret, k, estimator, sizeof estimator, pairs,
                                     sizeof pairs, witness, sizeof witness);
    uint8_t start = witness[OPACITY_RUN_START];
    size_t length = 2 * (witness[OPACITY_RUN_PAIRS] + 256 * (size_t)witness[OPACITY_RUN_PAIRS + 1]);
    int others = 0;

    printf("%s, secret %d, k %d: ", notion == OPACITY_WEAK ? "weak" : "strong", secret, k);
    if (answer != OPACITY_OK) {
        refused(answer);
        return;
    }
    printf("from %d", start);
    for (size_t j = 0; j < length; j += 2)
        printf(" %d,%d", pairs[j], pairs[j + 1]);
    for (int other = 0; other < 256; other++)
        others += other != start && passes(notion, secret, k, (uint8_t)other, length);
    printf(": %s, %d with other starts", passes(notion, secret, k, start, length) ? "valid" : "not valid", others);
    if (length != 0)
        printf(", without the last byte %s", passes(notion, secret, k, start, length - 1) ? "valid" : "not valid");
    printf("\n");
}

/* The witnesses after the trace, on the decoded automaton and with a further secret. */
static int show_witnesses(void)
{
    uint8_t answer = opacity_fresh(table, OPACITY_TABLE_WORDS, header, sizeof header, one, sizeof one, estimator, sizeof estimator, judgement,
                                   sizeof judgement);

    for (size_t i = 0; answer == OPACITY_OK && i < sizeof trace; i++)
        answer = opacity_accept(table, OPACITY_TABLE_WORDS, header, sizeof header, trace[i], estimator, sizeof estimator, judgement,
                                sizeof judgement);
    if (answer != OPACITY_OK)
        return refused(answer);
    for (size_t i = 0; i < sizeof witnesses / sizeof witnesses[0]; i++)
        show_witness(witnesses[i].notion, witnesses[i].secret, witnesses[i].k);
    return 0;
}

int main(void)
{
    uint8_t answer = opacity_decode(encoding, sizeof encoding, table, OPACITY_TABLE_WORDS, header, sizeof header);
    if (answer != OPACITY_OK)
        return refused(answer);
    if (run(none) || run(one))
        return 1;
    find_leaks();
    explore_all();
    write_form(sizeof form);
    write_form(sizeof encoding - 1);
    return show_witnesses();
}
