/* Translates a rule, runs its image on lent memory, and prints how it ended and its words; then gets an update that is
 * refused, and goes on with the rule. Last it tells what code is that no translation gave.
 *
 *   tools/archives
 *   cc -std=c99 -Wall -I include examples/c/pallet.c target/staticlib/libgutilamboy.a -o pallet && ./pallet
 */
#include <stdio.h>
#include <string.h>

#include "gutilamboy.h"

/* The total of the boxes on a pallet, none of them read if there are none. */
static const char first[] =
    "var count; var total; array weight[4];\n"
    "{ total := 0;\n"
    "  while 0 < count do\n"
    "    { count := count - 1;\n"
    "      total := total + weight[count] } }\n";

/* A bad update: it declares no `total`. */
static const char mistaken[] = "var count; array weight[4]; total := count";

enum { TOKENS = 64, MEMORY_WORDS = 64 };

static uint32_t table[GUTILAMBOY_TABLE_WORDS(TOKENS)];
static uint8_t code[GUTILAMBOY_CODE_BYTES(TOKENS)];
static uint32_t memory[MEMORY_WORDS];

/* An update of the rule, into the buffers that hold it. A refusal leaves them as they are; the rule's own answer has to
 * be kept too, since a refusal's counts are all 0: so the new answer goes into a structure of its own first. */
static int update(struct gutilamboy_translation *rule, const char *what, const char *source)
{
    struct gutilamboy_translation answer;

    gutilamboy_translate((const uint8_t *)source, strlen(source), table, sizeof table / sizeof *table, code, sizeof code,
                         &answer);
    printf("%s: status %u place %u tokens %u rows %u data %u depth %u\n", what, (unsigned)answer.status,
           (unsigned)answer.place, (unsigned)answer.tokens, (unsigned)answer.rows, (unsigned)answer.data,
           (unsigned)answer.depth);
    if (answer.status != GUTILAMBOY_ACCEPTED)
        return 0;
    *rule = answer;
    return 1;
}

/* How a run ended. */
static const char *end(const struct gutilamboy_ran *ran)
{
    if (ran->status == GUTILAMBOY_DONE)
        return "limit reached";
    if (ran->status != GUTILAMBOY_SVC)
        return "fault or refusal";
    switch (ran->number) {
    case GUTILAMBOY_FINISH:
        return "finish";
    case GUTILAMBOY_STOP:
        return "stop";
    case GUTILAMBOY_BAD_SUBSCRIPT:
        return "bad subscript";
    default:
        return "another SVC";
    }
}

static int run(const struct gutilamboy_translation *rule, const char *what, const uint32_t *words, size_t length)
{
    struct gutilamboy_state state;
    struct gutilamboy_stepped stepped;
    struct gutilamboy_ran ran;
    uint32_t status;
    uint32_t i;

    /* the declared words; those behind them keep what the rule before left, which changes no answer */
    memcpy(memory, words, length * sizeof *words);
    status = gutilamboy_start(code, rule->code, memory, MEMORY_WORDS, rule->data, rule->depth, &state);
    if (status != GUTILAMBOY_DONE) {
        printf("%s: start refused, %u%s\n", what, (unsigned)status,
               status == GUTILAMBOY_SHORT_MEMORY ? ": more words are needed" : "");
        return 1;
    }
    /* one instruction, then the rest, but no more than 10,000 */
    gutilamboy_step(code, rule->code, memory, MEMORY_WORDS, &state, &stepped);
    gutilamboy_run(code, rule->code, memory, MEMORY_WORDS, 10000, &state, &ran);
    printf("%s: step %u, then %s at pc %u after %lu more, words", what, (unsigned)stepped.status, end(&ran),
           (unsigned)state.pc, (unsigned long)ran.count);
    for (i = 0; i < rule->data; i++)
        printf(" %u", (unsigned)memory[i]);
    printf("\n");
    return 0;
}

/* Code from elsewhere, by its first instruction: garbage, an Arm program, or what could be an image. */
static void inspect(const char *what, const uint8_t *bytes, size_t length)
{
    struct gutilamboy_state state;
    struct gutilamboy_stepped stepped;

    memset(&state, 0, sizeof state);
    gutilamboy_step(bytes, length, memory, MEMORY_WORDS, &state, &stepped);
    switch (stepped.status) {
    case GUTILAMBOY_FAULT_UNDEFINED:
        printf("%s: garbage\n", what);
        break;
    case GUTILAMBOY_FAULT_UNSUPPORTED:
        printf("%s: Arm code of class %u, not ours\n", what, (unsigned)stepped.number);
        break;
    default:
        printf("%s: status %u\n", what, (unsigned)stepped.status);
    }
}

int main(void)
{
    static const uint8_t erased[] = {0xFF, 0xFF, 0xFF, 0xFF};
    static const uint8_t foreign[] = {0x10, 0xB5, 0x10, 0xBD}; /* PUSH {r4, lr}; POP {r4, pc} */
    static const uint32_t empty[] = {0, 7, 10, 20, 30, 40};
    static const uint32_t three[] = {3, 7, 10, 20, 30, 40};
    static const uint32_t five[] = {5, 7, 10, 20, 30, 40};
    struct gutilamboy_translation rule;

    if (!update(&rule, "first rule", first))
        return 1;
    if (run(&rule, "empty pallet", empty, 6) + run(&rule, "three boxes", three, 6) + run(&rule, "five boxes", five, 6))
        return 1;
    if (update(&rule, "bad update", mistaken))
        return 1;
    if (run(&rule, "three boxes again", three, 6))
        return 1;
    inspect("erased memory", erased, sizeof erased);
    inspect("another program", foreign, sizeof foreign);
    inspect("the rule", code, rule.code);
    return 0;
}
