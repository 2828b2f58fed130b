/* Each function of the header called once or more, in C and in C++, and every field of its answer printed. The words
 * that the program is called with are sources.
 */
#include <stdio.h>
#include <string.h>

#include "gutilamboy.h"

static uint32_t table[GUTILAMBOY_TABLE_WORDS(GUTILAMBOY_TOKENS)];
static uint8_t code[GUTILAMBOY_CODE_BYTES(GUTILAMBOY_TOKENS)];
static uint32_t memory[GUTILAMBOY_NEEDED_WORDS_MOST];

static void print(const char *what, uint64_t number)
{
    printf("%s %lu\n", what, (unsigned long)number);
}

static void print_state(const struct gutilamboy_state *state)
{
    int i;

    for (i = 0; i < 8; i++)
        print("r", state->r[i]);
    print("sp", state->sp);
    print("lr", state->lr);
    print("pc", state->pc);
    print("apsr", state->apsr);
}

static void run(const struct gutilamboy_translation *answer)
{
    struct gutilamboy_state state;
    struct gutilamboy_stepped stepped;
    struct gutilamboy_ran ran;
    uint32_t i;

    memset(memory, 0, sizeof memory);
    print("start", gutilamboy_start(code, answer->code, memory, GUTILAMBOY_NEEDED_WORDS(answer->data, answer->depth),
                                    answer->data, answer->depth, &state));
    print_state(&state);
    gutilamboy_step(code, answer->code, memory, GUTILAMBOY_NEEDED_WORDS_MOST, &state, &stepped);
    print("step", stepped.status);
    print("number", stepped.number);
    print_state(&state);
    gutilamboy_run(code, answer->code, memory, GUTILAMBOY_NEEDED_WORDS_MOST, 1000, &state, &ran);
    print("run", ran.status);
    print("number", ran.number);
    print("count", ran.count);
    print_state(&state);
    for (i = 0; i < answer->data; i++)
        print("word", memory[i]);
}

static void translate(const char *source)
{
    struct gutilamboy_translation answer;
    uint32_t i;

    gutilamboy_translate((const uint8_t *)source, strlen(source), table, sizeof table / sizeof *table, code, sizeof code,
                         &answer);
    print("status", answer.status);
    print("place", answer.place);
    print("tokens", answer.tokens);
    print("rows", answer.rows);
    print("data", answer.data);
    print("depth", answer.depth);
    print("code", answer.code);
    for (i = 0; i < 4 * answer.rows; i++)
        print("row", table[i]);
    for (i = 0; i < answer.code; i++)
        print("byte", code[i]);
    if (answer.status == GUTILAMBOY_ACCEPTED)
        run(&answer);
}

/* An instruction by its number and fields; what it is encoded as, decoded again. */
static void encode(uint8_t op, uint8_t a, uint8_t b, uint8_t c, uint32_t k)
{
    struct gutilamboy_encoded encoded;
    struct gutilamboy_decoded decoded;

    gutilamboy_encode(op, a, b, c, k, &encoded);
    print("encode", encoded.status);
    print("count", encoded.count);
    print("first", encoded.first);
    print("second", encoded.second);
    gutilamboy_decode((uint16_t)encoded.first, (uint16_t)encoded.second, &decoded);
    print("decode", decoded.op);
    print("a", decoded.a);
    print("b", decoded.b);
    print("c", decoded.c);
    print("k", decoded.k);
}

int main(int count, char **words)
{
    int i;

    for (i = 1; i < count; i++)
        translate(words[i]);
    encode(GUTILAMBOY_OP_ADDR, 2, 1, 0, 0);
    encode(GUTILAMBOY_OP_STRI, 1, 7, 0, 0);
    encode(GUTILAMBOY_OP_BL, 0, 0, 0, 0xFFFFFFFE);
    encode(GUTILAMBOY_OP_MOVI, 8, 0, 0, 0);
    encode(GUTILAMBOY_OP_NONE, 0, 0, 0, 0);
    return 0;
}
