/* Translation of X to Armv6-M code, and the machine that runs it.
 *
 * libgutilamboy.a has translate, start, step and run; libgutilamboy_codec.a has encode and decode. Both are for
 * x86-64 Linux, since the toolchain that proves and compiles them has that back end alone. C99 and C++.
 *
 * No function allocates, keeps a pointer after it returns, or touches memory other than what it was lent and its
 * stack. A lent length of 0 is allowed; the pointer must then still not be null. Buffers that one call gets must
 * not overlap, unless all of them are only read. All words are as the machine at hand stores them.
 */
#ifndef GUTILAMBOY_H
#define GUTILAMBOY_H

#include <stddef.h>
#include <stdint.h>

#ifdef __cplusplus
extern "C" {
#endif

/* The version of this interface: the major number changes where a caller must change too. */
#define GUTILAMBOY_VERSION_MAJOR 4
#define GUTILAMBOY_VERSION_MINOR 0

/* ---- limits ---- */

#define GUTILAMBOY_SOURCE_BYTES 16384 /* longest source */
#define GUTILAMBOY_TOKENS 1024        /* most tokens of a source, comments counted */
#define GUTILAMBOY_NAME_BYTES 32      /* longest name */
#define GUTILAMBOY_NAMES 256          /* most names */
#define GUTILAMBOY_DEPTH 32           /* deepest expression, assigned element or process */
#define GUTILAMBOY_DATA_WORDS 8192    /* most declared words, and longest array */
#define GUTILAMBOY_IMAGE_BYTES 65536  /* longest code that the machine takes */
#define GUTILAMBOY_MEMORY_WORDS 16384 /* most words of memory that the machine takes */

/* What any source of so many tokens needs: words of table, bytes of code buffer. */
#define GUTILAMBOY_TABLE_WORDS(tokens) (4 * (tokens))
#define GUTILAMBOY_CODE_BYTES(tokens) (48 * (tokens) + 256)

/* Words of memory that a program needs, from `data` and `depth` of its translation, and the most that any does. */
#define GUTILAMBOY_NEEDED_WORDS(data, depth) ((data) + 2 * (depth) + 8)
#define GUTILAMBOY_NEEDED_WORDS_MOST 8264

/* The address of memory word 0, in r7; code begins at address 0. */
#define GUTILAMBOY_DATA_BASE 0x20000000

/* ---- translation ---- */

/* Status of a translation. 0: accepted. Else refused, and `place` is the byte, from 0, that is named here. */
#define GUTILAMBOY_ACCEPTED 0
#define GUTILAMBOY_LONG_SOURCE 1     /* source above 16,384 bytes; place 0 */
#define GUTILAMBOY_BROKEN_TOKEN 2    /* broken token, or a byte that starts none; its first byte */
#define GUTILAMBOY_LARGE_NUMBER 3    /* decimal above 2,147,483,647 or hex above FFFFFFFF; its first byte */
#define GUTILAMBOY_LONG_NAME 4       /* name above 32 bytes; its first byte */
#define GUTILAMBOY_MANY_TOKENS 5     /* more than 1,024 tokens; the first byte of token 1,025 */
#define GUTILAMBOY_GRAMMAR 6         /* the first token that no program continues with, or the source's length */
#define GUTILAMBOY_TOO_DEEP 7        /* depth above 32; place 0 */
#define GUTILAMBOY_NOT_DECLARED 8    /* name not declared before; the name */
#define GUTILAMBOY_DECLARED_TWICE 9  /* name declared twice; the second */
#define GUTILAMBOY_WRONG_KIND 10     /* name of another kind than its place takes; the name */
#define GUTILAMBOY_ARRAY_LENGTH 11   /* array length not 1 to 8,192; the array's name */
#define GUTILAMBOY_TOO_MUCH 12       /* more than 256 names or 8,192 words of data; the name that passes it */
#define GUTILAMBOY_SHORT_TABLE 13    /* table shorter than GUTILAMBOY_TABLE_WORDS of the tokens; place 0 */
#define GUTILAMBOY_SHORT_CODE 14     /* code buffer shorter than GUTILAMBOY_CODE_BYTES of the tokens; place 0 */

/* What a translation answers. Of a refused source all counts are 0: a caller that goes on with the rule before must
 * keep that rule's answer too, so lend each call a structure of its own (examples/c/pallet.c). */
struct gutilamboy_translation {
    uint32_t status;
    uint32_t place;  /* of a refusal: a byte of the source, or the source's length */
    uint32_t tokens; /* comments counted */
    uint32_t rows;   /* four words of the table each */
    uint32_t data;   /* declared words */
    uint32_t depth;  /* deepest expression */
    uint32_t code;   /* bytes of the image */
};

/* Translates a source. Accepted: the rows of the syntax table and the image stand at the start of the buffers, zeros
 * behind them. Refused, by whatever number: every word and byte of both buffers is what it was, so the rule that was
 * translated into them before is still there. Only the status tells which, nothing in the buffers does. An accepted
 * call overwrites that rule: let its run end before.
 * A variable or an array is a row of kind 1 or 2, in the order of declaration, with its first memory word and its
 * number of words: memory words 0 to data - 1 are the declared ones. A truth value is -1 (0xFFFFFFFF) or 0.
 * Stack: at most 64 KB, whatever the source; measured on x86-64 (docs/BENCHMARKS.md). */
void gutilamboy_translate(const uint8_t *source, size_t source_length,
                          uint32_t *table, size_t table_length,
                          uint8_t *code, size_t code_length,
                          struct gutilamboy_translation *out);

/* ---- the machine ---- */

/* The machine's registers and flags. The flags are set and tested as Arm's Armv6-M manual says; start gives them as 0.
 * The other bits of apsr are ignored on the way in. A call in which an instruction other than an SVC completes hands 0
 * back there; any other call hands all twelve words back as they came. */
struct gutilamboy_state {
    uint32_t r[8];
    uint32_t sp;
    uint32_t lr;
    uint32_t pc;
    uint32_t apsr; /* the flags: N is bit 31, Z 30, C 29, V 28 */
};

/* Status of step and run: an instruction completed, or the limit was reached; an SVC, whose number is `number`, a
 * finish, stop or bad subscript of an image; a fault; a refusal, which start gives too. `number` is the class of an
 * unsupported instruction, and 0 of every other fault, a refusal and an instruction that completed.
 * After a fault, a refusal or an SVC state and memory are as before that instruction: pc stands at it. Each check of
 * a subscript has two SVCs of its own, so the pc of a bad subscript tells which check failed. */
#define GUTILAMBOY_DONE 0
#define GUTILAMBOY_SVC 1
#define GUTILAMBOY_FAULT_FETCH 21       /* pc odd, or a byte of the instruction outside code */
#define GUTILAMBOY_FAULT_UNDEFINED 22   /* not in the list, and undefined or unpredictable in Armv6-M: garbage */
#define GUTILAMBOY_FAULT_ALIGNMENT 23   /* address not a multiple of 4 */
#define GUTILAMBOY_FAULT_ADDRESS 24     /* a byte outside memory, or a store not in data */
#define GUTILAMBOY_FAULT_UNSUPPORTED 26 /* good Armv6-M that is not in the list; its class is `number` */
#define GUTILAMBOY_LONG_CODE 31         /* code above 65,536 bytes */
#define GUTILAMBOY_LONG_MEMORY 32       /* memory above 16,384 words */
#define GUTILAMBOY_SHORT_MEMORY 33      /* start: fewer words than needed */
#define GUTILAMBOY_BAD_NUMBERS 34       /* start: data above 8,192 or depth above 32 */

/* Classes of instructions: the lines of the Armv6-M manual's table of 16-bit instructions, then all 32-bit ones. 22 and
 * 26 go by the halfwords alone (docs/CLASSES.md has each). Classes 4, 6, 7 and 12 are in the list whole, so 26 never has
 * them. */
#define GUTILAMBOY_CLASS_IMMEDIATE 1       /* shift (immediate), add, subtract, move, and compare */
#define GUTILAMBOY_CLASS_DATA 2            /* data processing */
#define GUTILAMBOY_CLASS_SPECIAL 3         /* special data instructions, and branch and exchange */
#define GUTILAMBOY_CLASS_LITERAL 4         /* load from the literal pool */
#define GUTILAMBOY_CLASS_LOAD_STORE 5      /* load or store of a single data item */
#define GUTILAMBOY_CLASS_PC_ADDRESS 6      /* PC-relative address */
#define GUTILAMBOY_CLASS_SP_ADDRESS 7      /* SP-relative address */
#define GUTILAMBOY_CLASS_MISCELLANEOUS 8   /* miscellaneous 16-bit instructions */
#define GUTILAMBOY_CLASS_STORE_MULTIPLE 9  /* store of several registers */
#define GUTILAMBOY_CLASS_LOAD_MULTIPLE 10  /* load of several registers */
#define GUTILAMBOY_CLASS_CONDITIONAL 11    /* conditional branch, and supervisor call */
#define GUTILAMBOY_CLASS_BRANCH 12         /* unconditional branch */
#define GUTILAMBOY_CLASS_32_BIT 13         /* 32-bit instructions */

#define GUTILAMBOY_FINISH 0
#define GUTILAMBOY_STOP 1
#define GUTILAMBOY_BAD_SUBSCRIPT 2

/* The status of start; the state to begin with, all zero where it is refused. `data` and `depth` are those of the
 * translation, `code_length` is the image's length, not the buffer's. Memory holds the starting words: `data` declared
 * ones; the words behind them may hold anything, an image's status, number, count and declared words never depend on
 * them, so nothing has to be cleared before another rule. */
uint32_t gutilamboy_start(const uint8_t *code, size_t code_length,
                          const uint32_t *memory, size_t memory_length,
                          uint32_t data, uint32_t depth,
                          struct gutilamboy_state *state);

struct gutilamboy_stepped {
    uint32_t status;
    uint32_t number;
};

struct gutilamboy_ran {
    uint64_t status;
    uint64_t number;
    uint64_t count; /* instructions completed; an SVC counts, a fault doesn't */
};

/* One instruction. */
void gutilamboy_step(const uint8_t *code, size_t code_length,
                     uint32_t *memory, size_t memory_length,
                     struct gutilamboy_state *state, struct gutilamboy_stepped *out);

/* Up to `limit` instructions. */
void gutilamboy_run(const uint8_t *code, size_t code_length,
                    uint32_t *memory, size_t memory_length,
                    uint64_t limit,
                    struct gutilamboy_state *state, struct gutilamboy_ran *out);

/* ---- encoding (libgutilamboy_codec.a) ---- */

/* The instructions by number. Fields a, b, c are in the order of the comments, unused ones 0; d is the register that
 * takes the result, or is stored; n a shift count (1 to 32 of SHRI and ASHRI); u5, u7 and u8 count words, and of MOVI,
 * ADDI, SUBI and SVC units; k is a distance in halfwords from the instruction's address + 4, as 32-bit two's
 * complement. */
#define GUTILAMBOY_OP_SHLI 0     /* n l d */
#define GUTILAMBOY_OP_SHRI 1     /* n l d */
#define GUTILAMBOY_OP_ASHRI 2    /* n l d */
#define GUTILAMBOY_OP_ADDR 3     /* r l d */
#define GUTILAMBOY_OP_SUBR 4     /* r l d */
#define GUTILAMBOY_OP_MOVI 5     /* d u8 */
#define GUTILAMBOY_OP_ADDI 6     /* d u8 */
#define GUTILAMBOY_OP_SUBI 7     /* d u8 */
#define GUTILAMBOY_OP_LDRPCI 8   /* d u8 */
#define GUTILAMBOY_OP_STRSPI 9   /* d u8 */
#define GUTILAMBOY_OP_LDRSPI 10  /* d u8 */
#define GUTILAMBOY_OP_ADDPCI 11  /* d u8 */
#define GUTILAMBOY_OP_ADDSPI 12  /* d u8 */
#define GUTILAMBOY_OP_ANDR 13    /* r d */
#define GUTILAMBOY_OP_XORR 14    /* r d */
#define GUTILAMBOY_OP_SHL 15     /* r d */
#define GUTILAMBOY_OP_SHR 16     /* r d */
#define GUTILAMBOY_OP_NEGR 17    /* r d */
#define GUTILAMBOY_OP_ORR 18     /* r d */
#define GUTILAMBOY_OP_MUL 19     /* r d */
#define GUTILAMBOY_OP_MVNR 20    /* r d */
#define GUTILAMBOY_OP_STR 21     /* i b d */
#define GUTILAMBOY_OP_LDR 22     /* i b d */
#define GUTILAMBOY_OP_STRI 23    /* u5 b d */
#define GUTILAMBOY_OP_LDRI 24    /* u5 b d */
#define GUTILAMBOY_OP_INCSP 25   /* u7 */
#define GUTILAMBOY_OP_DECSP 26   /* u7 */
#define GUTILAMBOY_OP_SVC 27     /* u8 */
#define GUTILAMBOY_OP_BEQ 28     /* k */
#define GUTILAMBOY_OP_BNE 29     /* k */
#define GUTILAMBOY_OP_BGE 30     /* k */
#define GUTILAMBOY_OP_BLT 31     /* k */
#define GUTILAMBOY_OP_BU 32      /* k */
#define GUTILAMBOY_OP_BL 33      /* k */
#define GUTILAMBOY_OP_NONE 34    /* decode: no instruction of the list */

/* Status of encode: 0, or a field or the number out of range; then count and both halfwords are 0. */
#define GUTILAMBOY_OUT_OF_RANGE 35

struct gutilamboy_encoded {
    uint32_t status;
    uint32_t count; /* of halfwords */
    uint32_t first;
    uint32_t second; /* 0 but of BL */
};

struct gutilamboy_decoded {
    uint32_t op;
    uint32_t a;
    uint32_t b;
    uint32_t c;
    uint32_t k;
};

void gutilamboy_encode(uint8_t op, uint8_t a, uint8_t b, uint8_t c, uint32_t k, struct gutilamboy_encoded *out);

/* `second` is looked at only where `first` is F000 to F7FF. */
void gutilamboy_decode(uint16_t first, uint16_t second, struct gutilamboy_decoded *out);

#ifdef __cplusplus
}
#endif

#endif
