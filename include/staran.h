/* The library for C of the STARAN array: one module of 256 words by 256 bits, with its registers, its network, lists and disk blocks.
 *
 * `make library` proves it and writes target/staticlib/libstaran.a, for x86-64; `make install PREFIX=..` puts that file, this header
 * and a pkg-config file where a compiler looks. No other library is needed. docs/MACHINE.md is the machine's manual.
 *
 * WHAT HOLDS FOR EVERY FUNCTION
 *
 * - It writes its answer, numbers of 32 bits, to the array `answer` that the caller lends: every one of them on every call, whatever
 *   stood there. answer[0] is always the number: 0 (done), or a refusal's, from staran_numbers.h. (staran_version alone takes nothing,
 *   and gives its answer back as a function.)
 * - "Judged" says the order in which a function looks for a refusal: the first that applies is given, and nothing after it matters.
 * - Lengths are counted in bytes. Any length and any bytes may be lent: what does not fit is refused, with a number.
 * - A refusal writes no lent byte but the answer's, not even the same one. (staran_pass and staran_wired_pass also give a zero item.)
 * - What is done changes only what is said here to change. A buffer marked const is never written.
 * - Each pointer leads to as many bytes as its length says, or as its type says where it has no length. NO POINTER MAY BE NULL, also
 *   where its length is 0: then it may lead to any byte at all, which is not touched. `answer` is aligned as uint32_t is; bytes need
 *   no alignment.
 * - THE BUFFERS OF ONE CALL DO NOT OVERLAP, not in one byte, the answer included. Buffers of length 0 overlap nothing.
 * - Whether pointers keep these two rules is not looked at and cannot be: a call that breaks them may do anything.
 * - Nothing is kept between calls, nothing is allocated, no file is opened and no system call is made. Calls on different buffers may
 *   run at once. Nothing throws, and nothing is called back.
 * - "Stack" is how many bytes of stack a call needs at most below its caller, whatever is lent, done or refused: the arguments passed
 *   there, the return address, and everything below it to the last byte written. It does not grow with a list or a file. The figures
 *   are of the archive that `make library` makes: tests/c/run follows every path of its machine code, and measures calls as well; a
 *   program that compiles the crates itself measures anew. memcpy and memset are counted with 64 bytes below their return address
 *   (glibc's use none). On top comes what a signal handler or an interrupt puts on the same stack, and the 128 bytes below the stack
 *   pointer that it must leave alone, the red zone, of which the figures have what is written; and, unless the program is linked with
 *   -static or -Wl,-z,now, what the loader needs to find memcpy, or a function of the shared object, when it is first called:
 *   thousands of bytes. docs/PERFORMANCE.md has counts.
 * - The calling convention is C's own on x86-64 Linux (System V): a compiler that reads this header follows it. From another language,
 *   each parameter below is one of size_t, uint8_t, uint32_t, uint64_t or a pointer, in the order in which it stands, in the registers rdi,
 *   rsi, rdx, rcx, r8 and r9, then on the stack; staran_version gives its number in eax.
 *
 * ITEMS, MEMORY, REGISTERS
 *
 * - An item is 32 bytes, 256 bits. Number k (a line, a word, a bit or a location) is bit k mod 8 of byte k div 8; bit 0 is the least
 *   significant.
 * - The memory is 8,192 bytes: 256 chips, chip C has bytes 32C to 32C + 31, which are an item of its 256 locations. Location B of chip
 *   C holds bit B of word B xor C. So bit b of word w is bit b mod 8 of byte 32 * (b xor w) + b div 8. All-zero bytes are a memory
 *   whose words are all 0.
 * - Under mode M and address G, line P meets bit ((not M) and G) xor (M and P) of word (M and G) xor ((not M) and P). Mode 0 is bit G
 *   of every word, word P on line P; mode 255 is word G, bit P on line P.
 * - The registers are 100 bytes: M at 0 to 31, X at 32 to 63, Y at 64 to 95, an item each; then the two access mode registers, two bytes
 *   each, A at 96 and 97, B at 98 and 99: first the flag, 1 if the register is set, else 0; then its mode, any byte if it is set, 0 if it
 *   is not. Four zeros mean that neither is set. A flag over 1, or a mode that is not 0 behind flag 0, is refused with 15. Kind 6 sets a
 *   register, and nothing unsets it.
 * - No list that is built here sets a mode register, or takes a mode from one: its run takes them set or not, and leaves both as they were.
 *
 * INSTRUCTIONS, 8 bytes each: the names and macros below make them
 *
 *   byte 0   kind: 0 logic, 1 set M, 2 store, 3 masked store, 4 deliver, 5 resolve, 6 set a mode register
 *   byte 1   source: 0 memory, 1 M, 2 X, 3 Y, 4 outside (the next 32 bytes of the lent items, for each use)
 *   byte 2   mode tag: 1 takes the mode from byte 3, 2 from mode register A, 3 from B. Kinds 0, 1 and 4 with source 0, and kinds 2 and 3
 *            always, touch memory and need one; kind 6 needs 2 or 3, the register that it sets
 *   byte 3   mode, with tag 1 and of kind 6; else 0
 *   byte 4   address
 *   byte 5   flip F: line I moves to line I xor F
 *   byte 6   shift, after the flip: 16p + m with m < p <= 8 keeps I div 2^p and moves the rest to (rest + 2^m) mod 2^p; 0 shifts
 *            nothing
 *   byte 7   logic alone: 16 * choice + function. Function bit 2r + f is the new register bit for old bit r and passed bit f.
 *            Choice 0: X; 1: Y; 2: both; 3: X where Y is 1; 4: X where the old Y is 1, and Y everywhere
 *
 * The source item makes one pass, flip and then shift. Logic joins it to X and Y; set M puts it into M; a store writes line P's bit
 * where line P points under mode and address; a masked store writes line P's bit there exactly if bit P of M is 1, where P is the
 * line after the flip: M does not go through the network; deliver puts the item into the next 32 bytes of the out buffer. Resolve
 * delivers an item of its own, about the responders, the lines whose bit of Y is 1: byte 0 is 1 if there is one, else 0; bytes 1 and
 * 2 are the smallest responder, 256 if there is none; bytes 3 and 4 are how many there are, 0 to 256; the other 27 are 0. Both
 * numbers have their low byte first: STARAN_SMALLEST_RESPONDER and STARAN_RESPONDER_COUNT read them.
 *
 * Kind 6 puts byte 3 into mode register A, with tag 2, or B, with tag 3, and sets it; its other bytes are 0. It makes no pass, takes no
 * item and gives none, and is a step as the others are. Where memory is touched with tag 2 or 3, the mode is what the kind 6 nearest
 * before it in the list put into that register, or else what was set there at the start; where neither set it, the list is refused with
 * 14, before anything acts. */
#ifndef STARAN_H
#define STARAN_H

#include <stddef.h>
#include <stdint.h>

#include "staran_numbers.h" /* the numbers, STARAN_DONE and STARAN_REFUSED_.., and staran_meaning */

#ifdef __cplusplus
extern "C" {
#endif

/* The version of this header, and the linked library's: see staran_version. */
#define STARAN_VERSION_MAJOR 5
#define STARAN_VERSION_MINOR 4
#define STARAN_VERSION (STARAN_VERSION_MAJOR * UINT32_C(65536) + STARAN_VERSION_MINOR)

/* Lengths in bytes. The registers of a picture of kind 1 are M, X and Y, the first 96 bytes of a run's; of one of kind 4 they are all 100,
 * STARAN_REGISTERS_BYTES. Either is 17 blocks. */
#define STARAN_MEMORY_BYTES 8192
#define STARAN_REGISTERS_BYTES 100
#define STARAN_ITEM_BYTES 32
#define STARAN_INSTRUCTION_BYTES 8
#define STARAN_BLOCK_BYTES 512
#define STARAN_PICTURE_REGISTERS_BYTES 96
#define STARAN_PICTURE_FILE_BYTES 8704 /* 17 blocks */

/* The length of a sum list and of a difference list of width n, 1 to 64. */
#define STARAN_SUM_LIST_BYTES(n) (8 * (1 + 5 * (size_t)(n)))
#define STARAN_DIFFERENCE_LIST_BYTES(n) (8 * (2 + 5 * (size_t)(n)))

/* The lengths of a search over a field of width n, 1 to 64: of the list for equal and of the one for less, of the items of either, and
 * of the list for greatest, which has no items. */
#define STARAN_SEARCH_LIST_BYTES(n) (8 * (2 + 3 * (size_t)(n)))
#define STARAN_SEARCH_ITEMS_BYTES(n) (32 * (size_t)(n))
#define STARAN_GREATEST_LIST_BYTES(n) (8 * (1 + 11 * (size_t)(n)))

/* The lengths of a closing and of a spreading of a field of width n, 1 to 32: of each list, and of its items. A closing has nine items,
 * whatever the width. */
#define STARAN_CLOSING_LIST_BYTES(n) (8 * (10 + 19 * (size_t)(n)))
#define STARAN_CLOSING_ITEMS_BYTES 288
#define STARAN_SPREADING_LIST_BYTES(n) (8 * (1 + 18 * (size_t)(n)))
#define STARAN_SPREADING_ITEMS_BYTES(n) (32 * (1 + 8 * (size_t)(n)))

/* The length of the blocks of a list or of items of n bytes, n at most 32,768: a block has 496 bytes of payload, and no content takes
 * one block. */
#define STARAN_FILE_BYTES(n) ((n) == 0 ? (size_t)512 : 512 * (((size_t)(n) + 495) / 496))

/* Room that is enough for the text of a list of n bytes, n at most 32,768, and what staran_reach writes of it. A line of text has at most
 * 192 characters. */
#define STARAN_TEXT_BYTES(n) (192 * ((size_t)(n) / 8))
#define STARAN_REACH_BYTES(n) (2 * ((size_t)(n) / 8))
/* The longest text that staran_make takes. */
#define STARAN_LONGEST_TEXT 1048576

/* How many numbers an answer has: of a run or a step, of reading or writing, of a list's builder, of a builder of a list with its
 * items, of the question whether a list is isolated, of what it reaches, of its text, of a list made of a text, of a pass. */
#define STARAN_RUN_NUMBERS 6
#define STARAN_DISK_NUMBERS 3
#define STARAN_LIST_NUMBERS 2
#define STARAN_LIST_AND_ITEMS_NUMBERS 3
#define STARAN_ISOLATED_NUMBERS 2
#define STARAN_REACH_NUMBERS 2
#define STARAN_SHOW_NUMBERS 2
#define STARAN_MAKE_NUMBERS 5
#define STARAN_PASS_NUMBERS 1

/* Where each number of a run's or a step's answer stands: answer[STARAN_ANSWER_BYTE] is the byte. */
enum {
    STARAN_ANSWER_NUMBER = 0,
    STARAN_ANSWER_PLACE = 1,
    STARAN_ANSWER_BYTE = 2,
    STARAN_ANSWER_STEPS = 3,
    STARAN_ANSWER_TAKEN = 4,
    STARAN_ANSWER_GIVEN = 5
};

/* Kinds of content on disk. There are two of pictures: kind 1 has the words, M, X and Y, as the builds before 5.1 read and write it; kind 4
 * has the mode registers too. staran_picture_to_new and staran_picture_to_old make one of the other. */
enum { STARAN_CONTENT_PICTURE = 1, STARAN_CONTENT_LIST = 2, STARAN_CONTENT_ITEMS = 3, STARAN_CONTENT_PICTURE_WITH_MODES = 4 };

/* Byte 0 of an instruction. */
enum {
    STARAN_KIND_LOGIC = 0,
    STARAN_KIND_SET_M = 1,
    STARAN_KIND_STORE = 2,
    STARAN_KIND_MASKED_STORE = 3,
    STARAN_KIND_DELIVER = 4,
    STARAN_KIND_RESOLVE = 5,
    STARAN_KIND_SET_MODE = 6
};

/* Byte 1. */
enum {
    STARAN_SOURCE_MEMORY = 0,
    STARAN_SOURCE_M = 1,
    STARAN_SOURCE_X = 2,
    STARAN_SOURCE_Y = 3,
    STARAN_SOURCE_OUTSIDE = 4
};

/* Byte 2: where the mode stands, if there is one. */
enum { STARAN_TAG_NONE = 0, STARAN_TAG_GIVEN = 1, STARAN_TAG_A = 2, STARAN_TAG_B = 3 };

/* Byte 3: the two modes with a name; each of the 256 is a mode. */
enum { STARAN_MODE_SLICE = 0, STARAN_MODE_WORD = 255 };

/* Byte 7, the high half: which register takes the new bits. */
enum {
    STARAN_CHOICE_X = 0,
    STARAN_CHOICE_Y = 1,
    STARAN_CHOICE_BOTH = 2,
    STARAN_CHOICE_X_WHERE_Y = 3,
    STARAN_CHOICE_X_WHERE_Y_AND_Y = 4
};

/* Byte 7, the low half: what the new bit is, of the register's old bit and the item's. Each of 0 to 15 is a function. */
enum {
    STARAN_FUNCTION_CLEAR = 0,    /* 0 */
    STARAN_FUNCTION_NOT_OLD = 3,  /* not old */
    STARAN_FUNCTION_WITHOUT = 4,  /* old and not item */
    STARAN_FUNCTION_NOT_ITEM = 5, /* not item */
    STARAN_FUNCTION_XOR = 6,      /* one of old and item, and not both */
    STARAN_FUNCTION_AND = 8,      /* old and item */
    STARAN_FUNCTION_EQUAL = 9,    /* both of old and item, or none */
    STARAN_FUNCTION_ITEM = 10,    /* item */
    STARAN_FUNCTION_OLD = 12,     /* old */
    STARAN_FUNCTION_OR = 14,      /* old or item */
    STARAN_FUNCTION_SET = 15      /* 1 */
};

/* Byte 6: a shift by 2^m modulo 2^p, m < p <= 8; and none. */
#define STARAN_SHIFT(p, m) (16 * (p) + (m))
#define STARAN_NO_SHIFT 0
#define STARAN_NO_FLIP 0

/* An instruction's eight bytes, with commas between, for an initializer: uint8_t list[] = {STARAN_STORE(..), STARAN_RESOLVE};
 * The short ones set what must be 0 to 0. What touches memory takes mode and address; or it is called _BY, and takes the tag of a mode
 * register, STARAN_TAG_A or STARAN_TAG_B, and the address; what does not touch memory is called _FROM and takes a source.
 * STARAN_SET_MODE sets the register of a tag to a mode. */
#define STARAN_INSTRUCTION(kind, source, tag, mode, address, flip, shift, logic) \
    (uint8_t)(kind), (uint8_t)(source), (uint8_t)(tag), (uint8_t)(mode), (uint8_t)(address), (uint8_t)(flip), (uint8_t)(shift), \
        (uint8_t)(logic)
#define STARAN_LOGIC(mode, address, flip, shift, choice, function) \
    STARAN_INSTRUCTION(STARAN_KIND_LOGIC, STARAN_SOURCE_MEMORY, 1, mode, address, flip, shift, 16 * (choice) + (function))
#define STARAN_LOGIC_BY(tag, address, flip, shift, choice, function) \
    STARAN_INSTRUCTION(STARAN_KIND_LOGIC, STARAN_SOURCE_MEMORY, tag, 0, address, flip, shift, 16 * (choice) + (function))
#define STARAN_LOGIC_FROM(source, flip, shift, choice, function) \
    STARAN_INSTRUCTION(STARAN_KIND_LOGIC, source, 0, 0, 0, flip, shift, 16 * (choice) + (function))
#define STARAN_SET_M(mode, address, flip, shift) \
    STARAN_INSTRUCTION(STARAN_KIND_SET_M, STARAN_SOURCE_MEMORY, 1, mode, address, flip, shift, 0)
#define STARAN_SET_M_BY(tag, address, flip, shift) \
    STARAN_INSTRUCTION(STARAN_KIND_SET_M, STARAN_SOURCE_MEMORY, tag, 0, address, flip, shift, 0)
#define STARAN_SET_M_FROM(source, flip, shift) STARAN_INSTRUCTION(STARAN_KIND_SET_M, source, 0, 0, 0, flip, shift, 0)
#define STARAN_STORE(source, mode, address, flip) \
    STARAN_INSTRUCTION(STARAN_KIND_STORE, source, 1, mode, address, flip, STARAN_NO_SHIFT, 0)
#define STARAN_STORE_BY(source, tag, address, flip) \
    STARAN_INSTRUCTION(STARAN_KIND_STORE, source, tag, 0, address, flip, STARAN_NO_SHIFT, 0)
#define STARAN_MASKED_STORE(source, mode, address, flip) \
    STARAN_INSTRUCTION(STARAN_KIND_MASKED_STORE, source, 1, mode, address, flip, STARAN_NO_SHIFT, 0)
#define STARAN_MASKED_STORE_BY(source, tag, address, flip) \
    STARAN_INSTRUCTION(STARAN_KIND_MASKED_STORE, source, tag, 0, address, flip, STARAN_NO_SHIFT, 0)
#define STARAN_DELIVER(mode, address, flip, shift) \
    STARAN_INSTRUCTION(STARAN_KIND_DELIVER, STARAN_SOURCE_MEMORY, 1, mode, address, flip, shift, 0)
#define STARAN_DELIVER_BY(tag, address, flip, shift) \
    STARAN_INSTRUCTION(STARAN_KIND_DELIVER, STARAN_SOURCE_MEMORY, tag, 0, address, flip, shift, 0)
#define STARAN_DELIVER_FROM(source, flip, shift) STARAN_INSTRUCTION(STARAN_KIND_DELIVER, source, 0, 0, 0, flip, shift, 0)
#define STARAN_RESOLVE STARAN_INSTRUCTION(STARAN_KIND_RESOLVE, 0, 0, 0, 0, 0, 0, 0)
#define STARAN_SET_MODE(tag, mode) STARAN_INSTRUCTION(STARAN_KIND_SET_MODE, 0, tag, mode, 0, 0, 0, 0)

/* What a resolve says, from its 32 bytes, of uint8_t: whether there is a responder; the smallest, 0 to 255, or STARAN_NO_RESPONDER; how
 * many there are. The two numbers read `item` twice. */
#define STARAN_ACTIVITY(item) ((item)[0])
#define STARAN_SMALLEST_RESPONDER(item) ((item)[1] + 256 * (item)[2])
#define STARAN_RESPONDER_COUNT(item) ((item)[3] + 256 * (item)[4])
#define STARAN_NO_RESPONDER 256

/* The register record that a step is lent: the same 100 bytes in the same order as a run's registers. */
typedef struct {
    uint8_t m[32];
    uint8_t x[32];
    uint8_t y[32];
    uint8_t a_set, a_mode; /* mode register A: its flag, and its mode */
    uint8_t b_set, b_mode; /* mode register B */
} staran_registers;

#if defined(__cplusplus) && __cplusplus >= 201103L
static_assert(sizeof(staran_registers) == STARAN_REGISTERS_BYTES, "the register record is 100 bytes");
#elif defined(__STDC_VERSION__) && __STDC_VERSION__ >= 201112L
_Static_assert(sizeof(staran_registers) == STARAN_REGISTERS_BYTES, "the register record is 100 bytes");
#else
typedef char staran_register_record_is_100_bytes[sizeof(staran_registers) == STARAN_REGISTERS_BYTES ? 1 : -1];
#endif

/* The version of the library that is linked: 65,536 times the major number, plus the minor. It takes nothing and changes nothing.
 *
 * A later version may read an instruction otherwise, deliver other bytes, give other numbers or ask for longer registers: see
 * docs/CHANGELOG.md. An answer or a record that gets longer comes under another function name. So a program that was compiled with one
 * version and is linked with another asks before its first call that staran_version() == STARAN_VERSION.
 * Stack: at most 64 bytes. */
uint32_t staran_version(void);

/* Runs a list of instructions.
 *
 * memory      8,192 bytes, else 1
 * registers   100 bytes, else 2; of each mode register the flag is 1, or it is 0 and the mode too, else 15
 * list        a multiple of 8 bytes, at most 32,768, else 3. The empty list is done
 * items       a multiple of 32 bytes, at most 32,768, else 4. Items that no instruction takes are no fault
 * out         any length
 * answer      number, place, byte, steps, taken, given: STARAN_ANSWER_NUMBER and so on say where
 *
 * Judged: 1, 2, 3, 4, 15; then for each instruction in turn 5, 6, 7, 8, 9, 14, 18, 16, 17, 11, in this order within it; then 12; then
 * 13; all before the first instruction acts. For 14 a mode register counts as set if its flag is 1 at the start, or if an instruction
 * before this one is a kind 6 that sets it. The place is the number of the instruction that is refused, counted from 0; for 12 and 13
 * that is the first that lacks its item or its 32 bytes of room; for 1 to 4 and 15 it is 0.
 * The byte, 0 to 7, is the first of that instruction's bytes that is wrong by the number given:
 *
 *   5           byte 0
 *   6           byte 1
 *   7, 8, 14    byte 2
 *   9           the first of bytes 2, 3 and 4 that is not 0; where memory is touched, with tag 2 or 3, byte 3; of kind 6, byte 4
 *   18          byte 6 of a store; of a resolve or of kind 6 the first of bytes 5 and 6 that is not 0
 *   16, 17      byte 6
 *   11          byte 7
 *
 * For all other numbers, also for 12 and 13, it is 0.
 * Done: place and byte 0; steps is the count of instructions, taken that of the items taken (source 4), given that of the items given
 * (kinds 4 and 5). Memory and registers are as the instructions leave them; the first 32 * given bytes of out are the items given, and
 * the bytes past them stay.
 * Refused: steps, taken and given are 0, and memory, registers and out are as they were.
 *
 * The 4 in the name is the major version since which the function has its form. Until 3.1 staran_run and staran_step wrote five numbers,
 * number, place, steps, taken, given, to an array of five. So that no such array is written over, and no byte is read as the steps,
 * they are gone: a program that was compiled for them does not link with this library, and its source finds them in this header no
 * more. To bring it over, call staran_run_4 and staran_step_5, lend an array of STARAN_RUN_NUMBERS and registers of
 * STARAN_REGISTERS_BYTES, and read the answer by the names STARAN_ANSWER_NUMBER to STARAN_ANSWER_GIVEN: behind the place comes the byte,
 * and steps, taken and given stand one further on. 10 is not given any more: where it was, there is 18, 16 or 17.
 * Until 4.0 the registers were 96 bytes, M, X and Y. A program that lends so many is refused with 2: to bring it over, lend four bytes
 * more behind them, zeros at first, and leave there what a run leaves.
 * Stack: at most 1,536 bytes. */
void staran_run_4(uint8_t *memory, size_t memory_length, uint8_t *registers, size_t registers_length, const uint8_t *list,
                  size_t list_length, const uint8_t *items, size_t items_length, uint8_t *out, size_t out_length,
                  uint32_t answer[STARAN_RUN_NUMBERS]);

/* Takes one step, as an operator's console does: it answers, refuses and leaves its buffers as staran_run_4 of the list of that one
 * instruction does.
 *
 * memory        8,192 bytes, else 1
 * registers     the record; it is updated where it stands. 2 is never given; its mode registers are as in staran_run_4, else 15
 * instruction   exactly 8 bytes, else 3
 * items         a multiple of 32 bytes, at most 32,768, else 4; the step takes the first, if it takes one
 * out           any length; the step gives to its first 32 bytes, if it gives
 * answer        number, place, byte, steps, taken, given, as in staran_run_4
 *
 * Judged: 1, 3, 4, 15; then 5, 6, 7, 8, 9, 14, 18, 16, 17, 11; then 12; then 13. For 14 the flags in the record decide. The place is
 * always 0; the byte is as in staran_run_4.
 * Done: byte 0; steps is 1; taken and given are 0 or 1. Refused: steps, taken and given are 0, and memory, registers and out are as
 * they were.
 *
 * The 5 in the name is the major version since which the record has 100 bytes. staran_step_4, until 4.0, was lent 96: so that no byte
 * behind such a record is read and written, it is gone, and a program that was compiled for it does not link with this library. To
 * bring it over, call staran_step_5, and set a_set, a_mode, b_set and b_mode to 0 where the record is made.
 * Stack: at most 1,664 bytes. */
void staran_step_5(uint8_t *memory, size_t memory_length, staran_registers *registers, const uint8_t *instruction,
                   size_t instruction_length, const uint8_t *items, size_t items_length, uint8_t *out, size_t out_length,
                   uint32_t answer[STARAN_RUN_NUMBERS]);

/* Passes an item through the network, in arithmetic form: line I goes to I xor flip, and then by the shift that code names (byte 6 of
 * an instruction).
 *
 * item     the item to pass
 * flip     any
 * code     0 for no shift, or 16p + m with m < p <= 8: 37 codes in all, else 16 or 17
 * passed   the item passed
 * answer   number
 *
 * Judged: 16 (p is over 8); 17 (code is not 0, and m is not below p).
 * Done: passed is the item passed. Refused: passed is 32 zeros; it is written on every call.
 * Stack: at most 320 bytes. */
void staran_pass(const uint8_t item[32], uint8_t flip, uint8_t code, uint8_t passed[32], uint32_t answer[STARAN_PASS_NUMBERS]);

/* The same in wired form, through eight levels of switches and a table of signals: the same contract, and always the same answer and
 * item.
 * Stack: at most 1,200 bytes. */
void staran_wired_pass(const uint8_t item[32], uint8_t flip, uint8_t code, uint8_t passed[32],
                       uint32_t answer[STARAN_PASS_NUMBERS]);

/* Builds the list of instructions that, run, sets field S of every word to A plus B modulo 2^n; Y is then the carry out of each word,
 * and X is 0.
 *
 * a, b, s   the starts of the fields, which are the numbers of their least significant bits: any numbers of 32 bits
 * n         the width of all three: any number of 32 bits
 * list      any length; the list has 8 * (1 + 5n) bytes
 * answer    number, count of bytes written
 *
 * Judged: 30 (n is not 1 to 64); 31 (a + n, b + n or s + n is over 256, as whole numbers); 32 (S overlaps A without having A's start,
 * or overlaps B without having B's); 33 (list_length is under 8 * (1 + 5n)). S may be A's field or B's, where it is apart from the
 * other; A and B may overlap each other.
 * Done: the first bytes of list are the list, the count is its length, and the bytes past it stay. Refused: the count is 0 and list is
 * as it was.
 * Stack: at most 128 bytes. */
void staran_sum_list(uint32_t a, uint32_t b, uint32_t s, uint32_t n, uint8_t *list, size_t list_length,
                     uint32_t answer[STARAN_LIST_NUMBERS]);

/* The same for A minus B modulo 2^n; Y is then 1 in each word that needs no borrow. The list has 8 * (2 + 5n) bytes, in 33 too.
 * Stack: at most 128 bytes. */
void staran_difference_list(uint32_t a, uint32_t b, uint32_t s, uint32_t n, uint8_t *list, size_t list_length,
                            uint32_t answer[STARAN_LIST_NUMBERS]);

/* Builds the list of instructions, and its items, that, run, mark in Y exactly the words whose field is equal to a number: of all 256
 * words, whatever M, X and Y hold before. X then has the same marks; M, the memory and the out buffer are as they were.
 *
 * start     the start of the field, the number of its least significant bit: any number of 32 bits
 * n         its width: any number of 32 bits
 * number    any number of 64 bits
 * list      any length; the list has 8 * (2 + 3n) bytes
 * items     any length; the items have 32n bytes: item k has bit k of the number on every line
 * answer    number, count of bytes written to list, count of bytes written to items
 *
 * Judged: 30 (n is not 1 to 64); 31 (start + n is over 256, as whole numbers); 34 (number is 2^n or more); 33 (list_length is under
 * 8 * (2 + 3n), or items_length under 32n).
 * Done: the first bytes of list are the list and the first bytes of items its items, the counts are their lengths, and the bytes past
 * them stay. Refused: both counts are 0, and list and items are as they were.
 * To run it, lend staran_run_4 the list with the length answer[1] and the items with the length answer[2]: the list takes the first n
 * items, in their order. Whole items behind those are no fault. The list depends on the field alone and the items on the number and
 * the width alone, so one list serves every number.
 * Stack: at most 192 bytes. */
void staran_equal_list(uint32_t start, uint32_t n, uint64_t number, uint8_t *list, size_t list_length, uint8_t *items,
                       size_t items_length, uint32_t answer[STARAN_LIST_AND_ITEMS_NUMBERS]);

/* The same for the words whose field is less than the number, both as whole numbers with no sign.
 * Stack: at most 192 bytes. */
void staran_less_list(uint32_t start, uint32_t n, uint64_t number, uint8_t *list, size_t list_length, uint8_t *items,
                      size_t items_length, uint32_t answer[STARAN_LIST_AND_ITEMS_NUMBERS]);

/* Builds the list of instructions that, run, leaves marked in Y, of the words that are marked there before, exactly those whose field
 * holds the greatest value, as a whole number with no sign: all of them where several do, and none where none is marked. X is then 0;
 * M, the memory and the out buffer are as they were. It takes no items.
 *
 * start     the start of the field: any number of 32 bits
 * n         its width: any number of 32 bits
 * list      any length; the list has 8 * (1 + 11n) bytes
 * answer    number, count of bytes written
 *
 * Judged: 30 (n is not 1 to 64); 31 (start + n is over 256, as whole numbers); 33 (list_length is under 8 * (1 + 11n)).
 * Done: the first bytes of list are the list, the count is its length, and the bytes past it stay. Refused: the count is 0 and list is
 * as it was.
 * To run it, lend staran_run_4 the list with the length answer[1].
 * Stack: at most 64 bytes. */
void staran_greatest_list(uint32_t start, uint32_t n, uint8_t *list, size_t list_length, uint32_t answer[STARAN_LIST_NUMBERS]);

/* Builds the list of instructions, and its items, that, run, close up the marked words: field A of the first marked word goes to
 * field S of word 0, that of the second to S of word 1 and so on, in the order of the words' numbers, and S of every other word becomes
 * 0. No other bit of the memory changes, so A stays, and the out buffer is as it was. M, X and Y may hold anything before; what they
 * hold after the run is not promised.
 *
 * a, s      the starts of the fields, which are the numbers of their least significant bits: any numbers of 32 bits
 * n         the width of both: any number of 32 bits
 * marks     32 bytes, else 35: an item with a 1 for each word that is marked, as a search leaves it in Y, bytes 64 to 95 of the
 *           registers. Any marks are good; with none, S becomes 0 in every word
 * list      any length; the list has 8 * (10 + 19n) bytes
 * items     any length; the items have 288 bytes, nine items for every n and all marks
 * answer    number, count of bytes written to list, count of bytes written to items
 *
 * Judged: 35 (marks_length is not 32); 30 (n is not 1 to 32); 31 (a + n or s + n is over 256, as whole numbers); 32 (S and A have a
 * bit in common: also where they have the same start, unlike in a sum); 33 (list_length is under 8 * (10 + 19n), or items_length
 * under 288).
 * Done: the first bytes of list are the list and the first bytes of items its items, the counts are their lengths, and the bytes past
 * them stay. Refused: both counts are 0, and list and items are as they were.
 * To run it, lend staran_run_4 the list with the length answer[1] and the items with the length answer[2]: the list takes the first nine
 * items, in their order. Whole items behind those are no fault. The list depends on the fields alone and the items on the marks alone,
 * so one list serves all marks.
 * Stack: at most 256 bytes. */
void staran_closing_list(uint32_t a, uint32_t s, uint32_t n, const uint8_t *marks, size_t marks_length, uint8_t *list,
                         size_t list_length, uint8_t *items, size_t items_length, uint32_t answer[STARAN_LIST_AND_ITEMS_NUMBERS]);

/* Builds the opposite, that, run, spreads S back: A of the first marked word becomes S of word 0, that of the second S of word 1 and
 * so on. A of the words that are not marked and every other bit of the memory are as they were, so S stays, the out buffer is as it was,
 * and with no marks no bit of the memory changes. M, X and Y may hold anything before; what they hold after the run is not promised. A
 * closing and then a spreading by the same marks give each marked word its old A, whatever was written to A in between, if nothing was
 * written to S.
 *
 * a, s, n   as in staran_closing_list
 * marks     32 bytes, else 35
 * list      any length; the list has 8 * (1 + 18n) bytes
 * items     any length; the items have 32 * (1 + 8n) bytes, for all marks. For n = 31 and 32 they are 249 and 257 items:
 *           staran_run_4 takes up to 1,024, the program's in.itm has room for 248
 * answer    number, count of bytes written to list, count of bytes written to items
 *
 * Judged, done, refused and run as a closing is, with these lengths in 33; the list takes the first 1 + 8n items. The list depends on
 * the fields alone and the items on the marks and the width alone.
 * Stack: at most 256 bytes. */
void staran_spreading_list(uint32_t a, uint32_t s, uint32_t n, const uint8_t *marks, size_t marks_length, uint8_t *list,
                           size_t list_length, uint8_t *items, size_t items_length, uint32_t answer[STARAN_LIST_AND_ITEMS_NUMBERS]);

/* Says of a list whether it is one in which no station can disturb another: kinds 0 to 3 and 6 alone, mode 0 in every access of memory,
 * no flips and no shifts. Then what becomes of a station depends on that station alone; the list may still write every station, as a sum
 * writes S in every word. Nothing else of the list is judged, and nothing runs.
 *
 * What 0 promises: take two runs of the list that are done, whose memories, M, X, Y and items may differ in any other way but agree on
 * word P, on bit P of M, X and Y, on bit P of each item taken, and in the mode registers, which are those asked about. Afterwards word P,
 * bit P of M, X and Y, and the mode registers are the same in both, and both out buffers are as they were. That holds for each P.
 *
 * list        a multiple of 8 bytes, at most 32,768, else 3
 * registers   100 bytes, else 2, with which the run will start. The four bytes of the mode registers count alone, and are refused with 15 as
 *             a run refuses them: M, X and Y may hold anything
 * answer      number, place
 *
 * Judged: 2, 3, 15, as by staran_run_4, at place 0; then 40, at the first instruction (its number, counted from 0) that breaks the condition:
 * - its kind is 4, 5 or over 6; or
 * - byte 5 or byte 6 is not 0, of whatever kind it is; or
 * - it touches memory (kinds 0 and 1 with source 0, kinds 2 and 3 always) and its mode is not 0. It is 0 with tag 1 and 0 in byte 3; and,
 *   whatever byte 3 is, with tag 2 or 3 where that register is then set, at the start or by an earlier kind 6, and holds 0. A register
 *   that is not set holds no mode, and tag 0 and tags over 3 give none: 40 too.
 * A kind 6 with tag 2 or 3 sets its register, whatever bytes 1, 4 and 7 are, and may load any mode, as long as no access uses it; with
 * another tag it sets nothing. Else 0 and place 0: also for an empty list, and for a list whose run is refused all the same (1, 4, 12, or
 * 6 to 9 and 11 of an instruction). An answer of 40 does not say that a station is disturbed, but that nothing is promised.
 * The lists for sums, differences, equal and less are such lists; those for greatest, closing and spreading are not.
 * Nothing is written but the answer.
 * Stack: at most 64 bytes. */
void staran_isolated(const uint8_t *list, size_t list_length, const uint8_t *registers, size_t registers_length,
                     uint32_t answer[STARAN_ISOLATED_NUMBERS]);

/* Says of each instruction of a list how many words, that is stations, it reaches: a store under mode M reaches 2 to the number of M's zero
 * bits, from 1 (mode 255, a word) to all 256 (mode 0, a bit slice). A store changes no bit of any other word; a masked store may change
 * fewer.
 *
 * registers   100 bytes, else 2, with which the run will start. The four bytes of the mode registers count alone, and are refused with 15 as
 *             a run refuses them: M, X and Y may hold anything
 * list        a multiple of 8 bytes, at most 32,768, else 3
 * out         2 bytes for each instruction: STARAN_REACH_BYTES
 * answer      number, count of bytes written
 *
 * Judged: 2, 3, 15, as by staran_run_4; then 27 (out_length is under 2 bytes for each instruction).
 * Done: bytes 2k and 2k + 1 of out are the count of instruction k, low byte first, and the bytes past them stay. The count is 0 for an
 * instruction that does not store, and for one that is refused by its own bytes (5 to 9, 11, 16 to 18) or with 14, by the mode registers as
 * the instructions before it leave them: such a list runs not at all.
 * Refused: count 0, and out is as it was.
 * Stack: at most 256 bytes. */
void staran_reach(const uint8_t *registers, size_t registers_length, const uint8_t *list, size_t list_length, uint8_t *out,
                  size_t out_length, uint32_t answer[STARAN_REACH_NUMBERS]);

/* Writes the text of a list: a line for each instruction, as docs/TEXT.md has it, in ASCII, a line feed behind each line and no zero behind
 * the last.
 *
 *   store mode 13 address 255 from outside ; reaches 32 words
 *   bytes 02 04 00 0D 00 00 00 00 ; refused 7 byte 2
 *
 * list     a multiple of 8 bytes, at most 32,768, else 3; any bytes
 * text     room for the text: STARAN_TEXT_BYTES is always enough
 * answer   number, count of characters
 *
 * Judged: 3; then 27 (text_length is under the text's length).
 * Done: the first characters of text are the text, and the bytes past it stay. An instruction that a run refuses by its own bytes stands
 * there as `bytes`, with the number and the byte; a store is followed by how many words it reaches, `?` where it takes its mode from a
 * register that no instruction before it sets.
 * Refused: count 0, and text is as it was.
 * Stack: at most 896 bytes. */
void staran_show(const uint8_t *list, size_t list_length, uint8_t *text, size_t text_length, uint32_t answer[STARAN_SHOW_NUMBERS]);

/* Makes the list of a text, and its items. A line of the text is an instruction, as staran_show writes it, or a statement: a field that gets
 * a name, a sum, a difference or a search over such fields, or how many words a store may reach. docs/TEXT.md has them all.
 *
 *   field height 0 32
 *   less height 20000
 *   reach at most 1 word
 *   store word 13 from outside
 *
 * text     any bytes; at most 1,048,576 (STARAN_LONGEST_TEXT), else 50. No zero is needed behind the last
 * list     any length; 32,768 bytes are always enough
 * items    any length; 32,768 bytes are always enough. A text without `equal` and `less` brings none
 * answer   number, line, column, count of bytes written to list, count of bytes written to items
 *
 * Judged: 50; then the lines in turn, and in each its words from left to right: 60 to 77, and 30, 31, 32 and 34 as of the builders; then 3
 * (the list has over 32,768 bytes), 4 (the items have), 33 (list_length is under the list, or items_length under the items). Line and
 * column say where the refused word begins, both from 1 and in bytes; for 69 where the line ends, for 75 and 77 where its first word
 * begins; for 50, 3, 4 and 33 they are 0.
 * Done: line and column 0; the first bytes of list are the list and the first bytes of items its items, the counts are their lengths, and
 * the bytes past them stay. Refused: both counts are 0, and list and items are as they were.
 * To run it, lend staran_run_4 the list with the length of the first count, and the items with that of the second, behind them an item for
 * each instruction of the text that takes one from outside. What the list then reaches staran_reach tells.
 * Stack: at most 3,392 bytes. */
void staran_make(const uint8_t *text, size_t text_length, uint8_t *list, size_t list_length, uint8_t *items, size_t items_length,
                 uint32_t answer[STARAN_MAKE_NUMBERS]);

/* Reads the blocks of a list or of items.
 *
 * kind     the kind asked for: 2 list, 3 items
 * bytes    the file: 1 to 67 blocks of 512 bytes
 * target   at least as long as the content
 * answer   number, place, bytes put out
 *
 * Judged: 22 at place 0 (kind is not 1 to 4); 20; then for each block in turn 21, 22, 23, 24; then 25; then 26 (target_length is under
 * the content's size). The place of 21 to 24 is the number of the block, counted from 0; else it is 0. Kinds 1 and 4 are judged in the
 * same way, as pictures, and if the file stands the answer is 26: a picture has two targets, see staran_read_picture.
 * Done: place 0; the first bytes of target are the content, the third number is its size, and the bytes past it stay.
 * Refused: 0 bytes, and target is as it was.
 * Stack: at most 192 bytes. */
void staran_read_content(size_t kind, const uint8_t *bytes, size_t bytes_length, uint8_t *target, size_t target_length,
                         uint32_t answer[STARAN_DISK_NUMBERS]);

/* Writes a list or items as blocks.
 *
 * kind      2 list, 3 items
 * content   a list: a multiple of 8 bytes; items: a multiple of 32; at most 32,768 bytes
 * out       at least 512 bytes for each 496 of the content or part of it, and 512 for none: STARAN_FILE_BYTES
 * answer    number, place, bytes put out
 *
 * Judged, all at place 0: 22 (kind is not 1 to 4); 26 (content_length is unfit for the kind; kinds 1 and 4 always); 27 (out_length is
 * under the length of the blocks).
 * Done: the first bytes of out are the blocks, the third number is their length, and the bytes past them stay.
 * Refused: 0 bytes, and out is as it was.
 * Stack: at most 192 bytes. */
void staran_write_content(size_t kind, const uint8_t *content, size_t content_length, uint8_t *out, size_t out_length,
                          uint32_t answer[STARAN_DISK_NUMBERS]);

/* Reads the blocks of a picture: the 256 words in plain order, the registers M, X and Y and, of kind 4, the two mode registers. A picture
 * of kind 1 has no mode registers: of a run's registers lend the first STARAN_PICTURE_REGISTERS_BYTES, and the mode registers behind them
 * stay; to start with neither set, put four zeros there. Of a file that may be either, its first two bytes say which, the low byte first.
 *
 * kind        the kind asked for: 1 picture, 4 picture with mode registers
 * bytes       the file; a picture that stands is 17 blocks, 8,704 bytes
 * memory      exactly 8,192 bytes
 * registers   exactly 96 bytes for kind 1, exactly 100 for kind 4
 * answer      number, place, bytes put out
 *
 * Judged: as staran_read_content judges, 22, 20, 21 to 24, 25; then 26 (memory_length is not 8,192, or registers_length is not the kind's);
 * then 15 at place 0 (of kind 4: in the file a flag is over 1, or a mode is not 0 behind flag 0). Kinds 2 and 3 are judged in the same
 * way, as a list or items, and if the file stands the answer is 26.
 * Done: place 0; memory has the words, scrambled as above, registers has M, X and Y and, of kind 4, the mode registers, fit for a run; the
 * third number is 8,288 for kind 1, 8,292 for kind 4.
 * Refused: 0 bytes, and memory and registers are as they were.
 * Stack: at most 1,024 bytes. */
void staran_read_picture(size_t kind, const uint8_t *bytes, size_t bytes_length, uint8_t *memory, size_t memory_length,
                         uint8_t *registers, size_t registers_length, uint32_t answer[STARAN_DISK_NUMBERS]);

/* Writes a picture as blocks: the words, M, X and Y and, of kind 4, the two mode registers. A picture of kind 1 has no mode registers: of a
 * run's registers lend the first STARAN_PICTURE_REGISTERS_BYTES; whether one behind them is set is not looked at.
 *
 * kind        1 picture, 4 picture with mode registers
 * memory      exactly 8,192 bytes
 * registers   exactly 96 bytes for kind 1, exactly 100 for kind 4: of each mode register the flag is 1, or it is 0 and the mode too
 * out         at least 8,704 bytes
 * answer      number, place, bytes put out
 *
 * Judged, all at place 0: 22 (kind is not 1 to 4); 26 (memory_length is not 8,192, or registers_length is not the kind's; kinds 2 and 3
 * always); 15 (of kind 4: a flag is over 1, or a mode is not 0 behind flag 0); 27 (out_length is under 8,704).
 * Done: the first 8,704 bytes of out are the 17 blocks, the third number is 8,704, and the bytes past them stay.
 * Refused: 0 bytes, and out is as it was.
 * Stack: at most 1,280 bytes. */
void staran_write_picture(size_t kind, const uint8_t *memory, size_t memory_length, const uint8_t *registers, size_t registers_length,
                          uint8_t *out, size_t out_length, uint32_t answer[STARAN_DISK_NUMBERS]);

/* Makes a picture of kind 1 one of kind 4, from blocks to blocks: the words, M, X and Y are the same, and neither mode register is set. No
 * memory and no registers are lent.
 *
 * bytes    the file, a picture of kind 1
 * out      at least 8,704 bytes, and none of them one of the file's
 * answer   number, place, bytes put out
 *
 * Judged: as staran_read_picture judges kind 1, 20, 21 to 24, 25; then 27 at place 0 (out_length is under 8,704). A picture of kind 4 is
 * refused with 22, at place 0.
 * Done: place 0; the first 8,704 bytes of out are the 17 blocks, the third number is 8,704, and the bytes past them stay. They are what
 * staran_write_picture writes of that memory, M, X and Y, and four zeros; and staran_picture_to_old makes the file's own bytes of them.
 * Refused: 0 bytes, and out is as it was.
 * Stack: at most 192 bytes. */
void staran_picture_to_new(const uint8_t *bytes, size_t bytes_length, uint8_t *out, size_t out_length,
                           uint32_t answer[STARAN_DISK_NUMBERS]);

/* Makes a picture of kind 4 one of kind 1, for a build that reads no other: the words, M, X and Y are the same. A mode register that is set
 * would be lost, and is refused with 28.
 *
 * bytes    the file, a picture of kind 4
 * out      at least 8,704 bytes, and none of them one of the file's
 * answer   number, place, bytes put out
 *
 * Judged: as staran_read_picture judges kind 4, 20, 21 to 24, 25; then, all at place 0, 15 (in the file a flag is over 1, or a mode is not 0
 * behind flag 0); 28 (a flag is 1: a mode register is set); 27 (out_length is under 8,704). A picture of kind 1 is refused with 22, at
 * place 0.
 * Done: place 0; the first 8,704 bytes of out are the 17 blocks, the third number is 8,704, and the bytes past them stay. They are what
 * staran_write_picture writes of that memory, M, X and Y; and staran_picture_to_new makes the file's own bytes of them.
 * Refused: 0 bytes, and out is as it was.
 * Stack: at most 192 bytes. */
void staran_picture_to_old(const uint8_t *bytes, size_t bytes_length, uint8_t *out, size_t out_length,
                           uint32_t answer[STARAN_DISK_NUMBERS]);

#ifdef __cplusplus
}
#endif

#endif
