/* The SaM machine for C: every call of the proved library, with numbers and lent memory only.
 *
 * sam_session.h has the same calls over one struct.
 *
 * Link target/staticlib/libsam_c.a. Every call gives a number of document 01, with what requests a (24, 33), d (6),
 * e (5, 25, 33), f (60 to 63), g (10), h (10, 11, 12, 43), i (10, 14), j (11, 64 to 66), k (10, 41, 45, 67), l (6,
 * 10) and m (21, 28, 70 to 73) add:
 *
 *    0  done, or a run found HALT 1
 *    1  step with HALT 1
 *    2  PC equals program length
 *    3  fewer values than needed, or ADDSP below 0
 *    4  a value has a tag the instruction does not take
 *    5  DIV or MOD by zero, CMPF with a NaN, or FTOI of a NaN or with a result outside INT
 *    6  address outside the instruction's range, or ADD or SUB of an MA that leaves 32 bits; at a why a cell not below
 *       N
 *    7  new SP would be N or more
 *    8  H above 0 and fewer than (cells written + 1) places free
 *    9  step-back with U = 0
 *   10  broken state or table; a kept number above U, or 0 with U above 0, is a broken state, and so is an output above
 *       256 bytes or a written count above its length; at a forget and a why also a used record that is not well
 *       formed, or a kept number other than that of the records in use; at a load it is said of what the image holds,
 *       and a written count above the lent output is 10 too
 *   11  at reset N, H or the output outside the sizes below, or cells and tags of unequal count; at a run a limit above
 *       1,000,000; at a depth list N outside the sizes below
 *   12  WRITECH with a full output; it comes after 7 and before 8
 *   14  forget of more steps than are kept
 *   21  source or formula too long            26  label twice
 *   22  forbidden byte                        27  label unknown
 *   23  no instruction or label here          28  too many instructions
 *   24  operand missing, at the source's end  29  too many labels
 *   25  operand out of range                  30  label too long
 *   31  lent output not of its exact length   33  operand of wrong form
 *   41  image ends early                      44  operand out of range
 *   42  count above 1,024                     45  padding not zero or bytes left over
 *   43  code above 53
 *   50  run limit reached
 *   60  dwell of a machine that is not halted 62  cell 0 neither INT nor FLOAT
 *   61  SP is 0                               63  cell 0 a NaN
 *   64  depth list not of the program's length
 *   65  a forbidden instruction, with its first place
 *   66  a failed depth rule, with its first place
 *   67  at a load N not that of the lent cells and tags, or a lent history or output outside the sizes below
 *   70  forbidden byte in a formula           72  number of a formula too large
 *   71  a formula cannot go on or end here    73  formula nested too deep
 *
 * A count of elements stands after each pointer. A pointer is never null and is aligned for its type, also where the
 * count is 0; memory lent to be written overlaps no other memory of the call.
 *
 * `told` is lent for what a call tells besides its number. A `told` of another length than the call's is 31 before
 * anything else, and stays as it is. Where a call is refused otherwise, the values told are zero, save the place, the
 * line and the column that assemble tells, the steps that a run made before a step was refused and the place that a
 * depth list is refused at.
 *
 * Assemble, list, pack, unpack, save and translate write an output: a table, a text, an image. Refused, for a `told` of
 * another length too, they leave an output of wrong length untouched and zero one of right length. A refused step,
 * step-back, forget, reset, load or run-entry changes no cell, tag, history place or byte of the machine's output.
 */
#ifndef SAM_H
#define SAM_H

#include <stddef.h>
#include <stdint.h>

#ifdef __cplusplus
extern "C" {
#endif

enum {
    SAM_SOURCE_LIMIT = 65536,  /* bytes of a source, and of a formula */
    SAM_TABLE_PLACES = 1024,   /* places of a table: its exact length */
    SAM_TEXT_BYTES = 20480,    /* bytes of a listing: its exact length */
    SAM_IMAGE_BYTES = 4866,    /* bytes of a packed image: its exact length */
    SAM_STATE_BYTES = 4638,    /* bytes lent to a save: its exact length; a load is handed as many as were told */
    SAM_CELL_LIMIT = 1000,     /* N is 1 to this */
    SAM_HISTORY_LIMIT = 8192,  /* H is 0 to this; H = 0 keeps no history */
    SAM_OUTPUT_LIMIT = 256,    /* bytes of a machine's output are 0 to this; one of 0 bytes is full */
    SAM_RUN_LIMIT = 1000000,   /* steps of one run */
    SAM_DWELL_SHORTEST = 10,   /* a dwell is this many tenths of a second at least, */
    SAM_DWELL_LONGEST = 300,   /* and this many at most */
    SAM_NOT_REACHED = 65535,   /* in a depth list: this place is not reached; any other number is a depth */
    SAM_NAMES = 8,             /* the names of a formula, a to h, are the cells 0 to 7 */
    SAM_NESTING_LIMIT = 16     /* brackets and unary minus signs that may be open at one place of a formula */
};

/* Bytes of stack that a call needs at most, its arguments on the stack and its return address among them, whatever the
 * program: bounds for the library as it is built for x86-64, kept by measurement and not by proof (docs/PERFORMANCE.md,
 * "The stack"). Assemble keeps its 256 labels there, 2,048 bytes, and translate calls itself for each bracket and each
 * unary minus sign that is open; no call copies what it is lent. */
enum {
    SAM_ASSEMBLE_STACK = 2560,
    SAM_LIST_STACK = 1024,
    SAM_PACK_STACK = 256,
    SAM_UNPACK_STACK = 256,
    SAM_RESET_STACK = 256,
    SAM_STEP_STACK = 768,
    SAM_STEP_BACK_STACK = 512,
    SAM_FORGET_STACK = 512,
    SAM_RUN_STACK = 768,
    SAM_DWELL_STACK = 512,
    SAM_DEPTHS_STACK = 256,
    SAM_SAVE_STACK = 512,
    SAM_LOAD_STACK = 512,
    SAM_WHY_STACK = 512,
    SAM_TRANSLATE_STACK = 10240
};

/* The registers are a lent slice of nine. Registers of another length are a 10 in 10's place, so after 11 at a reset
 * and a run, after 31 at a save and after 67 at a load, and stay as they are. SAM_KEPT is how many steps can be taken
 * back: since the latest reset or load the steps accepted less the step-backs accepted and the steps forgotten, and 0
 * where H is 0. SAM_WRITTEN is how many bytes of the output are written. */
enum { SAM_N, SAM_H_PLACES, SAM_PC, SAM_SP, SAM_FBR, SAM_HALT, SAM_U, SAM_KEPT, SAM_WRITTEN, SAM_REGISTERS };

/* The tag of a cell. A CH is a character code, 0 to 127. */
enum { SAM_INT, SAM_FLOAT, SAM_MA, SAM_PA, SAM_CH };

/* What assemble tells: the program's length; and where a refusal stands in the source, by its place, a count of bytes
 * from 0, and by its line and column, both from 1. A line ends with LF; a column counts bytes, CR among them. */
enum { SAM_LENGTH, SAM_PLACE, SAM_LINE, SAM_COLUMN, SAM_ASSEMBLE_TOLD };

/* What why tells: 1 where a step is named, else 0; how many steps back it is, 1 for the newest; its PC; the instruction
 * there, as its table place; and what the cell held before it, tag and bits. */
enum { SAM_FOUND, SAM_STEPS_BACK, SAM_STEP_PC, SAM_INSTRUCTION, SAM_OLD_TAG, SAM_OLD_BITS, SAM_WHY_TOLD };

/* What translate tells: the program's length, and the most values that it ever holds above the SP it begins with. */
enum { SAM_PROGRAM_LENGTH, SAM_PROGRAM_DEPTH, SAM_TRANSLATE_TOLD };

/* Assembles a source into a table of 1,024 places. told[4]: length, place, line, column; the last three are 0 where it
 * is done, and with 31 for the table and 21. */
uint32_t sam_assemble(const uint8_t *source, size_t source_len, uint64_t *table, size_t places, uint64_t *told,
                      size_t told_len);

/* Lists a program as text of 20,480 bytes, one line for each instruction, the rest zero. told[1]: the text's length,
 * and only that much is assembled again. 31 comes before 10. */
uint32_t sam_list(const uint64_t *table, size_t places, uint64_t length, uint8_t *text, size_t text_len, uint64_t *told,
                  size_t told_len);

/* Packs a program into an image of 4,866 bytes, the rest zero. told[1]: the image's length, and only that much is
 * unpacked again. 31 comes before 10. */
uint32_t sam_pack(const uint64_t *table, size_t places, uint64_t length, uint8_t *image, size_t image_len,
                  uint64_t *told, size_t told_len);

/* Unpacks an image into a table of 1,024 places. told[1]: the program's length. */
uint32_t sam_unpack(const uint8_t *image, size_t image_len, uint64_t *table, size_t places, uint64_t *told,
                    size_t told_len);

/* The calls on a machine are lent its output, characters for the landing panel, after the history. WRITECH appends a
 * byte to it, and the step-back of a WRITECH drops the last byte and zeroes it. What its bytes are is not judged.
 *
 * How much history is lent decides how many steps can be taken back and where a step is 8, and nothing else: machines
 * with the same program, N, output length and reset, or load of one image, hold the same and answer alike, step by
 * step, until one of them answers 8. */

/* Sets every cell to INT 0, every history place and every byte of the output to 0, N and H to the lent counts and the
 * other registers to 0. 11 comes before 10. A refused reset leaves cells, history and output as they were and sets the
 * registers, where they are nine, to zero. */
uint32_t sam_reset(const uint64_t *table, size_t places, uint64_t length, uint64_t *registers, size_t registers_len,
                   uint32_t *bits, size_t n, uint8_t *tags, size_t tags_len, uint64_t *history, size_t h,
                   uint8_t *output, size_t output_len);

/* Makes one step: 10, then 1 to 7 in order, 12, 8; a refused step changes nothing. */
uint32_t sam_step(const uint64_t *table, size_t places, uint64_t length, uint64_t *registers, size_t registers_len,
                  uint32_t *bits, size_t n, uint8_t *tags, size_t tags_len, uint64_t *history, size_t h,
                  uint8_t *output, size_t output_len);

/* Takes the last step back: 10, then 9; a refused step-back changes nothing. */
uint32_t sam_step_back(const uint64_t *table, size_t places, uint64_t length, uint64_t *registers,
                       size_t registers_len, uint32_t *bits, size_t n, uint8_t *tags, size_t tags_len,
                       uint64_t *history, size_t h, uint8_t *output, size_t output_len);

/* Forgets the k oldest of the steps that can be taken back: their history places go, those of the others move down to
 * place 0, the room gained is zeroed, and later steps use it. U and the kept number fall; no cell, tag, byte of output
 * or other register changes. 10 as for a step, and also where a record in use is not well formed or the kept number is
 * not that of the records in use; then 14 where k is above the kept number. A refused forget changes nothing. */
uint32_t sam_forget(const uint64_t *table, size_t places, uint64_t length, uint64_t k, uint64_t *registers,
                    size_t registers_len, uint32_t *bits, size_t n, uint8_t *tags, size_t tags_len, uint64_t *history,
                    size_t h, uint8_t *output, size_t output_len);

/* Makes steps until HALT is 1 (0), the limit is made (50) or a step is refused (its number); 11, then 10 at its entry.
 * told[1]: the number of steps made, which stand. A run that did not end with 50 is the same with any larger limit up
 * to SAM_RUN_LIMIT. */
uint32_t sam_run(const uint64_t *table, size_t places, uint64_t length, uint64_t limit, uint64_t *registers,
                 size_t registers_len, uint32_t *bits, size_t n, uint8_t *tags, size_t tags_len, uint64_t *history,
                 size_t h, uint8_t *output, size_t output_len, uint64_t *told, size_t told_len);

/* Reads how long the doors stay open off cell 0 of a halted machine, and writes nothing but told. An INT is tenths of a
 * second; a FLOAT is seconds, taken as the largest whole tenth that is not above them. Both are held between 10 and 300
 * tenths. 10 as for a step, then 60 to 63 in order. told[1]: the tenths, 0 where it is refused. */
uint32_t sam_dwell(const uint64_t *table, size_t places, uint64_t length, const uint64_t *registers,
                   size_t registers_len, const uint32_t *bits, size_t n, const uint8_t *tags, size_t tags_len,
                   const uint64_t *history, size_t h, const uint8_t *output, size_t output_len, uint64_t *told,
                   size_t told_len);

/* Tells why a cell holds what it holds: names the newest of the steps that can be taken back which wrote the cell, and
 * writes nothing but told. A step that wrote what the cell held already wrote it. Any cell below N may be asked, at SP
 * and above too. 10 as for a forget, then 6 where the cell is not below N. told[6]: found, steps back, PC, the place at
 * that PC in the table that is handed in, old tag, old bits. All six are 0 where no step that can be taken back wrote
 * the cell, which is done (0) too, and where it is refused. */
uint32_t sam_why(const uint64_t *table, size_t places, uint64_t length, uint64_t cell, const uint64_t *registers,
                 size_t registers_len, const uint32_t *bits, size_t n, const uint8_t *tags, size_t tags_len,
                 const uint64_t *history, size_t h, const uint8_t *output, size_t output_len, uint64_t *told,
                 size_t told_len);

/* Judges a list of stack depths that comes beside a program, for a machine of n cells, and writes nothing but told. It
 * is accepted (0) exactly if the program has no JSR, JSRIND, JUMPIND or POPSP, place 0 has depth 0, every place with a
 * depth has enough values for its instruction, its depth after is below n, and each place that may follow has that same
 * depth. Both ways of JUMPC count, STOP has no follower, and the program's end may never follow. From a reset with n
 * cells no run of such a program meets 2, 3 or 7, and each place that it reaches has SP as its listed depth. 10 for the
 * table, 11 for n, then 64, 65, 66 in order; an empty program with an empty list is 66. told[1]: the place of 65 and
 * 66, else 0. */
uint32_t sam_depths(const uint64_t *table, size_t places, uint64_t length, uint64_t n, const uint16_t *depths,
                    size_t depths_len, uint64_t *told, size_t told_len);

/* Saves a machine's state, to be loaded into another: N in 10 bits, PC 11, SP 10, FBR 10, HALT 1 and the written count
 * 9, then each of the N cells as its tag in 3 bits and its bits in 32, then the bytes of the output that are written,
 * then zeros to a byte; each field has its most significant bit first. The image is lent as 4,638 bytes, the rest is
 * zero, and nothing but image and told is written. History, U, the kept number and H are not saved, nor is the program.
 * told[1]: the image's length, and only that much is loaded again. 31, then 10 as for a step. */
uint32_t sam_save(const uint64_t *table, size_t places, uint64_t length, const uint64_t *registers,
                  size_t registers_len, const uint32_t *bits, size_t n, const uint8_t *tags, size_t tags_len,
                  const uint64_t *history, size_t h, const uint8_t *output, size_t output_len, uint8_t *image,
                  size_t image_len, uint64_t *told, size_t told_len);

/* Loads a saved state from an image of just the length that was told; all 4,638 bytes of a smaller state are 45. Cells,
 * tags, written output, PC, SP, FBR and HALT are as saved, N is that of the lent cells and of the image, H is the lent
 * history's, U and the kept number are 0, and the history and the output's rest are zeroed. What the lent memory and
 * registers held before is not judged. The table may be any sound one, since the image cannot tell under which program
 * it was saved; only with the same one does the saved session go on. Refused in this order: 41 where the image ends
 * before all that its own N and written count announce; 67; 10 for a table or a state that a step would answer with 10;
 * 45. A refused load leaves cells, history and output as they were and sets the registers, where they are nine, to
 * zero. */
uint32_t sam_load(const uint8_t *image, size_t image_len, const uint64_t *table, size_t places, uint64_t length,
                  uint64_t *registers, size_t registers_len, uint32_t *bits, size_t n, uint8_t *tags, size_t tags_len,
                  uint64_t *history, size_t h, uint8_t *output, size_t output_len);

/* Translates a formula into a table of 1,024 places, the unused ones zero. A formula has integers 0 to 2147483647,
 * names a to h, + - * /, unary minus wherever an operand may stand, and round brackets; * and / bind before + and -,
 * all four group to the left, and unary minus binds before them all. Spaces may stand before, between and behind
 * tokens, and each token is one byte but for runs of digits. A number becomes PUSHIMM, a name PUSHOFF 0 to 7, an
 * operator ADD, SUB, TIMES or DIV behind its two sides, unary minus PUSHIMM -1 and TIMES behind its operand; STOP is
 * last. told[2]: the program's length, and its depth, the most values that it ever holds above the SP it begins with.
 * With eight INT cells from 0 on below SP, FBR, PC and HALT 0, SP plus the depth below N, the length as limit and a
 * history of none or of twice the length less one free places, a run ends with 0, leaves the formula's number as INT on
 * top and every cell below as it was; where the formula divides by zero it ends with 5, and only then. 31, then 21,
 * then of the first token from the left that has one, in this order: 70; 71, which the end of the formula can have too;
 * 72; 73 for the seventeenth bracket or unary minus sign that would be open at once; 28 where the instructions of the
 * tokens so far, this one's and STOP among them, are more than 1,024. */
uint32_t sam_translate(const uint8_t *formula, size_t formula_len, uint64_t *table, size_t places, uint64_t *told,
                       size_t told_len);

#ifdef __cplusplus
}
#endif

#endif
