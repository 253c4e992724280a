/* qpl.h: settings for a series of scans, the room that they take, plan files, and tables as lists.
 *
 * Archive: libqpl.a, for x86-64. Every function is proved to meet its contract in crates/qpl/src/lib.rt, for arguments of any content, and to
 * end; the words here say the same, and what the proofs assume of a host is said below. A call keeps nothing between calls and takes no
 * memory but what it is lent and its stack (QPL_STACK), so calls on different buffers may run side by side. The archive's only undefined
 * symbols are memcpy and memset of the C library.
 *
 * The words: a sequence is allowed when it has `scans` settings below `settings`, uses no forbidden cell and keeps the law. Law 0: any
 * change between scans. Law 1: consecutive settings differ by at most 2. Law 2: a setting is at most 2 above the one before it, or below it
 * by any amount. Each scan has a weight, 0 to 255: how much its distortion counts. The rate of a sequence is the sum of its rate cells, its
 * distortion the sum of its distortion cells, each times the weight of its scan, its peak the largest of its distortion cells as they stand
 * in the table, of scans of weight 0 too. "First" among sequences: at the earliest place where two differ, the lower setting wins.
 *
 * What a call gives back: 0, or a refusal. A refusal has its number in the low 32 bits (qpl_refusal) and what it carries in the high 32
 * (qpl_carried; 0 where the table below names nothing).
 *
 *    1  scans is 0 or over 1,024; in qpl_best 0 or over 64
 *    2  settings is 0 or over 16
 *    3  law is not 0, 1 or 2
 *    4  n or d outside its range (n at most, d from 1 to 1,073,741,823)
 *    5  rate or distortion table not of the exact length; in a planning call and in qpl_best also weights that are not exactly one for each
 *       scan
 *    6  a lent buffer shorter than needed; in qpl_import a table too
 *    7  illegal cell, in a planning call and in qpl_best also one whose distortion times its scan's weight is over 1,048,575; carries the
 *       lowest illegal cell's number, in qpl_fits the lowest of the first scan that is read and has one
 *    8  no allowed sequence, whatever the limit
 *    9  allowed sequences exist, none within ceiling or budget
 *   10  channels is 0 or over 1,048,576
 *   11  file length not 1,024 or 1,536
 *   12  a block's number or check is wrong; carries the lowest such block
 *   13  a header field breaks its rule; carries the lowest byte of the first such field
 *   14  an entry or filler breaks its rule; carries its entry number
 *   16  a line of a list is malformed; carries its line number, from 1
 *   17  a number in a line of a list is out of range; carries its line number, from 1
 *   18  a line of a list is the second for its cell; carries its line number, from 1
 *   19  budget over 4,095, in qpl_best
 *
 * What a call answers goes to the buffer `answer`: values of eight bytes each, low byte first, in the order given (qpl_value reads one).
 * A refusal changes no byte of it, and bytes past the answer never change.
 *
 * What a host must keep to, as the proofs assume it, whether a call succeeds or refuses:
 *  - a pointer is valid for the whole length that goes with it, for the whole call, also where that length is one that the call refuses;
 *    rates_length, distortions_length and totals_length count cells of 32 bits, every other length counts bytes; what a pointer points to takes
 *    fewer than 2^63 bytes. A null pointer with length 0 is allowed;
 *  - every byte and every cell that is lent holds a value, in buffers and tables that a call only writes too: no memory that was never
 *    initialised;
 *  - nothing that a call may write, buffer or table (what it takes by a pointer that is not to const), overlaps anything else that is lent to
 *    that call, and nothing else changes what is lent while the call runs. The two tables are written by qpl_import alone, and the running
 *    totals by qpl_best;
 *  - cells of 32 bits, of tables and of running totals, are aligned as C aligns uint32_t. Bytes need no alignment.
 * Numbers are 64 bits wide, so that none is cut before it is checked, but for cells and the ceiling of qpl_ceiling, which have 32 bits, and
 * weights, which have 8: a weight over 255 is cut by C before the call sees it, and no call can refuse it.
 *
 * The scope of the library names the room question and the reader for C hosts, "with numbers and byte slices". The writer, the four planning
 * calls, the true best, the question whether something fits, and import and export go beyond that, and so do the slices of 32-bit cells.
 */
#ifndef QPL_H
#define QPL_H

#include <stddef.h>
#include <stdint.h>

#ifdef __cplusplus
extern "C" {
#endif

/* The lengths of the answers, in bytes. */
#define QPL_ROOM_ANSWER 24
#define QPL_READ_ANSWER 104 /* 88 before there were versions, 96 before there were weights: a host that lends so little gets 6 */
#define QPL_CEILING_ANSWER 24
#define QPL_MULTIPLIER_ANSWER 24
#define QPL_MINMAX_ANSWER 32
#define QPL_AVERAGE_ANSWER 48
#define QPL_EXPORT_ANSWER 8
#define QPL_BEST_ANSWER 24
#define QPL_FITS_ANSWER 8

/* A call takes at most this much stack, in bytes from the caller's stack pointer at the call. That is measured, and not proved. qpl_fits is
 * not among what was measured yet.
 *
 * host/stack.c runs the calls of the x86-64 archive on a painted stack and finds the deepest byte that changed, the return address counted:
 * room 96, read 728, write 664, ceiling 5,256, multiplier 5,272, minmax 5,288, average 5,432, import 328, export 544, best 5,512. It runs the
 * largest tables, small ones, refusals, and n and d that are consecutive Fibonacci numbers. Before there were weights, and before qpl_best,
 * the frames in the disassembly were read by hand: all had fixed sizes, and the deepest chain of calls, from qpl_average through the pass to a
 * memcpy, took what was measured. Two functions called themselves, as they do in the source: the lowest terms of n/d, 64 bytes each time, at most 44 times, and
 * never while a pass is on the stack; and the digits of a number in qpl_export, 48 bytes each time, at most 7 times. The common divisor and
 * the width of a number had become loops.
 *
 * The figures are of the archive as rattle-kit-5b compiles it, seen under the kit's emulator with its C library, whose memcpy and memset are
 * counted as they ran; host/run measures the archive at hand. The stack of a loader that binds the two at their first call comes on top. */
#define QPL_STACK 6144

/* Where each value stands in the answer of its call, for qpl_value. */
enum { QPL_ROOM_CELLS, QPL_ROOM_BYTES, QPL_ROOM_SCRATCH };
enum {
    QPL_READ_SCANS,
    QPL_READ_SETTINGS,
    QPL_READ_LAW,
    QPL_READ_KIND,
    QPL_READ_BUDGET,
    QPL_READ_N,
    QPL_READ_D,
    QPL_READ_RATE,
    QPL_READ_DISTORTION,
    QPL_READ_PEAK,
    QPL_READ_FLOOR,
    QPL_READ_VERSION,
    QPL_READ_WEIGHTED
};
enum { QPL_CEILING_RATE, QPL_CEILING_DISTORTION, QPL_CEILING_PEAK };
enum { QPL_MULTIPLIER_RATE, QPL_MULTIPLIER_DISTORTION, QPL_MULTIPLIER_PEAK };
enum { QPL_MINMAX_CEILING, QPL_MINMAX_RATE, QPL_MINMAX_DISTORTION, QPL_MINMAX_PEAK };
enum { QPL_AVERAGE_N, QPL_AVERAGE_D, QPL_AVERAGE_RATE, QPL_AVERAGE_DISTORTION, QPL_AVERAGE_PEAK, QPL_AVERAGE_FLOOR };
enum { QPL_EXPORT_LENGTH };
enum { QPL_BEST_RATE, QPL_BEST_DISTORTION, QPL_BEST_PEAK };
enum { QPL_FITS_YES };

/* The kinds of a plan file: what an average call answers, and what a minmax call does. */
enum { QPL_KIND_AVERAGE = 0, QPL_KIND_MINMAX = 1 };

/* The versions of a plan file: which letters it has, QPL1 or QPL2. */
enum { QPL_VERSION_1 = 1, QPL_VERSION_2 = 2 };

/* A rate that means "this choice is forbidden". */
#define QPL_FORBIDDEN 4294967295u

/* The number of a refusal, and what it carries. */
static inline uint32_t qpl_refusal(uint64_t given) { return (uint32_t)(given & 0xffffffffu); }
static inline uint32_t qpl_carried(uint64_t given) { return (uint32_t)(given >> 32); }

/* Value k of an answer, counted from 0: k is one of the names above. */
static inline uint64_t qpl_value(const uint8_t *answer, size_t k) {
    uint64_t value = 0;
    size_t i;
    for (i = 8; i > 0; i--) value = value << 8 | answer[8 * k + i - 1];
    return value;
}

/* The room question: what a host lends for its channels, as true products.
 * Answer (24 bytes): the cells of one table; the bytes of one table for all channels; the scratch bytes of one planning call (an import
 * takes a byte for each cell instead).
 * Refusals, the first that applies: 10, 1, 2, 6 (answer under 24 bytes). Only the first 24 bytes of answer may change, and on 0 alone. */
uint64_t qpl_room(uint64_t channels, uint64_t scans, uint64_t settings, uint8_t *answer, size_t answer_length);

/* Plan files: blocks of 512 bytes, the fields in block 0, the settings two to a byte behind it, and at the end of each block a check of its
 * 508 bytes before. The letters, bytes 4 to 7 of block 0, choose the check of all blocks: QPL2 takes 1 plus the sum of (508 - k) times byte k
 * of the block, for k from 0 to 507; any other letters take the sum of the bytes. Under QPL2 one byte changed among a block's 508, or two
 * unequal ones exchanged, is refused with 12 and that block. Both versions are read; QPL2 is written. docs/FILES.md has the format byte by
 * byte. 13 carries the byte of the first field that breaks its rule, in this order:
 *    4  letters          QPL1 or QPL2
 *    8  scans            1 to 1,024; a file of over 1,008 has 1,536 bytes, any other 1,024
 *   10  settings         1 to 16
 *   11  law              0, 1 or 2
 *   12  kind             0 or 1
 *   13  weighted         QPL2: 0 or 1; QPL1: zeros, bytes 13 to 15
 *   14  zeros            QPL2 alone: bytes 14 and 15
 *   24  n                kind 0: at most 1,073,741,823, and n/d in lowest terms; kind 1: 0
 *   28  d                kind 0: 1 to 1,073,741,823; kind 1: 0
 *   32  rate             at most budget and at most 1,073,740,800
 *   36  distortion       at most 1,073,740,800
 *   40  peak             at most 1,048,575, and where byte 13 is 0 at most the distortion
 *   44  floor            kind 0: at most the distortion; kind 1: 0
 *   48  zeros
 * The budget (byte 16) may be any number. The letters, the zeros and the length are the writer's own, and never broken there. 14 carries the
 * first entry that breaks its rule: an entry below `scans` is a setting below `settings` that keeps the law with the one before it, and a
 * later one (filler, of which the writer makes its own) is zero.
 *
 * Byte 13 is a mark: 1 says that some weight of the plan's call differs from 1, 0 that none does. A file holds no weights. Distortion and
 * floor are the weighted ones and the peak is not weighted, so that where the mark is 1 the peak may be over the distortion. */

/* Reads a plan file of any bytes and any length.
 * Answer (104 bytes): scans, settings, law, kind (0 average, 1 minmax), budget, n, d, rate, distortion, peak, floor, version (1 for QPL1, 2
 * for QPL2), weighted (byte 13: 0 or 1, and of QPL1 0). In a file of kind 1 n, d and floor are 0.
 * Refusals, the first that applies: 11, 12, 13, 6 (plan under scans bytes, or answer under 104), 14.
 * On 0 the first `scans` bytes of plan are the settings and the rest is as it was; on a refusal all of plan is as it was. */
uint64_t qpl_read(const uint8_t *file, size_t file_length, uint8_t *plan, size_t plan_length, uint8_t *answer, size_t answer_length);

/* Writes the plan file of these fields and settings, as QPL2. There is no answer beside the file. `weighted` is the mark: a host passes 1
 * where some weight of the plan's call differs from 1, and otherwise 0. The writer sees no weights, so it takes either; any other number is
 * 13, at byte 13.
 * Refusals, the first that applies: 13, 6 (plan under scans bytes, or file too short), 14.
 * On 0 the first 1,024 bytes of file (1,536 where scans is over 1,008) are the plan file and the rest is as it was; on a refusal all of
 * file is as it was. What is written reads back as the same fields, mark and settings. */
uint64_t qpl_write(uint64_t scans, uint64_t settings, uint64_t law, uint64_t kind, uint64_t budget, uint64_t n, uint64_t d, uint64_t rate,
                   uint64_t distortion, uint64_t peak, uint64_t floor, uint64_t weighted, const uint8_t *plan, size_t plan_length,
                   uint8_t *file, size_t file_length);

/* The planning calls. Both tables have exactly settings + (scans - 1) * settings * settings cells: scan 0, setting q is cell q; scan i
 * from 1, previous setting p, setting q is cell settings + (i - 1) * settings * settings + p * settings + q. A rate is 0 to 1,048,575 or
 * QPL_FORBIDDEN. A distortion is 0 to 1,048,575; beside a forbidden rate it may have any value, and no answer depends on it. Cells that the
 * law rules out must still hold such values. plan needs `scans` bytes, scratch scans * settings bytes.
 *
 * weights has exactly `scans` bytes: byte i is the weight of scan i. Beside a rate that is not forbidden a distortion times the weight of its
 * scan is at most 1,048,575 too; weight 0 excuses no distortion that is itself over 1,048,575. The distortion that is least, that costs, that
 * is answered and that the floor bounds is the weighted one. Peaks and ceilings take the cells as they stand.
 *
 * All weights 1 give exactly the answers of before there were weights, and that is how a host without weights calls: it lends `scans` bytes
 * that are all 1. There is no default; a null pointer with length 0 is 5. The four calls, and qpl_write, take more arguments than they did
 * then. That break of source is meant: a call with the arguments of before is a compile error, and not a wrong answer. A linker does not see
 * it: what was compiled with the header of then must be compiled again.
 *
 * Refusals, the first that applies: 1, 2, 3, (4: qpl_multiplier alone,) 5, 6 (plan, scratch or answer too short), 7, 8, (9: not by
 * qpl_multiplier).
 *
 * On refusals 1 to 7 every buffer is as it was. On 0, 8 and 9 the first scans * settings bytes of scratch are zero and the rest is as it
 * was. On 0 the first `scans` bytes of plan are the settings and the rest is as it was; on 8 and 9 all of plan is as it was. */

/* Among the allowed sequences with peak at most `ceiling`: least rate, then least distortion, then first. Every ceiling from 1,048,575 on
 * means no ceiling. A number wider than 32 bits is cut by C before the call sees it, so a host that has one passes 4,294,967,295 instead.
 * Answer (24 bytes): rate, distortion, peak. */
uint64_t qpl_ceiling(uint64_t scans, uint64_t settings, uint64_t law, uint32_t ceiling, const uint32_t *rates, size_t rates_length,
                     const uint32_t *distortions, size_t distortions_length, const uint8_t *weights, size_t weights_length, uint8_t *plan,
                     size_t plan_length, uint8_t *scratch, size_t scratch_length, uint8_t *answer, size_t answer_length);

/* Among all allowed sequences: least d * distortion + n * rate, then least rate, then first.
 * Answer (24 bytes): rate, distortion, peak. */
uint64_t qpl_multiplier(uint64_t scans, uint64_t settings, uint64_t law, uint64_t n, uint64_t d, const uint32_t *rates,
                        size_t rates_length, const uint32_t *distortions, size_t distortions_length, const uint8_t *weights,
                        size_t weights_length, uint8_t *plan, size_t plan_length, uint8_t *scratch, size_t scratch_length, uint8_t *answer,
                        size_t answer_length);

/* The least ceiling X for which some allowed sequence has peak at most X and rate at most `budget`, and then the ceiling plan for X.
 * Answer (32 bytes): X, rate, distortion, peak. */
uint64_t qpl_minmax(uint64_t scans, uint64_t settings, uint64_t law, uint64_t budget, const uint32_t *rates, size_t rates_length,
                    const uint32_t *distortions, size_t distortions_length, const uint8_t *weights, size_t weights_length, uint8_t *plan,
                    size_t plan_length, uint8_t *scratch, size_t scratch_length, uint8_t *answer, size_t answer_length);

/* The least multiplier n/d whose multiplier plan has rate at most `budget`, in lowest terms (zero as 0/1), with that plan and the floor that
 * it proves: no allowed sequence of rate at most `budget` has a distortion below the floor.
 * Answer (48 bytes): n, d, rate, distortion, peak, floor. */
uint64_t qpl_average(uint64_t scans, uint64_t settings, uint64_t law, uint64_t budget, const uint32_t *rates, size_t rates_length,
                     const uint32_t *distortions, size_t distortions_length, const uint8_t *weights, size_t weights_length, uint8_t *plan,
                     size_t plan_length, uint8_t *scratch, size_t scratch_length, uint8_t *answer, size_t answer_length);

/* The true best of a short series: among the allowed sequences with rate at most `budget`, least distortion, then least rate, then first. An
 * average plan is the best that a multiplier gives, and within the same budget another sequence may have less distortion; this call finds it,
 * for at most 64 scans and a budget of at most 4,095. Its distortion is at or above the floor of the average plan at the same budget, and at
 * most that plan's distortion.
 *
 * Tables, weights and laws are those of the planning calls. plan needs `scans` bytes, choices scans * settings * (budget + 1) bytes (at most
 * 4,194,304), and totals 4 * settings * (budget + 1) cells of 32 bits (at most 262,144, which is 1,048,576 bytes). qpl_room does not answer
 * for them. Plan files have no kind for such a plan.
 *
 * Answer (24 bytes): rate, distortion, peak.
 * Refusals, the first that applies: 1 (scans is 0 or over 64), 2, 3, 19 (budget over 4,095), 5, 6 (plan, choices, totals or answer too short),
 * 7, 8, 9.
 *
 * On refusals 1 to 7 and 19 every buffer is as it was. On 0, 8 and 9 all that is needed of choices and totals is zero and the rest is as it
 * was. On 0 the first `scans` bytes of plan are the settings and the rest is as it was; on 8 and 9 all of plan is as it was. */
uint64_t qpl_best(uint64_t scans, uint64_t settings, uint64_t law, uint64_t budget, const uint32_t *rates, size_t rates_length,
                  const uint32_t *distortions, size_t distortions_length, const uint8_t *weights, size_t weights_length, uint8_t *plan,
                  size_t plan_length, uint8_t *choices, size_t choices_length, uint32_t *totals, size_t totals_length, uint8_t *answer,
                  size_t answer_length);

/* Can it fit at all? Whether some allowed sequence has a rate of at most `budget`, and no more than that: 1 where one has, 0 where none has,
 * be it that no sequence is allowed (8 in a planning call) or that each has a rate over `budget` (9 there).
 *
 * Tables and laws are those of the planning calls; there are no weights, and nothing is lent but the answer. The scans are read one by one,
 * and reading ends where the answer is known. Scan 0 is read. Scan k from 1 is read exactly where no scan before it has an illegal cell and
 * some allowed beginning of k scans (k settings below `settings` that use no forbidden cell and keep the law, whatever may follow them) has
 * a rate of at most `budget`. All cells of a scan that is read are judged, in both tables, before any of it is counted: an illegal one there
 * gives 7 and the number of the lowest of that scan. Illegal cells of scans that are not read change nothing, and the answer is 0. Where
 * every cell is legal, the answer is 1 exactly where qpl_average and qpl_minmax, at the same budget and past their checks 1 to 7, give a
 * plan, whatever the weights.
 *
 * Answer (8 bytes): 1 or 0.
 * Refusals, the first that applies: 1, 2, 3, 5 (rates or distortions alone), 7, 6 (answer under 8 bytes, whether it would be 1 or 0). Only
 * the first 8 bytes of answer may change, and on 0 alone. */
uint64_t qpl_fits(uint64_t scans, uint64_t settings, uint64_t law, uint64_t budget, const uint32_t *rates, size_t rates_length,
                  const uint32_t *distortions, size_t distortions_length, uint8_t *answer, size_t answer_length);

/* Lists: what the trial encoder measured, one line for each cell: scan, previous setting, setting, rate, distortion, parted by commas, with
 * line ends and quotes as in RFC 4180 and no heading line. The cells are those of the planning calls.
 *
 * A line ends in CR LF, which the last line may lack; a text of no bytes has no lines. A field is one to seven decimal digits, leading zeros
 * among them. The previous setting is an empty field where the scan is 0, and only there. Any field may stand in double quotes, the empty one
 * too, with nothing between them but what would stand there without them. All else is malformed (16): an empty line, fewer or more than five
 * fields, a CR or an LF by itself, blanks, signs, any other byte. Out of range (17) are a scan from `scans` on, a setting or previous setting
 * from `settings` on, and a rate or distortion over 1,048,575, so that no line can make a cell forbidden. A second line for a cell is 18,
 * with the same numbers too. The number of a line is how many CR LF stand before it, and 1. */

/* Reads a list of any bytes and any length into both tables. There is no answer beside them.
 * rates and distortions need the cells of one table, scratch as many bytes: what qpl_room answers first, and not what it says of scratch.
 * They may be longer.
 * Refusals, the first that applies: 1, 2, 6 (rates, distortions or scratch too short), and then of the first line that has any: 16, 17, 18.
 * On 0 the cells of one table, in rates and in distortions, are what the list says: a cell with no line has rate QPL_FORBIDDEN and
 * distortion 0; what is lent past them is as it was. On a refusal all of both tables is as it was. On 0, 16, 17 and 18 the bytes of scratch
 * that are needed are zero and the rest is as it was; on 1, 2 and 6 all of scratch is as it was. */
uint64_t qpl_import(uint64_t scans, uint64_t settings, const uint8_t *text, size_t text_length, uint32_t *rates, size_t rates_length,
                    uint32_t *distortions, size_t distortions_length, uint8_t *scratch, size_t scratch_length);

/* Writes the list of both tables: a line for each cell that is not forbidden, in the order of cells, with no quotes and no leading zeros,
 * and CR LF after each. No list takes more than 28 bytes for each cell of a table (proved), and none more than 6,722,470 in all (counted: the
 * list of the largest tables with every number at its longest).
 * Answer (8 bytes): the length of the list in bytes.
 * Refusals, the first that applies: 1, 2, 5, 7, 6 (text shorter than the list, or answer under 8 bytes, also where the list has no bytes).
 * On 0 the first bytes of text are the list and the rest is as it was; on a refusal all of text is as it was. What is written is imported as
 * the same tables, but for the distortion beside a forbidden rate, which is then 0. */
uint64_t qpl_export(uint64_t scans, uint64_t settings, const uint32_t *rates, size_t rates_length, const uint32_t *distortions,
                    size_t distortions_length, uint8_t *text, size_t text_length, uint8_t *answer, size_t answer_length);

#ifdef __cplusplus
}
#endif

#endif
