/*
 * mlgd.h: the block decoder as one C function over numbers and bytes.
 *
 * mlgd_decode checks a parity-check matrix, quantises a block of samples and decodes it by
 * iterative voting. All numbers in byte buffers stand low byte first.
 *
 *   cc -Iinclude firmware.c -Llib -lmlgd                      with the folders of `make firmware`
 *   cc firmware.c $(pkg-config --cflags --libs mlgd)          once installed
 *
 * examples/firmware.c is a whole program.
 */
#ifndef MLGD_H
#define MLGD_H

#include <stddef.h>
#include <stdint.h>

#ifdef __cplusplus
extern "C" {
#endif

/* What mlgd_decode returns where it refused nothing. */
#define MLGD_DECODED 0u
#define MLGD_FAILED 1u

/* A refusal taken apart: its number, 1 to 8 (0 where nothing was refused), and its place. */
#define MLGD_REFUSAL(returned) ((uint32_t)(returned) >> 16)
#define MLGD_PLACE(returned) ((uint32_t)(returned) & 0xffffu)

/* The kinds of step. */
#define MLGD_LEVEL_STEP 0u
#define MLGD_FULL_SCALE 1u

/* The bytes that the buffers need, for a list of m rows of rho columns and blocks of n bits. */
#define MLGD_LIST_BYTES(m, rho) (2u * (size_t)(m) * (size_t)(rho))
#define MLGD_SAMPLE_BYTES(n) (4u * (size_t)(n))
#define MLGD_WORD_BYTES(n) (((size_t)(n) + 7u) / 8u)
#define MLGD_LEVEL_BYTES(n) (2u * (size_t)(n))
#define MLGD_REPORT_BYTES 8u

/*
 * The stack that a call may need, in bytes: an upper bound, whatever the arguments. The call keeps
 * its arrays on the stack and needs no other memory, so the thread that calls must have this much
 * left. It does not ask how much is left.
 *
 * Measured: 157,240 bytes at its deepest, for a small matrix as for the largest: 65,472 for the
 * list, 67,520 for the matrix's index, 4,092 for the samples and about 20 KB for all else. (The
 * matrix check's 43,006 lie in the index's place, as it is done before the index is built.)
 *
 * A controller with less stack needs a build of its own. The arrays' sizes are constants in the
 * source, made for the largest matrix: for a code of few ones they can be made smaller, and the
 * crates proved anew. This is by the sizes of the arrays; no such build was measured.
 */
#define MLGD_STACK_BYTES (160u * 1024u)

/*
 * Decodes one block.
 *
 * Arguments. Every length is in bytes, never in entries, samples or levels.
 *
 *   n, m, rho, gamma   code bits (2 to 1,023), checks (1 to 1,023), ones in each row (2 to 32), and
 *                      the smallest number of ones in a column (1 to 32); n * gamma <= m * rho.
 *   list, list_bytes   the matrix: the column numbers of each row, ascending, row after row,
 *                      16 bits each, low byte first: exactly 2 * m * rho bytes.
 *   bits               the width b of a level, 2 to 12. Levels run from -L to L, L = 2^(b-1) - 1:
 *                      127 with 8 bits, 2,047 with 12.
 *   limit              the most rounds of voting, 0 to 255.
 *   kind, step         MLGD_LEVEL_STEP or MLGD_FULL_SCALE, and the step, from 2^-20 to 2^20, as the
 *                      32 bits of an IEEE 754 single float (0.5 is 0x3f000000).
 *   samples,           n IEEE 754 single floats, low byte first: exactly 4 * n bytes. Above 0
 *     sample_bytes     stands for a bit 1, else for 0.
 *   word, word_bytes   written: the word, eight bits to a byte, bit 0 in the highest place of
 *                      byte 0, the last byte's spare places 0: (n + 7) / 8 bytes or more.
 *   levels,            written: the level of each bit as voting left it, 16 bits each in two's
 *     level_bytes      complement, low byte first, whatever the width: 2 * n bytes or more.
 *   report,            written: rounds, failing, changed and a zero, 16 bits each, low byte first:
 *     report_bytes     8 bytes or more. Rounds of voting done; checks that fail in the word, 0 when
 *                      decoded; positions with a level other than 0 at opening, before the first
 *                      round, whose bit ends different from the one that the sample stands for.
 *
 * Returned. No other value occurs.
 *
 *   0                  decoded: no check fails in the word
 *   1                  failed: the rounds are done and some check still fails
 *   refusal * 65,536 + place, the first that applies in this order:
 *
 *     refusal  cause                                                          place
 *     1        a size out of range, or m * rho < n * gamma                    0
 *     2        list_bytes is not 2 * m * rho                                  0
 *     3        an entry not below n, or not above the one before in its row   first such entry
 *     4        a column with fewer than gamma or more than 32 ones;           lowest such column;
 *              else no column has gamma ones                                  n
 *     5        two rows share two columns or more                             lower row of the
 *                                                                             first such pair
 *     6        bits, limit, kind or step out of range, or a step that is      0
 *              infinite or not a number
 *     7        sample_bytes is not 4 * n, or word, levels or report is too    0
 *              short
 *     8        a sample infinite or not a number                              first such sample
 *
 *   Places are counted from 0: entries and not bytes of the list, samples and not their bytes.
 *
 * What is written. Decoded or failed: word, levels and report, each in its first needed bytes;
 * further bytes stay as they were. Refused: not one byte of the three. List and samples are only
 * read.
 *
 * What the caller keeps. All buffers are the caller's. Nothing is kept after the call, nothing is
 * allocated, and there is no state: calls from several threads at a time are fine, on written
 * buffers of their own. List and samples may be shared among them.
 *
 * What the caller must see to; no call can find out.
 *   - Each pointer has as many bytes behind it as its length says. A pointer may be NULL only with
 *     length 0. No alignment is asked.
 *   - A written buffer overlaps no other buffer of the call.
 *   - The stack has MLGD_STACK_BYTES left.
 *   - The processor takes the smallest floats (subnormals) as they are, as it does from the start.
 *     In a program linked with gcc's -ffast-math, or that sets DAZ itself, they count as 0.
 *   - Sizes, bits, limit and kind are 16-bit: C itself makes 7 of a caller's 65,543, before the
 *     call can refuse it. -Wconversion warns of it.
 *
 * Promise. Let t = gamma / 2, rounded down, and the limit at least L / 2 + 1 (64 with bits 8, 2
 * with bits 3). If nothing is refused and at most t samples stand for another bit than the codeword
 * that was sent has there, however strongly, the call returns MLGD_DECODED, the word is that
 * codeword, and changed is the number of wrong samples with a level other than 0. One exception:
 * where gamma is even and exactly gamma / 2 samples are wrong, no right bit 1 may have level 0 at
 * the start. With bits 10, 11 and 12 L / 2 + 1 is 256, 512 and 1,024, more than the limit can be.
 * With any limit the promise holds for every number w of wrong samples, 1 to t, for which the limit
 * is at least L / (gamma - 2 * w + 2) + 1, rounded down; README.md has a table of them.
 *
 * Proved, for every input: what is returned and every byte that is written or stays, that no byte
 * outside the lent lengths is touched, that the call ends, and the promise. Trusted: the points
 * above, this declaration, the prover and its compiler's back end, memcpy and memset.
 *
 * Target. The archive is for x86-64 Linux alone (System V ABI, SSE2). It needs memcpy and memset of
 * the C library and nothing else, and may be linked into a shared library.
 */
uint32_t mlgd_decode(uint16_t n, uint16_t m, uint16_t rho, uint16_t gamma,
                     const uint8_t *list, size_t list_bytes,
                     uint16_t bits, uint16_t limit, uint16_t kind, uint32_t step,
                     const uint8_t *samples, size_t sample_bytes,
                     uint8_t *word, size_t word_bytes,
                     uint8_t *levels, size_t level_bytes,
                     uint8_t *report, size_t report_bytes);

#ifdef __cplusplus
}
#endif

#endif
