/* What a bench rig needs of a packed table: one call, which decides a packet.
 *
 * The code behind it is written in Rattle and proved, in the crates rig and rig_c; rig/build.sh makes the library. What a packed table
 * is stands in docs/RULES.md, under "Packed bytes".
 */
#ifndef KUSUCOPPER_H
#define KUSUCOPPER_H

#include <stddef.h>
#include <stdint.h>

#ifdef __cplusplus
extern "C" {
#endif

/* The decisions of a packet. */
#define KUSUCOPPER_DENY 0u
#define KUSUCOPPER_NONE 1u
#define KUSUCOPPER_ALLOW 2u

/* Bytes that are no table of verdicts give this and the number of the refusal, 11 to 16. */
#define KUSUCOPPER_REFUSED 100u

/* Opens the packed table in `length` bytes at `bytes` and answers what it decides for one packet.
 *
 * Addresses and ports are plain numbers in the machine's own order of bytes: 10.1.0.5 is 0x0a010005. A packet without ports has 0 in
 * both port fields.
 *
 * Answers
 *
 *     0    deny
 *     1    none: the table says nothing about the packet
 *     2    allow
 *     111  the length is 0, no multiple of 512, or above 32,768
 *     112  the check of a block is wrong
 *     113  the count or the number of a block is wrong, or an unused byte is not 0
 *     114  a row is of another kind than verdicts, or has a decision that is none
 *     115  the rows leave a gap, overlap, or do not stand in their order
 *     116  the rows are not the shortest that say the same: two neighbours could be one
 *
 * and nothing else. Of several refusals the first that opening meets is answered: block by block 112, 113 and 114, then 115, then 116.
 *
 * Every call looks at all bytes again, so bytes that have changed since the last call are found out. The call needs no memory of its
 * own but the stack, keeps nothing, reads nothing but these bytes and changes none of them; so it may be made from several threads at
 * once. `bytes` must point to `length` bytes that can be read; it may not be a null pointer, even where the length is 0.
 */
uint32_t kusucopper_decide(const uint8_t *bytes, size_t length, uint32_t source, uint16_t source_port, uint32_t destination,
                           uint16_t destination_port, uint8_t protocol);

#ifdef __cplusplus
}
#endif

#endif
