/*
 * Givrethans for a program in C: calls of a planner and their answers, in octets.
 *
 * Link with libinterface.a, the static library that `embedding/library` writes. The functions take no memory
 * from the heap and keep nothing from one call to the next.
 *
 * A list of calls is calls back to back. Every number has its most significant octet first:
 *
 *   01 set-up      cycle (4 octets), length of the sheet (2 octets), the sheet of port records
 *   02 offer       index of the record (8 octets), length of the sheet (2 octets), the sheet of flow records
 *   03 withdrawal  number of the flow (2 octets)
 *   04 start       number of the flow (2 octets)
 *   05 flowspan    nothing more
 *   06 gate list   port (1 octet)
 *
 * An answer has 16 octets:
 *
 *   0        00 done, 01 a start, 02 a flowspan, 03 a number of gate records, FF refused
 *   1        the number of the refusal, else 0
 *   2        its layer (1 sheet, 2 record, 3 plan), else 0
 *   3        the hop of its place, else 0
 *   4, 5     the bit of its place, else 0
 *   6, 7     0
 *   8 to 15  the start, the flowspan or the number of gate records; of a refusal the index of the record of its
 *            place; else 0
 *
 * Sheets, records and refusals are described in docs/FORMATS.md and docs/FAULTS.md, these functions in
 * docs/INTERFACE.md.
 */
#ifndef GIVRETHANS_H
#define GIVRETHANS_H

#include <stddef.h>
#include <stdint.h>

#ifdef __cplusplus
extern "C" {
#endif

/* The octets of an answer. */
#define GIVRETHANS_ANSWER 16

/* The octets that are enough for every gate list: 3,073 records of 5 octets. */
#define GIVRETHANS_LONGEST_GATE_LIST 15365

/* What is returned in place of the number of calls; nothing was written. The first that applies, in this order. */
#define GIVRETHANS_NO_LINE (-1)  /* the filling of the line is refused (refusal 5) */
#define GIVRETHANS_NO_CALLS (-2) /* `calls` is no list of calls: an unknown kind, or cut short */
#define GIVRETHANS_NO_ROOM (-3)  /* `answers` is shorter than 16 octets a call */

/*
 * Makes a plan on an Ethernet line and performs the calls on it in order. The line has a port for each of `codes`,
 * from 1 to 32 of them: 1 is 10 Mb/s, 2 is 100 Mb/s, 3 is 1,000 Mb/s.
 *
 * Each call's answer goes behind the one before, from the front of `answers`; what stands behind the last answer
 * stays. Each gate list that is answered goes to the front of `buffer`, over the one before; what stands behind it
 * stays.
 *
 * Returns the number of calls, or one of the three numbers above.
 *
 * Each pointer is valid for its length and not null, also where the length is 0. `answers` and `buffer` overlap
 * neither each other nor `codes` or `calls`.
 */
int64_t givrethans_perform_ethernet(const uint8_t *codes, size_t codes_len,
                                    const uint8_t *calls, size_t calls_len,
                                    uint8_t *answers, size_t answers_len,
                                    uint8_t *buffer, size_t buffer_len);

/*
 * The same on a cell line: from 1 to 32 ports, cells of 64 to 1,024 octets, and from 1 to 100,000 ns for a cell.
 */
int64_t givrethans_perform_cells(uint8_t ports, uint16_t cell_size, uint32_t cell_time,
                                 const uint8_t *calls, size_t calls_len,
                                 uint8_t *answers, size_t answers_len,
                                 uint8_t *buffer, size_t buffer_len);

#ifdef __cplusplus
}
#endif

#endif
