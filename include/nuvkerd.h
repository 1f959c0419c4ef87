/* The playback host as a static library for drivers.
 *
 * Build: `rt lib` in crates/driver, then link crates/driver/out/libdriver.a (see examples/play.c).
 *
 * Refusals are told by the numbers of docs/RULES.md, and three numbers of this interface's own; 0 means none. A refused call writes nothing but
 * its own refusal or outcome. Every length is a count of elements of the list that the pointer begins. Pointers are never null, also where
 * the length is 0, and lists that one call is lent do not overlap. The library uses no heap and no global state.
 */
#ifndef NUVKERD_H
#define NUVKERD_H
#include <stddef.h>
#include <stdint.h>

#ifdef __cplusplus
extern "C" {
#endif

/* Kinds of element. */
#define NUVKERD_LEVELS 0u
#define NUVKERD_HEADS 1u

/* Refusals of this interface's own. */
#define NUVKERD_BAD_KIND 101u   /* a kind other than the two above */
#define NUVKERD_BAD_LAYERS 102u /* more than two layers */
#define NUVKERD_WRONG_KIND 103u /* a call for levels on a host of heads */

/* One record of the log: 44 bytes. The two unused bytes hold nothing. */
typedef struct {
    uint32_t place;
    uint8_t part, kind, refusal, detail, missed, count;
    uint8_t unused[2];
    uint32_t words[8];
} nuvkerd_record;

/* What opening or running a show gave: a refusal; the record that refusal 3 names, else 0; how many commands there are, 0 with a refusal. */
typedef struct {
    uint32_t refusal, at, commands;
} nuvkerd_outcome;

/* A rig: the access sheet, the port sets, the kind of element, and how many held-write layers a run goes through. Only the calls below
 * write it: a rig whose bytes are altered otherwise is no rig. It may be copied whole. */
typedef struct {
    uint64_t opaque[151];
} nuvkerd_rig;

/* A host without its cells: sheet, port sets, save rows, turn and queues. The caller owns it and keeps it, with the cells, from call to
 * call; only the calls below write it. A copy of host and cells together is a snapshot that goes on by itself. */
typedef struct {
    uint64_t opaque[952];
} nuvkerd_host;

/* A rig of so many cells, with no grants, no swapped cells and no ports. *refusal is 101, 102 or 14, the first that applies, or 0; a refused
 * rig is one of one cell, levels and no layers. */
nuvkerd_rig nuvkerd_rig_new(uint32_t kind, uint32_t layers, size_t cells, uint32_t *refusal);

/* Grants a cell to a part: mode 1 reads, 2 writes, 0 and 3 do both. Refusals 15, 9, 18, 16. */
uint32_t nuvkerd_rig_grant(nuvkerd_rig *rig, size_t cell, uint8_t part, uint8_t mode);

/* Makes a cell a swapped one. Refusals 15, 16, 17. */
uint32_t nuvkerd_rig_swap(nuvkerd_rig *rig, size_t cell);

/* Sets who may send to a port and who may receive from it; bit n is part n. Refusal 11. */
uint32_t nuvkerd_rig_port(nuvkerd_rig *rig, uint8_t port, uint8_t senders, uint8_t receivers);

/* The parts upstream of a part, bit n is part n; none for a part over 7. */
uint8_t nuvkerd_rig_upstream(const nuvkerd_rig *rig, uint8_t part);

/* A host of this rig. Cell n is packed in words 2n and 2n + 1; cells_len counts words, and an odd last word belongs to no cell. *refusal is 19
 * where the words do not hold as many cells as the rig has, else 0; a host is still given, and each later call decides on 19 by the words
 * that it is lent. The words are only looked at. */
nuvkerd_host nuvkerd_make(const nuvkerd_rig *rig, const uint32_t *cells, size_t cells_len, uint32_t *refusal);

/* Opens a show file: refusals 1 to 4, or how many commands its chain has. */
nuvkerd_outcome nuvkerd_open(const uint8_t *show, size_t show_len);

/* Runs a show: refusals 1 to 4, then 5 where the log has fewer places than there are commands; or one log record a command, in chain order.
 * Later places of the log stay as they were. The held writes of the layers are in the words again when the call returns. */
nuvkerd_outcome nuvkerd_run(nuvkerd_host *host, uint32_t *cells, size_t cells_len, const uint8_t *show, size_t show_len, nuvkerd_record *log,
                            size_t log_len);

/* The same for levels, with lent scratch of one byte an element: refusals 1 to 4, 103, 6, 5. Afterwards the scratch is full of zeros, or
 * untouched where the run was refused or had no commands. */
nuvkerd_outcome nuvkerd_run_levels(nuvkerd_host *host, uint32_t *cells, size_t cells_len, const uint8_t *show, size_t show_len,
                                   nuvkerd_record *log, size_t log_len, uint8_t *args, size_t args_len, uint8_t *results, size_t results_len);

/* One command: any bytes, and a place to be logged under. */
nuvkerd_record nuvkerd_command(nuvkerd_host *host, uint32_t *cells, size_t cells_len, uint32_t place, const uint8_t *bytes, size_t bytes_len);

#ifdef __cplusplus
}
#endif
#endif
