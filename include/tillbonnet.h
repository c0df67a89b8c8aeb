/* Tillbonnet: the partner search of phase folding on one lent store. Derived from tzap, Apache-2.0 (NOTICE).
 *
 * The library is proved (crates/host): no function asks anything of its arguments, reads or writes outside the words that it is lent, or keeps
 * anything between calls. The store is yours: an array of 64-bit words, lent with each call with its length. Which words a call changes is in
 * the contracts; a refusal (1 to 8, 10) changes none.
 *
 * What you owe: a pointer with a length points to that many words that nobody else changes during the call (not NULL, even where the length is
 * 0); `first`, `says` and `labels` lie outside the store. Two stores can be used by two threads; of one store, several looks and reads may run at
 * a time.
 *
 * Build: rt lib --cpu=x86-64 in crates/host, then link crates/host/out/libhost.a (any x86-64 processor; --cpu=x86-64-v3 makes it for newer ones
 * alone). It needs memset and the like of the C library and nothing else.
 */
#ifndef TILLBONNET_INCLUDED
#define TILLBONNET_INCLUDED

#include <stddef.h>
#include <stdint.h>

#ifdef __cplusplus
extern "C" {
#endif

/* What every call but tillbonnet_need gives back. */
enum tillbonnet_answer {
    TILLBONNET_DONE = 0,
    TILLBONNET_BAD_SHAPE = 1,       /* opening: no qubits or more than 23,168, more than 2^20 steps, sliced with more than 32 qubits, or no such form */
    TILLBONNET_BAD_EVENTS = 2,      /* opening: room for no events, for more than 2^24, or for more than 2^25 words of axes */
    TILLBONNET_TOO_SHORT = 3,       /* labels that are not four words a qubit; a store below the need, or shorter than at its opening; `says` too short */
    TILLBONNET_NO_QUBIT = 4,        /* a qubit is n or more */
    TILLBONNET_SAME_QUBIT = 5,      /* one call names a qubit twice */
    TILLBONNET_NO_ROOM = 6,         /* no room for the events that the call records */
    TILLBONNET_NO_EVENT = 7,        /* no such event, or a blocker; for a kill also a dead one */
    TILLBONNET_BAD_TURN = 8,        /* a turn other than 0, 2, 4, 6 */
    TILLBONNET_NO_STORE = 9,        /* the words are none that these calls have left: open the store again */
    TILLBONNET_NO_SUCH_NUMBER = 10  /* the number names no gate or kind; told before the store is looked at */
};

enum tillbonnet_form { TILLBONNET_SCALAR = 0, TILLBONNET_SLICED = 1 };

/* P is a phase rotation: the axis of Z. */
enum tillbonnet_kind { TILLBONNET_KIND_X = 0, TILLBONNET_KIND_Y = 1, TILLBONNET_KIND_Z = 2, TILLBONNET_KIND_P = 3 };

/* From CNOT on a gate takes two qubits; of CNOT, CZ and CY the first is the control. */
enum tillbonnet_gate_number {
    TILLBONNET_GATE_H = 0,
    TILLBONNET_GATE_X = 1,
    TILLBONNET_GATE_Y = 2,
    TILLBONNET_GATE_Z = 3,
    TILLBONNET_GATE_S = 4,
    TILLBONNET_GATE_SDG = 5,
    TILLBONNET_GATE_SX = 6,
    TILLBONNET_GATE_CNOT = 7,
    TILLBONNET_GATE_CZ = 8,
    TILLBONNET_GATE_CY = 9,
    TILLBONNET_GATE_SWAP = 10
};

/* The first word of what a look says. */
enum tillbonnet_sight { TILLBONNET_NONE = 0, TILLBONNET_FOUND = 1, TILLBONNET_BLOCKED = 2, TILLBONNET_OUT = 3 };

/* ---- opening */

/* The words that a store needs, or 0 where no opening accepts these sizes. */
size_t tillbonnet_need(size_t n, size_t events, uint64_t form);

/* Makes a store of the words, whatever they hold: n qubits, room for `events` events, `steps` steps for each look. Labels: four random words a
 * qubit, X high, X low, Z high, Z low. Answers 0, 1, 2 or 3. */
uint32_t tillbonnet_open(uint64_t *store, size_t words, size_t n, size_t events, uint64_t steps, uint64_t form,
                         const uint64_t *labels, size_t label_words);

/* ---- frames */

/* Applies a gate. A gate on one qubit has no use for b. Answers 0, 3, 4, 5, 9 or 10. */
uint32_t tillbonnet_gate(uint64_t *store, size_t words, uint64_t gate, size_t a, size_t b);

/* Applies the Clifford gates of a turn by k eighths of a full turn (k = 0, 2, 4, 6). Answers 0, 3, 4, 8, 9 or 10. */
uint32_t tillbonnet_turn(uint64_t *store, size_t words, uint64_t kind, uint64_t k, size_t q);

/* ---- events: the number of the first event recorded goes to *first, which any answer but 0 leaves as it was */

/* Records a rotation about qubit q as it stands now. Answers 0, 3, 4, 6, 9 or 10. */
uint32_t tillbonnet_record(uint64_t *store, size_t words, uint64_t kind, size_t q, uint32_t tag, size_t *first);

/* Records the blocker of a measurement. Answers 0, 3, 4, 6 or 9. */
uint32_t tillbonnet_measure(uint64_t *store, size_t words, size_t q, size_t *first);

/* Records the two blockers of a reset, or none. Answers 0, 3, 4, 6 or 9. */
uint32_t tillbonnet_reset(uint64_t *store, size_t words, size_t q, size_t *first);

/* Records the seven blockers of a ccx with controls a and b and target t, or none; of a ccz. Answers 0, 3, 4, 5, 6 or 9. */
uint32_t tillbonnet_ccx(uint64_t *store, size_t words, size_t a, size_t b, size_t t, size_t *first);
uint32_t tillbonnet_ccz(uint64_t *store, size_t words, size_t a, size_t b, size_t t, size_t *first);

/* Kills a rotation that merged away. Answers 0, 3, 7 or 9. */
uint32_t tillbonnet_kill(uint64_t *store, size_t words, size_t id);

/* From now on no rotation recorded so far can be found. Answers 0, 3 or 9. */
uint32_t tillbonnet_clear(uint64_t *store, size_t words);

/* ---- questions: the store is only read; on an answer other than 0 `says` is as it was */

/* says, at least three words: the tag; the sign, 1 or -1; 1 if the rotation is live, else 0. Answers 0, 3 (also where says has fewer), 7 or 9. */
uint32_t tillbonnet_read(const uint64_t *store, size_t words, size_t id, int64_t *says, size_t says_words);

/* Looks for the partner of a rotation about qubit q. says, at least four words: tillbonnet_sight; the partner's number and the relative sign (1 or
 * -1) where it is FOUND, else 0 and 0; the steps spent. Answers 0, 3 (also where says has fewer words), 4, 9 or 10. */
uint32_t tillbonnet_look(const uint64_t *store, size_t words, uint64_t kind, size_t q, int64_t *says, size_t says_words);

#ifdef __cplusplus
}
#endif

#endif
