/* 01's worked example from C: two qubits, a rotation that finds its partner with the opposite sign, one that is blocked, and the kill that
 * unblocks it. Prints a line for each look. Built and run by ../run.sh. */
#include <inttypes.h>
#include <stdio.h>
#include <stdlib.h>

#include "tillbonnet.h"

/* A real host draws these at random: X high, X low, Z high, Z low of each qubit. */
static const uint64_t LABELS[8] = {0, 1, 0, 2, 0, 4, 0, 8};

static void must(const char *what, uint32_t answer) {
    if (answer != TILLBONNET_DONE) {
        fprintf(stderr, "%s: refused with %" PRIu32 "\n", what, answer);
        exit(1);
    }
}

static void show(const uint64_t *store, size_t words, uint64_t kind, size_t q) {
    int64_t says[4];
    must("look", tillbonnet_look(store, words, kind, q, says, 4));
    switch (says[0]) {
    case TILLBONNET_FOUND:
        printf("found %" PRId64 " sign %" PRId64 " after %" PRId64 "\n", says[1], says[2], says[3]);
        break;
    case TILLBONNET_NONE:
        printf("none after %" PRId64 "\n", says[3]);
        break;
    case TILLBONNET_BLOCKED:
        printf("blocked after %" PRId64 "\n", says[3]);
        break;
    default:
        printf("out of steps after %" PRId64 "\n", says[3]);
    }
}

int main(void) {
    /* The words need not be cleared: an opening relies on none of their old contents. */
    size_t words = tillbonnet_need(2, 8, TILLBONNET_SCALAR);
    uint64_t *store = malloc(words * sizeof *store);
    size_t first, other;
    if (words == 0 || store == NULL) {
        return 1;
    }
    must("open", tillbonnet_open(store, words, 2, 8, 1048576, TILLBONNET_SCALAR, LABELS, 8));
    must("record", tillbonnet_record(store, words, TILLBONNET_KIND_Z, 0, 1, &first));
    must("cnot", tillbonnet_gate(store, words, TILLBONNET_GATE_CNOT, 0, 1));
    show(store, words, TILLBONNET_KIND_Z, 1);
    must("x", tillbonnet_gate(store, words, TILLBONNET_GATE_X, 1, 0));
    must("cnot", tillbonnet_gate(store, words, TILLBONNET_GATE_CNOT, 0, 1));
    must("x", tillbonnet_gate(store, words, TILLBONNET_GATE_X, 0, 0));
    show(store, words, TILLBONNET_KIND_Z, 0);
    must("record", tillbonnet_record(store, words, TILLBONNET_KIND_X, 0, 2, &other));
    show(store, words, TILLBONNET_KIND_Z, 0);
    must("kill", tillbonnet_kill(store, words, other));
    show(store, words, TILLBONNET_KIND_Z, 0);
    must("clear", tillbonnet_clear(store, words));
    show(store, words, TILLBONNET_KIND_Z, 0);
    /* What is refused changes nothing: the store has no qubit 7. */
    printf("gate on qubit 7: refused with %" PRIu32 "\n", tillbonnet_gate(store, words, TILLBONNET_GATE_H, 7, 0));
    free(store);
    return 0;
}
