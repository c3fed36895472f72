#ifndef MACHINES_H
#define MACHINES_H

#include <stdint.h>

/* Machines of the source documents' patterns, row by row. */

enum { NOWHERE = 65535 };

/* The bytes from one to another lead to a state. */
struct arrow {
    uint8_t from;
    uint8_t to;
    uint16_t next;
};

struct row {
    const struct arrow *arrows;
    uint16_t token;
};

struct wanted_machine {
    const char *const *texts;
    const struct row *rows;
};

extern const struct wanted_machine wanted_machines[];

#endif
