#include "machines.h"

#include <stddef.h>

/* A row's arrows end with one that leads nowhere, and so do a machine's rows with one that has no arrows. */
#define ARROWS(...) (const struct arrow[]){ __VA_ARGS__ { 0, 0, NOWHERE } }
#define ROWS(...) (const struct row[]){ __VA_ARGS__ { NULL, 0 } }
#define TEXTS(...) (const char *const[]){ __VA_ARGS__, NULL }
#define NO_END NOWHERE

const struct wanted_machine wanted_machines[] = {
    { TEXTS("restore", "(St )?[A-Z][a-z]+", "in", "and"), ROWS(
        { ARROWS({ 'A', 'R', 1 }, { 'S', 'S', 2 }, { 'T', 'Z', 1 }, { 'a', 'a', 3 }, { 'i', 'i', 4 },
                 { 'r', 'r', 5 },), NO_END },
        { ARROWS({ 'a', 'z', 6 },), NO_END },
        { ARROWS({ 'a', 's', 6 }, { 't', 't', 7 }, { 'u', 'z', 6 },), NO_END },
        { ARROWS({ 'n', 'n', 8 },), NO_END },
        { ARROWS({ 'n', 'n', 9 },), NO_END },
        { ARROWS({ 'e', 'e', 10 },), NO_END },
        { ARROWS({ 'a', 'z', 6 },), 1 },
        { ARROWS({ ' ', ' ', 11 }, { 'a', 'z', 6 },), 1 },
        { ARROWS({ 'd', 'd', 12 },), NO_END },
        { ARROWS(), 2 },
        { ARROWS({ 's', 's', 13 },), NO_END },
        { ARROWS({ 'A', 'Z', 1 },), NO_END },
        { ARROWS(), 3 },
        { ARROWS({ 't', 't', 14 },), NO_END },
        { ARROWS({ 'o', 'o', 15 },), NO_END },
        { ARROWS({ 'r', 'r', 16 },), NO_END },
        { ARROWS({ 'e', 'e', 17 },), NO_END },
        { ARROWS(), 0 },
    ) },
    { TEXTS("(0|1)*0"), ROWS(
        { ARROWS({ '0', '0', 1 }, { '1', '1', 0 },), NO_END },
        { ARROWS({ '0', '0', 1 }, { '1', '1', 0 },), 0 },
    ) },
    { TEXTS("a*abb*"), ROWS(
        { ARROWS({ 'a', 'a', 1 },), NO_END },
        { ARROWS({ 'a', 'a', 1 }, { 'b', 'b', 2 },), NO_END },
        { ARROWS({ 'b', 'b', 2 },), 0 },
    ) },
    { TEXTS("a(bc*|d)+"), ROWS(
        { ARROWS({ 'a', 'a', 1 },), NO_END },
        { ARROWS({ 'b', 'b', 2 }, { 'd', 'd', 3 },), NO_END },
        { ARROWS({ 'b', 'c', 2 }, { 'd', 'd', 3 },), 0 },
        { ARROWS({ 'b', 'b', 2 }, { 'd', 'd', 3 },), 0 },
    ) },
    { TEXTS("[\\+\\-]?1+(.1+)?"), ROWS(
        { ARROWS({ '+', '+', 1 }, { '-', '-', 1 }, { '1', '1', 2 },), NO_END },
        { ARROWS({ '1', '1', 2 },), NO_END },
        { ARROWS({ '.', '.', 3 }, { '1', '1', 2 },), 0 },
        { ARROWS({ '1', '1', 4 },), NO_END },
        { ARROWS({ '1', '1', 4 },), 0 },
    ) },
    { TEXTS("000((0|1)+110)*(0|1)+111"), ROWS(
        { ARROWS({ '0', '0', 1 },), NO_END },
        { ARROWS({ '0', '0', 2 },), NO_END },
        { ARROWS({ '0', '0', 3 },), NO_END },
        { ARROWS({ '0', '1', 4 },), NO_END },
        { ARROWS({ '0', '0', 4 }, { '1', '1', 5 },), NO_END },
        { ARROWS({ '0', '0', 4 }, { '1', '1', 6 },), NO_END },
        { ARROWS({ '0', '0', 4 }, { '1', '1', 7 },), NO_END },
        { ARROWS({ '0', '0', 4 }, { '1', '1', 7 },), 0 },
    ) },
    { TEXTS("a(ab)*b"), ROWS(
        { ARROWS({ 'a', 'a', 1 },), NO_END },
        { ARROWS({ 'a', 'a', 2 }, { 'b', 'b', 3 },), NO_END },
        { ARROWS({ 'b', 'b', 1 },), NO_END },
        { ARROWS(), 0 },
    ) },
    { TEXTS("(xx)*(y|z)z*"), ROWS(
        { ARROWS({ 'x', 'x', 1 }, { 'y', 'z', 2 },), NO_END },
        { ARROWS({ 'x', 'x', 0 },), NO_END },
        { ARROWS({ 'z', 'z', 2 },), 0 },
    ) },
    { TEXTS("if", "then", "while", "If", "[\\+\\-]?[0-9]+"), ROWS(
        { ARROWS({ '+', '+', 1 }, { '-', '-', 1 }, { '0', '9', 2 }, { 'I', 'I', 3 }, { 'i', 'i', 4 },
                 { 't', 't', 5 }, { 'w', 'w', 6 },), NO_END },
        { ARROWS({ '0', '9', 2 },), NO_END },
        { ARROWS({ '0', '9', 2 },), 4 },
        { ARROWS({ 'f', 'f', 7 },), NO_END },
        { ARROWS({ 'f', 'f', 8 },), NO_END },
        { ARROWS({ 'h', 'h', 9 },), NO_END },
        { ARROWS({ 'h', 'h', 10 },), NO_END },
        { ARROWS(), 3 },
        { ARROWS(), 0 },
        { ARROWS({ 'e', 'e', 11 },), NO_END },
        { ARROWS({ 'i', 'i', 12 },), NO_END },
        { ARROWS({ 'n', 'n', 13 },), NO_END },
        { ARROWS({ 'l', 'l', 14 },), NO_END },
        { ARROWS(), 1 },
        { ARROWS({ 'e', 'e', 15 },), NO_END },
        { ARROWS(), 2 },
    ) },
    { TEXTS("[1-9][0-9]*", "0[0-7]*", "0x[0-9A-Fa-f]+"), ROWS(
        { ARROWS({ '0', '0', 1 }, { '1', '9', 2 },), NO_END },
        { ARROWS({ '0', '7', 3 }, { 'x', 'x', 4 },), 1 },
        { ARROWS({ '0', '9', 2 },), 0 },
        { ARROWS({ '0', '7', 3 },), 1 },
        { ARROWS({ '0', '9', 5 }, { 'A', 'F', 5 }, { 'a', 'f', 5 },), NO_END },
        { ARROWS({ '0', '9', 5 }, { 'A', 'F', 5 }, { 'a', 'f', 5 },), 2 },
    ) },
    { TEXTS("quit", "[a-z]+", "[0-9]+(.[0-9]*)?"), ROWS(
        { ARROWS({ '0', '9', 1 }, { 'a', 'p', 2 }, { 'q', 'q', 3 }, { 'r', 'z', 2 },), NO_END },
        { ARROWS({ '.', '.', 4 }, { '0', '9', 1 },), 2 },
        { ARROWS({ 'a', 'z', 2 },), 1 },
        { ARROWS({ 'a', 't', 2 }, { 'u', 'u', 5 }, { 'v', 'z', 2 },), 1 },
        { ARROWS({ '0', '9', 4 },), 2 },
        { ARROWS({ 'a', 'h', 2 }, { 'i', 'i', 6 }, { 'j', 'z', 2 },), 1 },
        { ARROWS({ 'a', 's', 2 }, { 't', 't', 7 }, { 'u', 'z', 2 },), 1 },
        { ARROWS({ 'a', 'z', 2 },), 0 },
    ) },
    { NULL, NULL },
};
