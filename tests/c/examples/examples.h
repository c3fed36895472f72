#ifndef EXAMPLES_H
#define EXAMPLES_H

/* The examples, a file for each subject; main runs them all. */

void check_refused_books(void);
void check_sets_and_tables(void);
void check_tables(void);
void check_runs(void);
void check_slr_runs(void);
void check_expansions(void);
void check_rooms(void);
void check_trees(void);
void check_formula(void);
void check_all_patterns(void);
void check_cut_lines(void);
void check_sheets(void);
void check_profile(void);

struct grammar;

/* Checks the sets, the table, the lookaheads and FIRST of every nonterminal of one grammar. */
void check_grammar(const struct grammar *grammar);

#endif
