/* The laws of an erase that is cut and done over, for the test program `laws`: see restart.c. */
#ifndef RESTART_H
#define RESTART_H

/* Each goes the two ways of a law. The two parts have to store the same then. */
void cut_erase_done_over(void);
void cut_update_starts_over(void);

/* Ways on a blank part that show what is no law. */
void wrong_laws_of_cut_erases(void);

#endif
