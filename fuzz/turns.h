/* One turn: an input is made and lent, a call is made, and what it answers and leaves is judged. */
#ifndef TURNS_H
#define TURNS_H

void turn_numbers(void);
void turn_books(void);
void turn_pair_streams(void);
void turn_window_streams(void);
void turn_tables(void);
void turn_unions(void);

/* Inputs of gigabytes, by their number, which lie in memory that is never written. */
enum { LARGE_TURNS = 10 };

void turn_large(int number);

#endif
