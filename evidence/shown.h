/* What the page shows one by one: each prints its facts. */
#ifndef SHOWN_H
#define SHOWN_H

/* The cases that document 01 works by hand: what is said and what the archive gave. */
void print_cases(void);

/* One frame, plain and in 8B9B, and what its line is refused for with each bit of it flipped. */
void print_frame(void);

/* The lengths met for one identifier, plain and in 8B9B, by payload size. */
void print_one_identifier(void);

#endif
