/* The two implementations held against each other. A comparison ends the program at the first difference. */
#ifndef COMPARE_H
#define COMPARE_H

#include "inputs.h"

/* Whether counters and tables are the same; bytes between them that belong to nothing are not looked at. */
int is_same_drawing(const struct drawing *a, const struct drawing *b);

/* A file read, in the old form too where it has one; its records taken one by one; everything that is asked of the
   drawing; and the file damaged. */
void compare_file(const struct file *f);

/* Everything that is asked of a drawing whose groups of the box 0.1 are answered so. */
void compare_box(const struct drawing *d, unsigned answer);

/* As many objects as a drawing has, and one more. */
void compare_objects(void);

/* Drawings of so many random arrivals each, refused ones among them, with damaged tables, lengths and outputs: with
   each number of sites in turn, and of eight sites at most by turns with an old form and with limited Sets. */
void compare_random(unsigned drawings, unsigned arrivals);

#endif
