// Texts read and printed.

#ifndef TEXTS_H
#define TEXTS_H

// Times parse and print, and prints how many megabytes of text go through in a second: 0, or 1 where the sides differ.
int time_texts(void);

#endif
