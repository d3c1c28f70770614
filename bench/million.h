// Long runs of events.

#ifndef MILLION_H
#define MILLION_H

// Times a million events of rules that stay pending, and prints how many go through in a second: 0, or 1 where the sides differ.
int time_million(void);

#endif
