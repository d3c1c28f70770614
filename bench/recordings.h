// Recordings mended, and their first stretches.

#ifndef RECORDINGS_H
#define RECORDINGS_H

// Times mend and stretch, and prints how long each takes: 0, or 1 where the sides differ.
int time_recordings(void);

#endif
