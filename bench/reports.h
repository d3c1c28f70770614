// Runs counted and reports added.

#ifndef REPORTS_H
#define REPORTS_H

// Times report and add, and prints how long each takes: 0, or 1 where the sides differ.
int time_reports(void);

#endif
