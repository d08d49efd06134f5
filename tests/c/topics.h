/* The topics that calls.c goes through, each in a file of its name. */
#ifndef TOPICS_H
#define TOPICS_H

void cases(void);
void faults(void);
void steps(void);
void refusals(void);
void soundness(void);
void ranges(void);
void clerk(void);
void wrappers(void);
void journal(void);
void wal(void);

#endif
