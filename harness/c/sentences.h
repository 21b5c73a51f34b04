/* The sentences of the header, tried on the engine. */
#ifndef SENTENCES_H
#define SENTENCES_H

/* Whether all are true. Those that are not are told on standard error. */
int sentences_hold(void);

#endif
