/* Elements that are wrong, each in one way. */
#ifndef UNREADABLE_H
#define UNREADABLE_H

/* Ends the run as failed where the reader takes one of them; else how many there are. */
unsigned refuse_unreadable(void);

#endif
