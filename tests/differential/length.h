/* The number of a table's entries. */
#ifndef LENGTH_H
#define LENGTH_H

#define LENGTH(table) ((unsigned)(sizeof(table) / sizeof(table)[0]))

#endif
