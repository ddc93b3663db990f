/* A note's name by the rules: paper 01, "Notes", and request Q-10. */
#ifndef NOTE_NAME_H
#define NOTE_NAME_H

/* Writes it without a NUL; the place behind it. */
char *put_note_name(char *to, char letter, int count);

#endif
