/* Harmony elements edited so that they say something else, or say it otherwise. */
#ifndef ELEMENTS_H
#define ELEMENTS_H

void exchange_types(char *text);
void lose_the_last_degree(char *text);
void put_the_first_degree_last(char *text);
void count_from_a_major_chord(char *text);
void number_b5_as_a_fourth(char *text);
void subtract_an_altered_tone(char *text);
void put_the_bass_before_the_kind(char *text);
void write_an_alter_of_0(char *text);
void name_roots_by_sharps(char *text);
void take_major_minor_for_minor(char *text);
void put_white_space(char *text);

#endif
