/* Questions of the program, as the host reads them and hands some of them on. */
#ifndef QUESTIONS_H
#define QUESTIONS_H

#include <signal.h>
#include <stddef.h>
#include <stdint.h>

extern volatile sig_atomic_t stopped;       /* the signal that came and stops this process */

uint64_t number_at(const unsigned char *bytes);
void put_number(unsigned char *bytes, uint64_t number);
int read_all(int file, void *bytes, size_t size);
unsigned char *next_question(int from, uint64_t *size);
char **words_of(const unsigned char *question, uint64_t size, char *first);
void free_words(char **line);

#endif
