/* What the parts of the host share. */
#ifndef HOST_H
#define HOST_H

#include "questions.h"
#include <limits.h>
#include <stddef.h>
#include <stdint.h>
#include <sys/types.h>

/* ---- finding.c: which files run. */

extern char **words;                /* the compiler's own words, its name first */
extern char compiler[PATH_MAX];     /* the file that is run */
extern char self[PATH_MAX];         /* this host's own file */
extern int is_inside;               /* whether another host started this one, directly or through other programs */
extern int met_self;                /* whether this host was met where a compiler was looked for */

void find_self(void);
int find_compiler(const char *name);
const char *find_program(void);
const char *find_helper(void);
void tell_inside(void);

/* ---- running.c: processes and signals. */

extern int text, messages, printed, list;   /* files in memory: for a command's output, and for the list of the files that a text is made of */

int hold_closed(void);
int make_files(void);
void watch_signals(void);
_Noreturn void pass_through(void);
_Noreturn void end_by(int number);
pid_t start(const char *program, int *to, int *from);
int preprocess(char **line);
int compile(char **line);

/* ---- asking.c: the helper that asks a server. */

int ask_server(const unsigned char *question, size_t size, char **line);

/* ---- logging.c: the line of a call in a log. */

extern uint64_t began;              /* when this call began, in microseconds since 1970 */

uint64_t now(void);
void note_run(char letter, uint64_t from);
void take_line(char **line);
int has_line(void);
void write_line(int ended);

/* ---- showing.c: what a compiler prints. */

extern int isnt_shown;      /* whether something that a compiler printed wasn't shown as it printed it: then it is run directly */
extern int isnt_kept;       /* whether it printed what can't be kept */

int write_all(int file, const void *bytes, size_t size);
void begin_messages(char **line);
void show_part(int to, const char *part, size_t size);
void end_messages(void);
int show_kept(void);

#endif
