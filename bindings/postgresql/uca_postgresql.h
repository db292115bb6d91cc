/* What the parts of the extension share: uca_postgresql.c has the files, the settings and the keys, uca_language.c finds the files of a
   language, and uca_text.c has the order of texts. */
#ifndef UCA_POSTGRESQL_H
#define UCA_POSTGRESQL_H

#include "postgres.h"

#include "fmgr.h"

#include "uca.h"

/* The size of a reason, and of the path of a file of a language. */
#define REASON 400
#define MOST_PATH (MAXPGPATH + 300)

/* A text with more bytes has more than 1,048,576 code points, since each has four at most. */
#define MOST_TEXT (4 * 1048576)

/* Not for other extensions of the same server. */
#pragma GCC visibility push(hidden)

/* Whether numbers are ordered by their values. */
extern bool has_numbers_by_value(void);

/* Whether a text is too long by its bytes alone. Where numbers are ordered by their values, zeros are not counted,
   since those before a number are not read. So the library may find a text too long that is not so here. */
extern bool is_too_long(const struct varlena *given);

/* What keys are made and texts are ordered by, for as long as the server runs. It is closed if the server has no files. */
extern uca_collator *present_collator(void);

/* Whether keys are compact. */
extern bool has_present_book(void);

/* The database of this process has to be for the server's files and settings. The function is one of the extension in this database. */
extern void need_files(Oid function);

/* Whether it is. */
extern bool has_its_files(Oid function);

/* Prepares sorting, and begins to look at the indexes of each table that is planned. The files have been read. */
extern void start_texts(void);

/* Whether a text can be the tag of a language: ASCII letters and digits, with single hyphens between them. */
extern bool is_language(const char *tag);

/* The paths of the table and the data file of a language, of the edition that is asked for, or of the only one where that is "". Otherwise it
   is false, and there is a reason. */
extern bool find_language(const char *tag, const char *asked, char *table, char *data, char *reason);

#pragma GCC visibility pop

#endif
