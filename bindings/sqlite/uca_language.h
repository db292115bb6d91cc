/* Finds the files of a language that an administrator keeps, for uca_sqlite.c. */
#ifndef UCA_LANGUAGE_H
#define UCA_LANGUAGE_H

/* The folder that has the files of a language: of this edition, or of the only one if the edition is empty. The caller frees it by
   sqlite3_free, and so an error, which has the reason. Both are NULL if memory runs out. */
char *find_language(const char *tag, const char *edition, char **error);

#endif
