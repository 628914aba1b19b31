/* What is given to be played: loose case files, or a submission, whose manifest lists its files with their SHA-256 and
 * says how many cases they have. cases/FORMAT.md tells how a manifest is written. */
#ifndef HOST_SUBMISSION_H
#define HOST_SUBMISSION_H

#include "script.h"

struct submission {
    struct script manifest; /* its text is NULL where loose files were given */
    struct script *scripts;
    char **names; /* of the listed files, from this folder; NULL for loose files */
    size_t count;
    size_t commands;
    size_t cases;
    size_t expected;
};

/* Loads and checks these files, or the one manifest among them, and tells every error on standard error. Returns how
 * many there are. Ids ascend over a submission, and in a loose file. */
size_t submission_read(struct submission *submission, char **files, size_t count);

/* Prints the manifest of loose files that were read. */
void submission_print(const struct submission *submission);

void submission_free(struct submission *submission);

#endif
