/* What this program was built from. host/build writes the three texts when it compiles. */
#ifndef HOST_IDENTITY_H
#define HOST_IDENTITY_H

extern const char archive_sha256[];    /* of the library's archive */
extern const char kit_identity[];      /* the toolchain's, as `rt version` prints it */
extern const char requests_built_in[]; /* the change requests that have landed, or none */

#endif
