/* What cfb_open keeps of a file: its bytes, which are lent to the proved calls. No proof covers
   this. cfb_files.c has the functions, which build.sh hides. */
#ifndef CFB_SOURCE_H
#define CFB_SOURCE_H
#include "cfb.h"

struct cfb_source {
    void *bytes;
    size_t len;
    int fd;         /* of the file that is mapped; -1 if the bytes are memory of malloc */
    bool is_copied; /* a change has copied the bytes, which are read no more */
};

/* Unmaps or frees it. */
void source_end(struct cfb_source *source);
/* Whether the file that is mapped has become shorter since, which errno says then. */
bool source_is_cut(const struct cfb_source *source);
#endif
