/* Ways in which a copy of a sketch's file is wrong. Each is applied to a lawful file, with a window and a list. */
#ifndef DAMAGES_H
#define DAMAGES_H

#include "sketch_file.h"

struct damage {
    const char *name;
    void (*apply)(struct file_bytes *file);
};

enum { DAMAGES = 10 };

extern const struct damage damages[DAMAGES];

#endif
