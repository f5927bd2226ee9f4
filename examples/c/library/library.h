/* What the library's files share. */
#ifndef LIBRARY_H
#define LIBRARY_H

/* Before each function: a program may have its own of the same name, which goes first. */
#define OWN_GOES_FIRST __attribute__((weak))

#endif
