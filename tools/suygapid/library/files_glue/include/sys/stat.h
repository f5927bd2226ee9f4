/* newlib's sys/stat.h, with a function that it declares for other systems alone. */
#include_next <sys/stat.h>
#ifndef SFI_FILES_LSTAT
#define SFI_FILES_LSTAT
#ifdef __cplusplus
extern "C"
#endif
int lstat(const char *__restrict path, struct stat *__restrict status);
#endif
