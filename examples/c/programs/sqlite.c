/* SQLite: runs standard input as SQL over a database in memory, and prints each row. There are no files. */
#include <stdio.h>
#include <string.h>
#include "sqlite3.h"

static char text[20000];

static int no_file(sqlite3_vfs *vfs, const char *name, sqlite3_file *file, int flags, int *found) {
    (void)vfs, (void)name, (void)flags, (void)found;
    file->pMethods = NULL;
    return SQLITE_CANTOPEN;
}

static int full_name(sqlite3_vfs *vfs, const char *name, int size, char *full) {
    (void)vfs;
    sqlite3_snprintf(size, full, "%s", name);
    return SQLITE_OK;
}

static int zeros(sqlite3_vfs *vfs, int size, char *bytes) {
    (void)vfs;
    memset(bytes, 0, size);
    return size;
}

static int noon(sqlite3_vfs *vfs, double *day) {
    (void)vfs;
    *day = 2451545.0; /* the first of January 2000 */
    return SQLITE_OK;
}

static sqlite3_vfs without_files = {.iVersion = 1, .szOsFile = sizeof(sqlite3_file), .mxPathname = 64, .zName = "none",
                                    .xOpen = no_file, .xFullPathname = full_name, .xRandomness = zeros, .xCurrentTime = noon};

int sqlite3_os_init(void) { return sqlite3_vfs_register(&without_files, 1); }

int sqlite3_os_end(void) { return SQLITE_OK; }

static int row(void *unused, int count, char **values, char **names) {
    (void)unused, (void)names;
    for (int at = 0; at < count; at++)
        printf("%s%s", at ? "|" : "", values[at] ? values[at] : "NULL");
    puts("");
    return 0;
}

int main(void) {
    sqlite3 *database;
    char *fault = NULL;
    text[fread(text, 1, sizeof text - 1, stdin)] = 0;
    if (sqlite3_open(":memory:", &database) != SQLITE_OK)
        return 1;
    int status = sqlite3_exec(database, text, row, NULL, &fault);
    if (status != SQLITE_OK)
        printf("%s\n", fault);
    sqlite3_close(database);
    return status;
}
