/* SQLite over a file: each word behind the database's name is a statement, whose rows are printed. */
#include <stdio.h>
#include "sqlite3.h"

static int printed(void *context, int count, char **values, char **names) {
    (void)context, (void)names;
    for (int index = 0; index < count; index++)
        printf("%s%s", index ? "|" : "", values[index] ? values[index] : "");
    printf("\n");
    return 0;
}

int main(int count, char **words) {
    sqlite3 *database;
    if (count < 2 || sqlite3_open_v2(words[1], &database, SQLITE_OPEN_READWRITE | SQLITE_OPEN_CREATE, "unix-none") != SQLITE_OK) {
        printf("can't open\n");
        return 2;
    }
    for (int index = 2; index < count; index++) {
        char *why = NULL;
        if (sqlite3_exec(database, words[index], printed, NULL, &why) != SQLITE_OK) {
            printf("%s\n", why);
            return 1;
        }
    }
    return sqlite3_close(database);
}
