/* cJSON: parses standard input, prints it in both ways, and compares a copy that was changed. */
#include <stdio.h>
#include <stdlib.h>
#include "cJSON.h"

static char text[20000];

static void show(char *printed) {
    puts(printed);
    cJSON_free(printed);
}

int main(void) {
    text[fread(text, 1, sizeof text - 1, stdin)] = 0;
    cJSON *read = cJSON_Parse(text);
    if (read == NULL) {
        printf("wrong at byte %d\n", (int)(cJSON_GetErrorPtr() - text));
        return 1;
    }
    show(cJSON_Print(read));
    show(cJSON_PrintUnformatted(read));
    cJSON *copy = cJSON_Duplicate(read, 1);
    printf("equal %d\n", cJSON_Compare(read, copy, 1));
    cJSON_AddNumberToObject(copy, "half", 0.5);
    cJSON_AddItemToObject(copy, "table", cJSON_CreateIntArray((const int[]){1, -2, 3}, 3));
    printf("equal %d\n", cJSON_Compare(read, copy, 1));
    show(cJSON_PrintUnformatted(copy));
    cJSON_Delete(read);
    cJSON_Delete(copy);
    return 0;
}
