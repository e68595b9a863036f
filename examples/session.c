/* A session by line: prints what each line of standard input is answered, and the closing answer (text lines of at most 8,190 bytes). */
#include <stdio.h>
#include <string.h>
#include "yindolve.h"

static yindolve_session session;
static char line[8192];

int main(void) {
    yindolve_session_open(&session);
    uint64_t bytes = 0;
    while (fgets(line, sizeof line, stdin)) {
        size_t count = strcspn(line, "\n");
        /* bytes without a line feed at their end are refused with 1, as this line is */
        if (line[count] != '\n') line[0] = '(', count = 1;
        if (yindolve_session_line(&session, (const uint8_t *)line, count, &bytes)) return 1;
        fwrite(session.answer, 1, bytes, stdout);
    }
    if (yindolve_session_end(&session, &bytes)) return 1;
    fwrite(session.answer, 1, bytes, stdout);
    return 0;
}
