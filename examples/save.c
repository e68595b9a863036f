/* A planner's and a desk's part: the first command looks ahead and saves the session, the second reads it and values a state.
 *     save plan FILE <model.txt        gives each line to a session, then looks a step ahead, cuts what can go, and saves
 *     save value FILE <state.txt       restores the session, gives it the lines of a state and prints the value
 * The file may come from anywhere: its sum tells damage by accident, and the library tests a session's words before it answers a line.
 */
#include <stdio.h>
#include <string.h>
#include "yindolve.h"

static yindolve_session session;
static uint64_t words[YINDOLVE_SAVED_WORDS];
static char line[8192];

/* Each line of standard input to the session; 1 if all are accepted. */
static int accept_lines(void) {
    while (fgets(line, sizeof line, stdin)) {
        line[strcspn(line, "\n")] = 0;
        yindolve_answer answer = yindolve_session_ask(&session, line);
        if (answer.kind == YINDOLVE_ANSWER_UNKNOWN) {
            fprintf(stderr, "the words are no session's\n");
            return 0;
        }
        if (answer.kind == YINDOLVE_ANSWER_REFUSED) {
            fprintf(stderr, "line %llu: %s (%llu): %s\n", (unsigned long long)answer.line, yindolve_refusal_word(answer.refusal),
                (unsigned long long)answer.refusal, yindolve_refusal_meaning(answer.refusal));
            return 0;
        }
    }
    return 1;
}

static int plan(const char *path) {
    if (yindolve_session_open(&session) || !accept_lines()) return 1;
    yindolve_answer backup = yindolve_session_ask(&session, "(backup)");
    if (backup.kind != YINDOLVE_ANSWER_BACKUP) return 1;
    uint64_t rows = backup.rows;
    for (;;) {
        yindolve_answer cut = yindolve_session_ask(&session, "(cut)");
        if (cut.kind != YINDOLVE_ANSWER_CUT) break;
        rows = cut.rows;
    }
    if (yindolve_session_save(&session, words, YINDOLVE_SAVED_WORDS)) return 1;
    FILE *file = fopen(path, "wb");
    if (!file) return 2;
    size_t written = fwrite(words, sizeof words[0], YINDOLVE_SAVED_WORDS, file);
    if (fclose(file) || written != YINDOLVE_SAVED_WORDS) return 2;
    printf("%llu step, %llu rows, %llu after cuts\n", (unsigned long long)backup.steps, (unsigned long long)backup.rows, (unsigned long long)rows);
    return 0;
}

static int value(const char *path) {
    FILE *file = fopen(path, "rb");
    if (!file) return 2;
    size_t count = fread(words, sizeof words[0], YINDOLVE_SAVED_WORDS, file);
    int more = fgetc(file) != EOF;
    fclose(file);
    if (more || yindolve_session_load(&session, words, count)) {
        fprintf(stderr, "%s is no saved session, or is damaged\n", path);
        return 2;
    }
    if (!accept_lines()) return 1;
    yindolve_answer answer = yindolve_session_ask(&session, "(value)");
    if (answer.kind != YINDOLVE_ANSWER_VALUE) return 1;
    printf("%llu / %llu = %.2f\n", (unsigned long long)answer.value, (unsigned long long)answer.scale, (double)answer.value / (double)answer.scale);
    return 0;
}

int main(int count, char **arguments) {
    if (count == 3 && strcmp(arguments[1], "plan") == 0) return plan(arguments[2]);
    if (count == 3 && strcmp(arguments[1], "value") == 0) return value(arguments[2]);
    fprintf(stderr, "use: save plan FILE <model.txt, or save value FILE <state.txt\n");
    return 2;
}
