/* What include/yindolve.h adds to the library's functions: refusals in words, answers as structs, null pointers, the end of a text, saved sessions; and a reduction, and
 * minimum variables.
 * Prints nothing if all is well. */
#include <stdio.h>
#include <stdlib.h>
#include "yindolve.h"

static yindolve_session session, other;
static uint64_t words[YINDOLVE_SAVED_WORDS], listing[YINDOLVE_RESULT_WORDS], work[YINDOLVE_WORK_WORDS];
static uint8_t answers[YINDOLVE_ANSWER_BYTES];

#define EXPECT(what) \
    do { \
        if (!(what)) { \
            printf("%s:%d: %s\n", __FILE__, __LINE__, #what); \
            exit(1); \
        } \
    } while (0)

static const char *const model[] = {"(constant hub)", "(predicate stock 1)", "(total 4)", "(discount 1 2)", "(reward (if (stock hub) 10 0))", "(action fill !d)",
    "(variant done 3)", "(becomes (stock ?s) (if (= !d ?s) 1 (if (stock ?s) 1 0)))", "(variant none 1)", "(start)", "(objects 2)", "(is hub 0)"};

static yindolve_answer read_text(const char *text) {
    return yindolve_read_answer((const uint8_t *)text, strlen(text));
}

static void refusals(void) {
    uint64_t number;
    EXPECT(strcmp(yindolve_refusal_word(0), "accepted") == 0);
    for (number = 1; number <= YINDOLVE_COMBINATIONS; ++number) {
        EXPECT(strcmp(yindolve_refusal_word(number), "unknown") != 0);
        EXPECT(strlen(yindolve_refusal_meaning(number)) > 20);
    }
    EXPECT(strcmp(yindolve_refusal_word(YINDOLVE_TOO_HIGH), "value") == 0);
    EXPECT(strcmp(yindolve_refusal_word(99), "unknown") == 0);
    EXPECT(strcmp(yindolve_refusal_word(YINDOLVE_FULL), "unknown") == 0); /* no refusal */
    EXPECT(YINDOLVE_FORM == 1 && YINDOLVE_WEIGHTS == 13 && YINDOLVE_BUFFER == 18 && YINDOLVE_LENGTH == 19);
    EXPECT(YINDOLVE_MISSING == 20 && YINDOLVE_GROUND == 24 && strcmp(yindolve_refusal_word(20), "missing") == 0 && strcmp(yindolve_refusal_word(24), "ground") == 0);
    EXPECT(YINDOLVE_WEIGHTLESS == 21 && YINDOLVE_CROWDED == 22 && YINDOLVE_TALLY == 23 && strcmp(yindolve_refusal_word(21), "weightless") == 0);
    EXPECT(strcmp(yindolve_refusal_word(22), "crowded") == 0 && strcmp(yindolve_refusal_word(23), "tally") == 0);
    EXPECT(YINDOLVE_MINIMUM == 25 && strcmp(yindolve_refusal_word(25), "minimum") == 0);
    EXPECT(YINDOLVE_KINDS == 26 && YINDOLVE_RUNS == 27 && YINDOLVE_COMBINATIONS == 28 && strcmp(yindolve_refusal_word(29), "unknown") == 0);
}

static void read_answers(void) {
    yindolve_answer a = read_text("(value 30 1 8)\n");
    EXPECT(a.kind == YINDOLVE_ANSWER_VALUE && a.value == 30 && a.steps == 1 && a.scale == 8 && a.bytes == 15);
    a = read_text("(backup 2 540)\n");
    EXPECT(a.kind == YINDOLVE_ANSWER_BACKUP && a.steps == 2 && a.rows == 540);
    a = read_text("(cut 5 false 4)\n");
    EXPECT(a.kind == YINDOLVE_ANSWER_CUT && a.row == 5 && a.edge == 0 && a.rows == 4);
    a = read_text("(cut 5 true 4)\n");
    EXPECT(a.kind == YINDOLVE_ANSWER_CUT && a.edge == 1);
    a = read_text("(reduce 7)\n");
    EXPECT(a.kind == YINDOLVE_ANSWER_REDUCE && a.rows == 7 && a.steps == 0 && a.bytes == 11);
    a = read_text("(refused 28 9)\n");
    EXPECT(a.kind == YINDOLVE_ANSWER_REFUSED && a.refusal == YINDOLVE_COMBINATIONS && a.line == 9);
    a = read_text("(refused 16 18)\n");
    EXPECT(a.kind == YINDOLVE_ANSWER_REFUSED && a.refusal == YINDOLVE_NOTHING && a.line == 18);
    a = read_text("(row 0 leaf 30)\n(row 1 leaf 0)\n(row 2 281474976710656 0 1)\n");
    EXPECT(a.kind == YINDOLVE_ANSWER_ROWS && a.rows == 3);
    a = read_text("(refused 25 8)\n");
    EXPECT(a.kind == YINDOLVE_ANSWER_REFUSED && a.refusal == YINDOLVE_MINIMUM && a.line == 8);
    a = read_text("(if (road ?v0 %v0) 5 0)\n");
    EXPECT(a.kind == YINDOLVE_ANSWER_TEXT && a.bytes == 24);
    a = read_text("(if (stock ?v0) 5 0)\n");
    EXPECT(a.kind == YINDOLVE_ANSWER_TEXT && a.rows == 0 && a.value == 0 && a.bytes == 21);
    a = read_text("1000000000000000000\n");
    EXPECT(a.kind == YINDOLVE_ANSWER_TEXT && a.value == 0 && a.bytes == 20);
    a = read_text("(refused 19 9)\n");
    EXPECT(a.kind == YINDOLVE_ANSWER_REFUSED && a.refusal == YINDOLVE_LENGTH && a.line == 9);
    a = read_text("(best wait)\n");
    EXPECT(a.kind == YINDOLVE_ANSWER_BEST && strcmp(a.action, "wait") == 0 && a.parameters == 0 && a.bytes == 12);
    a = read_text("(best abcdefghijklmn1 63 0 10 9)\n");
    EXPECT(a.kind == YINDOLVE_ANSWER_BEST && strcmp(a.action, "abcdefghijklmn1") == 0 && a.parameters == 4 && a.objects[0] == 63 && a.objects[1] == 0 && a.objects[3] == 9);
    a = read_text("(count 0 1)\n(count 1000000000000000000 65535)\n");
    EXPECT(a.kind == YINDOLVE_ANSWER_COUNTS && a.rows == 2 && a.value == 0 && a.parameters == 0);
    a = read_text("(did 7 1000000000000000000)\n");
    EXPECT(a.kind == YINDOLVE_ANSWER_DID && a.count == 7 && a.total == YINDOLVE_VALUE && a.value == 0 && a.rows == 0 && a.bytes == 28);
    a = read_text("(refused 23 3)\n");
    EXPECT(a.kind == YINDOLVE_ANSWER_REFUSED && a.refusal == YINDOLVE_TALLY && a.line == 3 && a.count == 0);
    a = read_text("(refused 20 3)\n");
    EXPECT(a.kind == YINDOLVE_ANSWER_REFUSED && a.refusal == YINDOLVE_MISSING && a.line == 3);
    EXPECT(read_text("").kind == YINDOLVE_ANSWER_NOTHING);
    EXPECT(yindolve_read_answer(NULL, 0).kind == YINDOLVE_ANSWER_NOTHING);
    EXPECT(yindolve_read_answer(NULL, 1).kind == YINDOLVE_ANSWER_UNKNOWN);
    static const char *const wrong[] = {"(", "(value", "(value 1 2)\n", "(value 1 2 3)", "(value 1 2 3)\nx", "(value 99999999999999999999 1 1)\n", "(cut 5 maybe 4)\n",
        "(reduce)\n", "(reduce 5 4)\n",
        "(best)\n", "(best )\n", "(best wait )\n", "(best wait x)\n", "(best wait 0", "(best wait 0)\n(best wait 0)\n", "(best go 1 2 3 4 5)\n", "(best abcdefghijklmnop)\n", "(best Go)\n",
        "(count 1)\n", "(count 1 2)", "(count 1 2)\n(count 3)\n", "(count 1 2)\n(value 1 2 3)\n", "(did)\n", "(did 1)\n", "(did 1 2", "(did 1 2 3)\n", "(did 1 2)\n(did 2 2)\n", "(did fill done)\n", "(row 0 leaf)\n", "(row)\n", "(refused x 1)\n", "\n", "(value  1 2 3)\n", "7", "7\n7\n", "(if (p) 1 0)", "(if (p) 1 0\n", "(if (p) 1 0)\n\n", "(if "};
    size_t i;
    for (i = 0; i < sizeof wrong / sizeof wrong[0]; ++i) {
        a = read_text(wrong[i]);
        EXPECT(a.kind == YINDOLVE_ANSWER_UNKNOWN && a.bytes == strlen(wrong[i]) && a.value == 0 && a.rows == 0 && a.parameters == 0 && a.action[0] == 0 && a.count == 0 && a.total == 0);
    }
}

static void labels(void) {
    static const uint64_t six = YINDOLVE_LABEL(2, 15, 16, 19, 64, 127, 191);
    const uint64_t arities[YINDOLVE_ARITIES] = {2, 1, YINDOLVE_PLACES}, terms[YINDOLVE_PLACES] = {15, 16, 19, 64, 127, 191};
    uint64_t test[] = {YINDOLVE_LEAF, 1, 0, YINDOLVE_LEAF, 0, 0, six, 0, 1};
    unsigned place;
    EXPECT(YINDOLVE_LABEL(1, 0, 0, 0, 0, 0, 0) == UINT64_C(281474976710656));
    EXPECT(YINDOLVE_LABEL(0, 0, YINDOLVE_FIRST_VARIABLE, 0, 0, 0, 0) == UINT64_C(274877906944));
    EXPECT(yindolve_label_predicate(six) == 2);
    for (place = 0; place < YINDOLVE_PLACES; ++place) EXPECT(yindolve_label_term(six, place) == terms[place]);
    EXPECT(yindolve_check(arities, YINDOLVE_ARITIES, test, 9) == 0);
    test[6] = YINDOLVE_LABEL(1, YINDOLVE_FIRST_MINIMUM, 0, 0, 0, 0, 0);
    EXPECT(yindolve_check(arities, YINDOLVE_ARITIES, test, 9) == 0);
    test[6] = YINDOLVE_LABEL(1, 192, 0, 0, 0, 0, 0); /* behind the last minimum variable */
    EXPECT(yindolve_check(arities, YINDOLVE_ARITIES, test, 9) == YINDOLVE_LISTING);
    test[6] = YINDOLVE_LABEL(1, 64, 0, 0, 0, 0, 1); /* a place past the arity */
    EXPECT(yindolve_check(arities, YINDOLVE_ARITIES, test, 9) == YINDOLVE_LISTING);
    test[6] = (UINT64_C(1) << 24) + (UINT64_C(32) << 18); /* a label of version 0.2 */
    EXPECT(yindolve_check(arities, YINDOLVE_ARITIES, test, 9) == YINDOLVE_LISTING);
    test[0] = test[3] = UINT64_C(4294967295); /* and its leaves */
    EXPECT(yindolve_check(arities, YINDOLVE_ARITIES, test, 9) == YINDOLVE_LISTING && yindolve_check(arities, YINDOLVE_ARITIES, test, 3) == YINDOLVE_LISTING);
}

/* A reduction of these words with all memory lent; a refused one leaves the count. */
static uint64_t reduced(const uint64_t *arities, const uint64_t *from, size_t count, uint64_t *rows) {
    return yindolve_reduce(arities, YINDOLVE_ARITIES, from, count, listing, YINDOLVE_RESULT_WORDS, work, YINDOLVE_WORK_WORDS, rows);
}

/* A branch with stock (1) is near (2) one without, or near one that is: the one in between decides which of the two steps is enough, and no cut finds it. */
static void reductions(void) {
    const uint64_t arities[YINDOLVE_ARITIES] = {2, 1, 2, 5}, x = 64, y = 65, z = 66;
    const uint64_t between[] = {YINDOLVE_LEAF, 0, 0, YINDOLVE_LEAF, 5, 0, YINDOLVE_LABEL(2, z, y, 0, 0, 0, 0), 1, 0, YINDOLVE_LABEL(2, x, z, 0, 0, 0, 0), 2, 0,
        YINDOLVE_LABEL(2, x, y, 0, 0, 0, 0), 1, 3, YINDOLVE_LABEL(1, y, 0, 0, 0, 0, 0), 0, 4, YINDOLVE_LABEL(1, x, 0, 0, 0, 0, 0), 5, 0};
    const uint64_t left[] = {YINDOLVE_LEAF, 0, 0, YINDOLVE_LEAF, 5, 0, YINDOLVE_LABEL(2, x, y, 0, 0, 0, 0), 1, 0, YINDOLVE_LABEL(1, y, 0, 0, 0, 0, 0), 0, 2,
        YINDOLVE_LABEL(1, x, 0, 0, 0, 0, 0), 3, 0};
    uint64_t test[] = {YINDOLVE_LEAF, 1, 0, YINDOLVE_LEAF, 0, 0, 0, 0, 1}, rows = 99, row = 99, edge = 99;
    EXPECT(yindolve_cut(arities, YINDOLVE_ARITIES, between, 21, listing, YINDOLVE_RESULT_WORDS, work, YINDOLVE_WORK_WORDS, &row, &edge, &rows) == YINDOLVE_NOTHING);
    listing[15] = 77; /* behind the result */
    EXPECT(reduced(arities, between, 21, &rows) == 0 && rows == 5 && memcmp(listing, left, sizeof left) == 0 && listing[15] == 77);
    EXPECT(reduced(arities, left, 15, &rows) == 0 && rows == 5 && memcmp(listing, left, sizeof left) == 0); /* nothing changes */
    rows = 99;
    EXPECT(reduced(arities, between, 20, &rows) == YINDOLVE_LISTING);
    EXPECT(yindolve_reduce(arities, YINDOLVE_ARITIES, between, 21, listing, YINDOLVE_RESULT_WORDS - 1, work, YINDOLVE_WORK_WORDS, &rows) == YINDOLVE_BUFFER);
    EXPECT(yindolve_reduce(arities, YINDOLVE_ARITIES, between, 21, listing, YINDOLVE_RESULT_WORDS, work, YINDOLVE_WORK_WORDS - 1, &rows) == YINDOLVE_BUFFER);
    test[6] = YINDOLVE_LABEL(1, YINDOLVE_FIRST_PARAMETER, 0, 0, 0, 0, 0);
    EXPECT(reduced(arities, test, 9, &rows) == YINDOLVE_UNBOUND);
    test[6] = YINDOLVE_LABEL(1, 0, 0, 0, 0, 0, 0); /* a constant */
    EXPECT(reduced(arities, test, 9, &rows) == YINDOLVE_KINDS);
    test[6] = YINDOLVE_LABEL(0, x, y, 0, 0, 0, 0); /* an equality */
    EXPECT(reduced(arities, test, 9, &rows) == YINDOLVE_KINDS);
    test[6] = YINDOLVE_LABEL(1, YINDOLVE_FIRST_MINIMUM, 0, 0, 0, 0, 0);
    EXPECT(reduced(arities, test, 9, &rows) == YINDOLVE_KINDS);
    test[6] = YINDOLVE_LABEL(3, x, y, z, 67, 68, 0);
    EXPECT(reduced(arities, test, 9, &rows) == YINDOLVE_RUNS);
    test[6] = YINDOLVE_LABEL(3, x, y, z, 67, x, 0);
    EXPECT(reduced(arities, test, 9, &rows) == YINDOLVE_COMBINATIONS && rows == 99 && memcmp(listing, left, sizeof left) == 0);
}

static void null_pointers(void) {
    uint64_t bytes = 0, lines = 0, value = 7, rows = 0;
    const uint64_t arities[YINDOLVE_ARITIES] = {2}, leaf[] = {YINDOLVE_LEAF, 9, 0};
    EXPECT(yindolve_run_text(NULL, 1, answers, sizeof answers, &bytes, &lines) == YINDOLVE_BUFFER);
    EXPECT(yindolve_run_text(NULL, 0, answers, sizeof answers, &bytes, &lines) == 0);
    EXPECT(yindolve_run_text((const uint8_t *)"x\n", 2, NULL, 0, &bytes, &lines) == YINDOLVE_FULL && bytes == 0 && lines == 0);
    EXPECT(yindolve_value_of(arities, YINDOLVE_ARITIES, leaf, 3, 1, NULL, 0, NULL, 0, &value) == 0 && value == 9);
    EXPECT(yindolve_value_of(arities, YINDOLVE_ARITIES, leaf, 3, 1, NULL, 1, NULL, 0, &value) == YINDOLVE_BUFFER);
    EXPECT(yindolve_value_of(NULL, 0, NULL, 0, 1, NULL, 0, NULL, 0, &value) == YINDOLVE_LISTING);
    EXPECT(yindolve_value(arities, YINDOLVE_ARITIES, leaf, 3, 1, YINDOLVE_NO_WORDS, YINDOLVE_NO_WORDS, &value) == 0 && value == 9);
    EXPECT(yindolve_regress_under(arities, YINDOLVE_ARITIES, leaf, 3, NULL, 0, NULL, 0, listing, YINDOLVE_RESULT_WORDS, work, YINDOLVE_WORK_WORDS, &rows) == 0);
    EXPECT(rows == 1 && listing[1] == 9);
    EXPECT(yindolve_regress_under(arities, YINDOLVE_ARITIES, leaf, 3, NULL, 0, NULL, 0, NULL, 0, NULL, 0, &rows) == YINDOLVE_BUFFER);
    EXPECT(yindolve_free_parameters(arities, YINDOLVE_ARITIES, leaf, 3, 4, listing, YINDOLVE_RESULT_WORDS, work, YINDOLVE_WORK_WORDS, &rows) == 0 && rows == 1);
    EXPECT(yindolve_session_line(&other, NULL, 0, &bytes) == YINDOLVE_LISTING); /* not opened */
    EXPECT(yindolve_session_ask(&other, "(value)").kind == YINDOLVE_ANSWER_UNKNOWN);
    EXPECT(yindolve_session_open(&other) == 0);
    EXPECT(yindolve_session_line(&other, NULL, 0, &bytes) == 0);
    EXPECT(yindolve_session_line(&other, NULL, 3, &bytes) == YINDOLVE_BUFFER);
    EXPECT(yindolve_read_rows(NULL, 0, NULL, 0, &rows) == YINDOLVE_LISTING);
}

/* Whether a text that ends here is closed by these bytes. */
static int closes_with(yindolve_session *s, const char *text) {
    uint64_t bytes = 99;
    return yindolve_session_end(s, &bytes) == 0 && bytes == strlen(text) && memcmp(s->answer, text, bytes) == 0;
}

static void ends(void) {
    static const char last[] = "(refused 5 0)\n";
    uint64_t bytes = 99, lines = 0;
    memset(&other, 0, sizeof other);
    EXPECT(yindolve_session_end(&other, &bytes) == YINDOLVE_LISTING && bytes == 99); /* not opened */
    EXPECT(yindolve_session_open(&other) == 0 && closes_with(&other, ""));
    EXPECT(yindolve_session_ask(&other, "").kind == YINDOLVE_ANSWER_NOTHING && closes_with(&other, ""));
    EXPECT(yindolve_session_ask(&other, "x").line == 2 && closes_with(&other, last));
    EXPECT(yindolve_session_ask(&other, "").kind == YINDOLVE_ANSWER_NOTHING && closes_with(&other, last));
    yindolve_answer a = yindolve_read_answer(other.answer, strlen(last));
    EXPECT(a.kind == YINDOLVE_ANSWER_REFUSED && a.refusal == YINDOLVE_PLACE && a.line == 0);
    EXPECT(yindolve_session_save(&other, words, YINDOLVE_SAVED_WORDS) == 0);
    EXPECT(yindolve_session_open(&other) == 0 && closes_with(&other, ""));
    EXPECT(yindolve_session_load(&other, words, YINDOLVE_SAVED_WORDS) == 0 && closes_with(&other, last));
    EXPECT(yindolve_session_ask(&other, "y").line == 4);
    EXPECT(yindolve_end(other.numbers, YINDOLVE_NUMBER_WORDS - 1, other.answer, YINDOLVE_ANSWER_BYTES, &bytes) == YINDOLVE_LISTING && bytes == 99);
    EXPECT(yindolve_end(other.numbers, YINDOLVE_NUMBER_WORDS, other.answer, YINDOLVE_ANSWER_BYTES - 1, &bytes) == YINDOLVE_BUFFER && bytes == 99);
    uint64_t numbers[YINDOLVE_NUMBER_WORDS]; /* words that are no session's numbers */
    memcpy(numbers, other.numbers, sizeof numbers);
    numbers[0] = 7; /* neither part */
    EXPECT(yindolve_end(numbers, YINDOLVE_NUMBER_WORDS, other.answer, YINDOLVE_ANSWER_BYTES, &bytes) == YINDOLVE_LISTING && bytes == 99);
    numbers[0] = 0, numbers[25] = 2; /* neither met nor not */
    EXPECT(yindolve_end(numbers, YINDOLVE_NUMBER_WORDS, other.answer, YINDOLVE_ANSWER_BYTES, &bytes) == YINDOLVE_LISTING && bytes == 99);
    EXPECT(yindolve_end(numbers, YINDOLVE_NUMBER_WORDS, other.answer, 0, &bytes) == YINDOLVE_LISTING && bytes == 99); /* 14 before 18 */
    memset(numbers, 255, sizeof numbers);
    EXPECT(yindolve_end(numbers, YINDOLVE_NUMBER_WORDS, other.answer, YINDOLVE_ANSWER_BYTES, &bytes) == YINDOLVE_LISTING && bytes == 99);
    EXPECT(yindolve_session_ask(&other, "z").line == 5); /* 14, then 18, for lines too */
    EXPECT(yindolve_line((const uint8_t *)"z", 1, other.numbers, YINDOLVE_NUMBER_WORDS, other.names, YINDOLVE_NAME_WORDS - 1, other.arities, YINDOLVE_ARITIES, other.listings, YINDOLVE_LISTING_WORDS,
               other.table, YINDOLVE_TABLE_WORDS, other.state, YINDOLVE_STATE_WORDS, other.value, YINDOLVE_VALUE_WORDS, other.work, 0, other.answer, 0, &bytes) == YINDOLVE_LISTING);
    EXPECT(yindolve_line((const uint8_t *)"z", 1, other.numbers, YINDOLVE_NUMBER_WORDS, other.names, YINDOLVE_NAME_WORDS, other.arities, YINDOLVE_ARITIES, other.listings, YINDOLVE_LISTING_WORDS,
               other.table, YINDOLVE_TABLE_WORDS, other.state, YINDOLVE_STATE_WORDS, other.value, YINDOLVE_VALUE_WORDS, other.work, 0, other.answer, YINDOLVE_ANSWER_BYTES, &bytes) == YINDOLVE_BUFFER);
    EXPECT(yindolve_run_text((const uint8_t *)"\n\n", 2, NULL, 0, &bytes, &lines) == 0 && bytes == 0);
    EXPECT(yindolve_run_text((const uint8_t *)"\n\nx", 3, answers, sizeof answers, &bytes, &lines) == 0);
    EXPECT(bytes == 28 && memcmp(answers, "(refused 1 3)\n(refused 5 0)\n", 28) == 0);
}

/* The session has the model, one step ahead, and a state with nothing true; it is left so. Count and total are words 19 and 20 of the numbers. */
static void logs(void) {
    yindolve_answer a = yindolve_session_ask(&session, "(did fill none 1)");
    EXPECT(a.kind == YINDOLVE_ANSWER_DID && a.count == 1 && a.total == 0);
    a = yindolve_session_ask(&session, "(did fill done 0)");
    EXPECT(a.kind == YINDOLVE_ANSWER_DID && a.count == 2 && a.total == 10 && session.numbers[19] == 2 && session.numbers[20] == 10);
    EXPECT(yindolve_session_ask(&session, "(did drain done 0)").refusal == YINDOLVE_NAME && yindolve_session_ask(&session, "(did fill done)").refusal == YINDOLVE_ARITY);
    EXPECT(yindolve_session_ask(&session, "(value)").value == 120);
    EXPECT(yindolve_session_save(&session, words, YINDOLVE_SAVED_WORDS) == 0 && yindolve_session_load(&other, words, YINDOLVE_SAVED_WORDS) == 0);
    a = yindolve_session_ask(&other, "(did fill none 0)"); /* a saved log goes on */
    EXPECT(a.kind == YINDOLVE_ANSWER_DID && a.count == 3 && a.total == 20);
    other.numbers[19] = YINDOLVE_VALUE - 1; /* as many lines as no log has */
    a = yindolve_session_ask(&other, "(did fill none 0)");
    EXPECT(a.kind == YINDOLVE_ANSWER_DID && a.count == YINDOLVE_VALUE && a.total == 30);
    EXPECT(yindolve_session_ask(&other, "(did fill none 0)").refusal == YINDOLVE_TALLY);
    other.numbers[19] = YINDOLVE_VALUE + 1; /* no session's */
    EXPECT(yindolve_session_ask(&other, "(did fill none 0)").kind == YINDOLVE_ANSWER_UNKNOWN);
    other.numbers[19] = 0; /* rewards, and no line that met them */
    EXPECT(yindolve_session_ask(&other, "(did fill none 0)").kind == YINDOLVE_ANSWER_UNKNOWN);
    EXPECT(yindolve_session_ask(&session, "(objects 2)").kind == YINDOLVE_ANSWER_NOTHING && yindolve_session_ask(&session, "(is hub 0)").kind == YINDOLVE_ANSWER_NOTHING);
    EXPECT(session.numbers[19] == 0 && session.numbers[20] == 0);
}

static void sessions(void) {
    static const char form[] = "(if (= hub ?v0) (if (stock hub) 120 30) (if (stock hub) 120 0))\n";
    size_t i;
    uint64_t rows = 0, bytes = 0;
    yindolve_answer a;
    EXPECT(yindolve_session_open(&session) == 0);
    for (i = 0; i < sizeof model / sizeof model[0]; ++i) EXPECT(yindolve_session_ask(&session, model[i]).kind == YINDOLVE_ANSWER_NOTHING);
    EXPECT(yindolve_session_ask(&session, "(backup)").rows == 6);
    EXPECT(yindolve_session_line(&session, (const uint8_t *)"(show)", 6, &bytes) == 0);
    EXPECT(yindolve_read_rows(session.answer, bytes, listing, 17, &rows) == YINDOLVE_BUFFER);
    EXPECT(yindolve_read_rows(session.answer, bytes - 1, listing, YINDOLVE_RESULT_WORDS, &rows) == YINDOLVE_LISTING);
    EXPECT(yindolve_read_rows(session.answer, bytes, listing, YINDOLVE_RESULT_WORDS, &rows) == 0 && rows == 6);
    EXPECT(yindolve_check(session.arities, YINDOLVE_ARITIES, listing, rows * YINDOLVE_ROW_WORDS) == 0);
    EXPECT(yindolve_session_ask(&session, "(value)").value == 30);
    EXPECT(yindolve_session_ask(&session, "(reduce)").refusal == YINDOLVE_KINDS);
    EXPECT(yindolve_session_ask(&session, "(text)").kind == YINDOLVE_ANSWER_TEXT);
    EXPECT(memcmp(session.answer, form, sizeof form - 1) == 0);
    a = yindolve_session_ask(&session, "(best)");
    EXPECT(a.kind == YINDOLVE_ANSWER_BEST && strcmp(a.action, "fill") == 0 && a.parameters == 1 && a.objects[0] == 0);
    EXPECT(yindolve_session_ask(&session, "(count 5)").rows == 2);
    EXPECT(yindolve_session_line(&session, (const uint8_t *)"(count 5)", 9, &bytes) == 0);
    EXPECT(yindolve_read_counts(session.answer, bytes, listing, 3, &rows) == YINDOLVE_BUFFER);
    EXPECT(yindolve_read_counts(session.answer, bytes - 1, listing, YINDOLVE_RESULT_WORDS, &rows) == YINDOLVE_LISTING);
    EXPECT(yindolve_read_counts(session.answer, bytes, listing, YINDOLVE_RESULT_WORDS, &rows) == 0 && rows == 2);
    EXPECT(listing[0] == 30 && listing[1] == 16 && listing[2] == 120 && listing[3] == 16);
    EXPECT(yindolve_session_ask(&session, "(count 17)").refusal == YINDOLVE_GROUND);
    EXPECT(yindolve_session_ask(&session, "(objects 2)").kind == YINDOLVE_ANSWER_NOTHING);
    EXPECT(yindolve_session_ask(&session, "(best)").refusal == YINDOLVE_MISSING && yindolve_session_ask(&session, "(count 2)").refusal == YINDOLVE_PLACE);
    EXPECT(yindolve_session_ask(&session, "(is hub 0)").kind == YINDOLVE_ANSWER_NOTHING);
    EXPECT(closes_with(&session, ""));
    logs();

    EXPECT(yindolve_session_save(&session, words, YINDOLVE_SAVED_WORDS - 1) == YINDOLVE_BUFFER);
    EXPECT(yindolve_session_save(&session, words, YINDOLVE_SAVED_WORDS) == 0);
    EXPECT(memcmp(words, "yindolve", 8) == 0);
    EXPECT(yindolve_session_load(&other, NULL, 0) == YINDOLVE_BUFFER);
    EXPECT(yindolve_session_load(&other, words, YINDOLVE_SAVED_WORDS - 1) == YINDOLVE_BUFFER);
    for (i = 0; i < YINDOLVE_SAVED_WORDS; i += i < 32 ? 1 : 61) {
        words[i] ^= UINT64_C(1) << (i % 64);
        EXPECT(yindolve_session_load(&other, words, YINDOLVE_SAVED_WORDS) == YINDOLVE_LISTING);
        words[i] ^= UINT64_C(1) << (i % 64);
    }
    words[YINDOLVE_SAVED_HEAD + 21] = 7; /* rows that are no listing, with a right sum */
    words[2] = yindolve_saved_sum(words);
    EXPECT(yindolve_session_load(&other, words, YINDOLVE_SAVED_WORDS) == 0);
    EXPECT(yindolve_session_line(&other, (const uint8_t *)"(value)", 7, &bytes) == YINDOLVE_LISTING);
    EXPECT(yindolve_session_ask(&other, "(value)").kind == YINDOLVE_ANSWER_UNKNOWN);
    EXPECT(yindolve_session_save(&session, words, YINDOLVE_SAVED_WORDS) == 0);
    EXPECT(yindolve_session_load(&other, words, YINDOLVE_SAVED_WORDS) == 0);
    yindolve_answer b = yindolve_session_ask(&session, "(value)");
    a = yindolve_session_ask(&other, "(value)");
    EXPECT(a.kind == YINDOLVE_ANSWER_VALUE && b.kind == a.kind && a.value == b.value && a.steps == b.steps && a.scale == b.scale);
    EXPECT(yindolve_session_ask(&other, "(backup)").steps == 2 && yindolve_session_ask(&session, "(value)").steps == 1);
}

/* One van serves (1) all shelves: valued, not cut, and a max of shared names is one apart; the same as a reward. */
static void minimum_variables(void) {
    const uint64_t arities[YINDOLVE_ARITIES] = {2, 2}, all[] = {YINDOLVE_LEAF, 5, 0, YINDOLVE_LEAF, 0, 0,
        YINDOLVE_LABEL(1, YINDOLVE_FIRST_VARIABLE, YINDOLVE_FIRST_MINIMUM, 0, 0, 0, 0), 0, 1};
    const uint64_t facts[] = {1, 0, 0, 0, 0, 0, 0, 1, 1, 1, 0, 0, 0, 0, 1, 0, 1, 0, 0, 0, 0}; /* 0 serves 0, 1 serves 1, 0 serves 1 */
    static const char *const lines[] = {"(predicate serves 2)", "(reward (if (serves ?v %s) 5 0))", "(action wait)", "(variant only 100)", "(start)", "(objects 2)", "(true serves 0 0)",
        "(true serves 1 1)"};
    static uint64_t apart[YINDOLVE_RESULT_WORDS];
    uint64_t value = 99, rows = 99, pairs = 99, row = 99, edge = 99, rows_apart = 0, pairs_apart = 0;
    size_t i;
    EXPECT(yindolve_value(arities, YINDOLVE_ARITIES, all, 9, 2, YINDOLVE_NO_WORDS, facts, 14, &value) == 0 && value == 0);
    EXPECT(yindolve_value(arities, YINDOLVE_ARITIES, all, 9, 2, YINDOLVE_NO_WORDS, facts, 21, &value) == 0 && value == 5);
    EXPECT(yindolve_value(arities, YINDOLVE_ARITIES, all, 9, 1001, YINDOLVE_NO_WORDS, facts, 21, &value) == YINDOLVE_VALUATIONS && value == 5);
    EXPECT(yindolve_cut(arities, YINDOLVE_ARITIES, all, 9, listing, YINDOLVE_RESULT_WORDS, work, YINDOLVE_WORK_WORDS, &row, &edge, &rows) == YINDOLVE_MINIMUM);
    EXPECT(yindolve_cut(arities, YINDOLVE_ARITIES, all, 9, listing, 0, work, 0, &row, &edge, &rows) == YINDOLVE_BUFFER && row == 99 && edge == 99 && rows == 99);
    EXPECT(yindolve_max_shared(arities, YINDOLVE_ARITIES, all, 9, all, 9, listing, YINDOLVE_RESULT_WORDS, work, YINDOLVE_WORK_WORDS, &rows, &pairs) == 0);
    EXPECT(yindolve_max_apart(arities, YINDOLVE_ARITIES, all, 9, all, 9, apart, YINDOLVE_RESULT_WORDS, work, YINDOLVE_WORK_WORDS, &rows_apart, &pairs_apart) == 0);
    EXPECT(rows == 4 && rows == rows_apart && pairs == pairs_apart && memcmp(listing, apart, 12 * sizeof listing[0]) == 0);
    EXPECT(yindolve_session_open(&session) == 0);
    for (i = 0; i < sizeof lines / sizeof lines[0]; ++i) EXPECT(yindolve_session_ask(&session, lines[i]).kind == YINDOLVE_ANSWER_NOTHING);
    EXPECT(yindolve_session_ask(&session, "(value)").value == 0 && yindolve_session_ask(&session, "(cut)").refusal == YINDOLVE_MINIMUM);
    EXPECT(yindolve_session_ask(&session, "(true serves 0 1)").kind == YINDOLVE_ANSWER_NOTHING && yindolve_session_ask(&session, "(value)").value == 5);
    EXPECT(yindolve_session_ask(&session, "(text)").kind == YINDOLVE_ANSWER_TEXT && memcmp(session.answer, "(if (serves ?v0 %v0) 5 0)\n", 26) == 0);
    EXPECT(yindolve_session_save(&session, words, YINDOLVE_SAVED_WORDS) == 0 && yindolve_session_load(&other, words, YINDOLVE_SAVED_WORDS) == 0);
    EXPECT(yindolve_session_ask(&other, "(value)").value == 5);
}

int main(void) {
    refusals();
    read_answers();
    labels();
    reductions();
    null_pointers();
    ends();
    sessions();
    minimum_variables();
    return 0;
}
