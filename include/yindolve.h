/* Yindolve, a value engine on first-order decision diagrams: the functions of the static library, for C and C++.
 *
 * Build and link, from a checkout (`rt lib` in crates/c_library builds the library) and from where `install.sh PREFIX` put it:
 *     cc -Iinclude -o program program.c crates/c_library/out/libc_library.a
 *     cc -o program program.c $(PKG_CONFIG_PATH=PREFIX/lib/pkgconfig pkg-config --cflags --libs yindolve)
 * examples/value.c, examples/session.c and examples/save.c are whole programs. Linux on x86-64.
 *
 * Where to begin. A desk's program opens a session (yindolve_session_open), gives it the lines of a model and of a state (yindolve_session_ask) and reads the
 * answers as structs; one that answers a whole text asks for the closing answer at its end (yindolve_session_end). docs/REFERENCE.md says what lines there are,
 * what each answers, and what to do about each refusal. The other functions work on single diagrams.
 *
 * Memory. The library owns none: the caller lends every word, 64 bits each, as a pointer and a count of words. A pointer is to as many words as its count says
 * and, for the functions that are not inline, is not null, also where the count is 0 (YINDOLVE_NO_WORDS stands for such a pointer and its 0); what a call writes
 * to (result, work, rows, pairs, row, edge, value) overlaps nothing else that the call is lent. The inline functions take null where the count is 0, and answer
 * BUFFER for null with a higher count. Nothing else is asked of the words, a session's too: any are taken, and those that are not what they should be are refused.
 *
 * Listings. A row is three words: a leaf is YINDOLVE_LEAF, its value, 0; a branch is its label, true row, false row. A label is predicate * 2^48 + t1 * 2^40 +
 * t2 * 2^32 + t3 * 2^24 + t4 * 2^16 + t5 * 2^8 + t6, unused places 0; YINDOLVE_LABEL packs one. Terms: constants 0 to 15, parameters 16 to 19, maximum variables 64
 * to 127, minimum variables 128 to 191; "variables" alone are those of both kinds. Predicate 0 is equality, its smaller term first. Rows are numbered as a walk from the
 * root, true branch first, finishes them, so that the root is the last row. With each call goes a list of YINDOLVE_ARITIES arities, the first of them 2, each at most
 * YINDOLVE_PLACES.
 * Listings of version 0.2 and before, with labels of four places and another mark of leaves, are refused (LISTING).
 *
 * Answers. Each function answers 0, or the number of the refusal. After a refusal the result buffer and what the other pointers are to, the working space
 * apart, are as they were. yindolve_run may also answer YINDOLVE_FULL, which is no refusal: the answers so far are written. Words of the result buffer behind a
 * result stay. The working space may hold anything before a call and holds nothing of use after it.
 *
 * Stack and threads. A call uses less than a megabyte of stack. The library has no memory of its own, so calls on different memory may run at the same time.
 *
 * Proofs. Each function that is not inline is proved to answer and to write what its definition says, on all words. The inline functions are plain C around them.
 */
#ifndef YINDOLVE_H
#define YINDOLVE_H

#include <stddef.h>
#include <stdint.h>
#include <string.h>

#ifdef __cplusplus
extern "C" {
#endif

/* The version of this header and of its library. */
#define YINDOLVE_VERSION_MAJOR 0
#define YINDOLVE_VERSION_MINOR 6
#define YINDOLVE_VERSION_PATCH 0
#define YINDOLVE_VERSION "0.6.0"

/* The first word of a leaf's row, 2^64 - 1, and the highest value of a leaf. */
#define YINDOLVE_LEAF UINT64_C(18446744073709551615)
#define YINDOLVE_VALUE UINT64_C(1000000000000000000)

/* Labels: how many places a label has, which is the highest arity; how many bits a term takes; the numbers of the first parameter, of the first maximum variable and of the
 * first minimum variable.
 */
#define YINDOLVE_PLACES 6
#define YINDOLVE_TERM_BITS 8
#define YINDOLVE_FIRST_PARAMETER 16
#define YINDOLVE_FIRST_VARIABLE 64
#define YINDOLVE_FIRST_MINIMUM 128

/* The label of a predicate and the terms of its places, 0 for each place that is not used; of constants it is a constant expression. */
#define YINDOLVE_LABEL(predicate, t1, t2, t3, t4, t5, t6) \
    (((uint64_t)(predicate) << (6 * YINDOLVE_TERM_BITS)) + ((uint64_t)(t1) << (5 * YINDOLVE_TERM_BITS)) + ((uint64_t)(t2) << (4 * YINDOLVE_TERM_BITS)) + \
        ((uint64_t)(t3) << (3 * YINDOLVE_TERM_BITS)) + ((uint64_t)(t4) << (2 * YINDOLVE_TERM_BITS)) + ((uint64_t)(t5) << YINDOLVE_TERM_BITS) + (uint64_t)(t6))

/* Sizes of lent memory, in words. */
#define YINDOLVE_ARITIES 32        /* an arity list */
#define YINDOLVE_ROW_WORDS 3       /* a row of a listing */
#define YINDOLVE_ROWS 1024         /* rows of a listing, at most */
#define YINDOLVE_RESULT_WORDS 3072 /* a result buffer, at least */
#define YINDOLVE_WORK_WORDS 6144   /* a working space, at least */
#define YINDOLVE_CONSTANTS 16      /* the objects of a state's constants */
#define YINDOLVE_FACT_WORDS 7      /* a fact: its predicate and an object for each of YINDOLVE_PLACES, unused ones ignored */
#define YINDOLVE_SPAN_WORDS 64     /* where truth diagrams stand: two words for each predicate */

/* Sizes of a session's memory, in words, and of its answers, in bytes. */
#define YINDOLVE_NUMBER_WORDS 26         /* numbers, at least: how much of each table counts, k and S^k, count and total of (did ..) lines, lines answered */
#define YINDOLVE_NAME_WORDS 248          /* names, exactly: two words for each constant, predicate, action, parameter of the last action, variant of any action */
#define YINDOLVE_LISTING_WORDS 6144      /* the model's listings, exactly */
#define YINDOLVE_TABLE_WORDS 4240        /* where they stand, exactly */
#define YINDOLVE_STATE_WORDS 9248        /* the state with the index of its facts, exactly */
#define YINDOLVE_VALUE_WORDS 3072        /* the value's listing, exactly */
#define YINDOLVE_SESSION_WORK_WORDS 6144 /* a session's working space, at least */
#define YINDOLVE_ANSWER_BYTES 92160      /* the answer of a line: 90 bytes for each of 1,024 rows; (count n) has at most 1,023 lines, shorter ones */

/* The refusals. Calls on diagrams answer 4, 6 to 11, 14 to 18 and 25 to 28; lines of a text 1 to 13, 15 to 17 and 19 to 28. */
enum {
    YINDOLVE_FORM = 1,         /* a line that is not of the grammar */
    YINDOLVE_NAME = 2,         /* a name that is not declared, or given twice */
    YINDOLVE_ARITY = 3,        /* not as many terms or objects as the predicate has places, or, in (did ..), as the action has parameters */
    YINDOLVE_RANGE = 4,        /* a number outside its range; a state without objects or with an object beyond them; more than 4 parameters */
    YINDOLVE_PLACE = 5,        /* a line in the wrong part of the text, a missing part, a second single form, a constant that is not placed */
    YINDOLVE_UNBOUND = 6,      /* a parameter where none is allowed, or past the action's; a truth diagram's variable that is no argument */
    YINDOLVE_TRUTH = 7,        /* a truth diagram's leaf above 1 */
    YINDOLVE_VARIABLES = 8,    /* more than 64 variables of a kind, or a maximum variable past 127 */
    YINDOLVE_SPACE = 9,        /* more than 2,048 rows formed, or a result of more than 1,024; more facts or declarations than there is room for */
    YINDOLVE_PAIRS = 10,       /* more than 4,096 pairs */
    YINDOLVE_TOO_HIGH = 11,    /* a leaf above YINDOLVE_VALUE; its trade word is "value" */
    YINDOLVE_SCALE = 12,       /* a power of the scale above 10^18, or 10^18 backups */
    YINDOLVE_WEIGHTS = 13,     /* an action's weights, summed, are not the total in a case that equality does not rule out */
    YINDOLVE_LISTING = 14,     /* words that are no listing, or a wrong arity list */
    YINDOLVE_VALUATIONS = 15,  /* more than 1,000,000 valuations, and more than 8,192 entries in the tables that take their place, or a minimum variable: then none do */
    YINDOLVE_NOTHING = 16,     /* no edge to cut */
    YINDOLVE_PATHS = 17,       /* more than 256 paths: of a diagram to cut or to reduce, or at (start) of an action's summed weights */
    YINDOLVE_BUFFER = 18,      /* a result buffer or a working space that is too small: nothing is done */
    YINDOLVE_LENGTH = 19,      /* (text): the value diagram as a form is too long for a (reward ..) line, more than 4,095 bytes or 64 open brackets */
    YINDOLVE_MISSING = 20,     /* (best): there is no state, or a constant is not placed */
    YINDOLVE_WEIGHTLESS = 21,  /* (did ..): the variant's weight is 0 in the state */
    YINDOLVE_CROWDED = 22,     /* (did ..): the next state has more than 1,024 facts */
    YINDOLVE_TALLY = 23,       /* (did ..): the count of lines or the total of rewards passes 10^18 */
    YINDOLVE_GROUND = 24,      /* (count n): the states of n objects have more than 16 ground facts */
    YINDOLVE_MINIMUM = 25,     /* a minimum variable in a diagram to cut */
    YINDOLVE_KINDS = 26,       /* an equality, a constant or a minimum variable in a diagram to reduce */
    YINDOLVE_RUNS = 27,        /* more than 512 valuations times paths of a diagram to reduce */
    YINDOLVE_COMBINATIONS = 28 /* more than 100,000 combinations of paths in a reduction */
};

/* No refusal: the answers of a text do not fit the buffer. Those before the first that does not are written, and their bytes and lines are told. */
#define YINDOLVE_FULL 100

/* The trade word of a refusal; "accepted" for 0, and "unknown" for a number that this version does not have. */
static inline const char *yindolve_refusal_word(uint64_t refusal) {
    switch (refusal) {
    case 0: return "accepted";
    case YINDOLVE_FORM: return "form";
    case YINDOLVE_NAME: return "name";
    case YINDOLVE_ARITY: return "arity";
    case YINDOLVE_RANGE: return "range";
    case YINDOLVE_PLACE: return "place";
    case YINDOLVE_UNBOUND: return "unbound";
    case YINDOLVE_TRUTH: return "truth";
    case YINDOLVE_VARIABLES: return "variables";
    case YINDOLVE_SPACE: return "space";
    case YINDOLVE_PAIRS: return "pairs";
    case YINDOLVE_TOO_HIGH: return "value";
    case YINDOLVE_SCALE: return "scale";
    case YINDOLVE_WEIGHTS: return "weights";
    case YINDOLVE_LISTING: return "listing";
    case YINDOLVE_VALUATIONS: return "valuations";
    case YINDOLVE_NOTHING: return "nothing";
    case YINDOLVE_PATHS: return "paths";
    case YINDOLVE_BUFFER: return "buffer";
    case YINDOLVE_LENGTH: return "length";
    case YINDOLVE_MISSING: return "missing";
    case YINDOLVE_WEIGHTLESS: return "weightless";
    case YINDOLVE_CROWDED: return "crowded";
    case YINDOLVE_TALLY: return "tally";
    case YINDOLVE_GROUND: return "ground";
    case YINDOLVE_MINIMUM: return "minimum";
    case YINDOLVE_KINDS: return "kinds";
    case YINDOLVE_RUNS: return "runs";
    case YINDOLVE_COMBINATIONS: return "combinations";
    default: return "unknown";
    }
}

/* What a refusal means, in one sentence. */
static inline const char *yindolve_refusal_meaning(uint64_t refusal) {
    switch (refusal) {
    case 0: return "nothing is refused";
    case YINDOLVE_FORM: return "the line is not of the grammar: brackets, spaces, the count or the kind of its words";
    case YINDOLVE_NAME: return "a name that is not declared on an earlier accepted line, or one that is given twice";
    case YINDOLVE_ARITY: return "not as many terms or objects as the predicate has places, or the action parameters";
    case YINDOLVE_RANGE: return "a number outside its range, or an object that is not there";
    case YINDOLVE_PLACE: return "the line stands in the wrong part of the text, a part is missing, or a constant is not placed";
    case YINDOLVE_UNBOUND: return "a variable or a parameter that is not allowed here";
    case YINDOLVE_TRUTH: return "a diagram that says what becomes true has a number above 1";
    case YINDOLVE_VARIABLES: return "more than 64 variables of a kind";
    case YINDOLVE_SPACE: return "more rows, facts or declarations than there is room for";
    case YINDOLVE_PAIRS: return "more than 4,096 pairs of rows in one combination";
    case YINDOLVE_TOO_HIGH: return "a number above 10^18 was worked out";
    case YINDOLVE_SCALE: return "the scale, the power of total times discount divisor, would pass 10^18";
    case YINDOLVE_WEIGHTS: return "an action's weights, summed, are not the total in a case that equality does not rule out";
    case YINDOLVE_LISTING: return "the words are no listing, or the arity list is wrong";
    case YINDOLVE_VALUATIONS: return "more than 1,000,000 ways to choose objects for the variables, and no tables in their place: these would have more than 8,192 entries, or there is a minimum variable";
    case YINDOLVE_NOTHING: return "no edge is left to cut";
    case YINDOLVE_PATHS: return "more than 256 paths, in the diagram to cut or to reduce or in an action's summed weights";
    case YINDOLVE_BUFFER: return "a result buffer or a working space that is too small";
    case YINDOLVE_LENGTH: return "the value diagram, written as a form, is too long for a (reward ..) line: more than 4,095 bytes or 64 open brackets";
    case YINDOLVE_MISSING: return "a move is asked for, and there is no state or a constant is not placed";
    case YINDOLVE_WEIGHTLESS: return "a logged line whose outcome has weight 0 in the state";
    case YINDOLVE_CROWDED: return "a logged line that leads to a state of more than 1,024 facts";
    case YINDOLVE_TALLY: return "the count of logged lines or the total of their rewards would pass 10^18";
    case YINDOLVE_GROUND: return "more than 16 ground facts, so that there are too many states to count";
    case YINDOLVE_MINIMUM: return "a minimum variable in the diagram to cut";
    case YINDOLVE_KINDS: return "an equality, a constant or a minimum variable in the diagram to reduce";
    case YINDOLVE_RUNS: return "more than 512 valuations times paths of the diagram to reduce";
    case YINDOLVE_COMBINATIONS: return "more than 100,000 combinations of paths in a reduction";
    default: return "a refusal that this version does not have";
    }
}

/* A pointer and a count for no words, or for no bytes: yindolve_regress(.., YINDOLVE_NO_WORDS, spans, ..). */
static const uint64_t yindolve_no_words[1] = {0};
#define YINDOLVE_NO_WORDS yindolve_no_words, (size_t)0
#define YINDOLVE_NO_BYTES (const uint8_t *)yindolve_no_words, (size_t)0

/* Whether the words are a listing: 0 or YINDOLVE_LISTING. */
uint64_t yindolve_check(const uint64_t *arities, size_t arities_count, const uint64_t *words, size_t words_count);

/* Sum, product and max of two listings, the result to `result`, its rows to *rows and the pairs that the walk reached to *pairs.
 * Apart: the first operand is closed up (its maximum variables renamed to 64, 65, .., its minimum variables to 128, 129, .., each in their order), the second's of each
 * kind follow after, and the result is closed up. Shared: names stay. A max with a minimum variable on either side is done apart in every respect, also where it is asked for shared.
 * Pairs: the roots', and below each pair its two successors, but none below two leaves and, in a product, none below a leaf 0 on either side.
 * Refused, in this order: LISTING for the first operand, then for the second; BUFFER; VARIABLES (apart only: of either kind those of both operands
 * together); PAIRS; TOO_HIGH; SPACE.
 */
uint64_t yindolve_sum_apart(const uint64_t *arities, size_t arities_count, const uint64_t *first, size_t first_count, const uint64_t *second,
    size_t second_count, uint64_t *result, size_t result_count, uint64_t *work, size_t work_count, uint64_t *rows, uint64_t *pairs);
uint64_t yindolve_sum_shared(const uint64_t *arities, size_t arities_count, const uint64_t *first, size_t first_count, const uint64_t *second,
    size_t second_count, uint64_t *result, size_t result_count, uint64_t *work, size_t work_count, uint64_t *rows, uint64_t *pairs);
uint64_t yindolve_product_apart(const uint64_t *arities, size_t arities_count, const uint64_t *first, size_t first_count, const uint64_t *second,
    size_t second_count, uint64_t *result, size_t result_count, uint64_t *work, size_t work_count, uint64_t *rows, uint64_t *pairs);
uint64_t yindolve_product_shared(const uint64_t *arities, size_t arities_count, const uint64_t *first, size_t first_count, const uint64_t *second,
    size_t second_count, uint64_t *result, size_t result_count, uint64_t *work, size_t work_count, uint64_t *rows, uint64_t *pairs);
uint64_t yindolve_max_apart(const uint64_t *arities, size_t arities_count, const uint64_t *first, size_t first_count, const uint64_t *second,
    size_t second_count, uint64_t *result, size_t result_count, uint64_t *work, size_t work_count, uint64_t *rows, uint64_t *pairs);
uint64_t yindolve_max_shared(const uint64_t *arities, size_t arities_count, const uint64_t *first, size_t first_count, const uint64_t *second,
    size_t second_count, uint64_t *result, size_t result_count, uint64_t *work, size_t work_count, uint64_t *rows, uint64_t *pairs);

/* The regression of a value listing (`words`) under truth diagrams, the result to `result`, its rows to *rows: each test is replaced by what makes its atom true
 * after an action. The listings of the truth diagrams are lent in `truths`, and `spans` has two words for each predicate: spans[2 * p] is the word of `truths`
 * where the listing of predicate p begins, and spans[2 * p + 1] how many words it has, 0 for a predicate that stays as it is. A listing ends with `truths` at
 * the latest. A word of `spans` that is not lent counts as 0; the two of predicate 0 and words past YINDOLVE_SPAN_WORDS are not read. A truth diagram has
 * leaves 0 and 1, and its variables are the arguments of its predicate, 64 onward in their order; it may have parameters. The variables of the value listing stay.
 * Refused, in this order: LISTING for the value listing, then for the truth diagrams by predicate number; BUFFER; diagram by diagram TRUTH, then UNBOUND (a
 * variable that is no argument, as every minimum variable); then step by step PAIRS, TOO_HIGH, SPACE.
 */
uint64_t yindolve_regress(const uint64_t *arities, size_t arities_count, const uint64_t *words, size_t words_count, const uint64_t *truths, size_t truths_count,
    const uint64_t *spans, size_t spans_count, uint64_t *result, size_t result_count, uint64_t *work, size_t work_count, uint64_t *rows);

/* Turns the parameters of an action into maximum variables (no memory is freed). The action has `parameters` of them: parameter 16 + i turns into variable 64 + i, and
 * the other maximum variables move up by that count; minimum variables stay.
 * Refused, in this order: LISTING; BUFFER; RANGE (more than 4 parameters); UNBOUND (a parameter past the count); VARIABLES (a maximum variable would pass 127).
 */
uint64_t yindolve_free_parameters(const uint64_t *arities, size_t arities_count, const uint64_t *words, size_t words_count, uint64_t parameters,
    uint64_t *result, size_t result_count, const uint64_t *work, size_t work_count, uint64_t *rows);

/* Cuts a listing: one edge goes to leaf 0, and the diagram is reduced and closed up. The result goes to `result` and its rows to *rows, the row of `words` whose
 * edge went to *row, and 1 for its true edge or 0 for its false one to *edge. An edge may go if it is not to leaf 0 yet and each path through it to a leaf above
 * 0 has a path that avoids it, with a leaf at least as high, and a replacement of that path's variables by terms of the two paths under which each of its
 * literals is one of the first path or is t = t true. The highest row goes first, its true edge before its false one.
 * How long the search takes has no useful bound: it is short for most diagrams, and hours for some that are made to be hard.
 * Refused, in this order: LISTING; BUFFER; MINIMUM (any minimum variable); PATHS; NOTHING.
 */
uint64_t yindolve_cut(const uint64_t *arities, size_t arities_count, const uint64_t *words, size_t words_count, uint64_t *result, size_t result_count,
    uint64_t *work, size_t work_count, uint64_t *row, uint64_t *edge, uint64_t *rows);

/* Reduces a listing by model checking: every edge that no winning path has goes to leaf 0, and the diagram is reduced and closed up. The result goes to `result` and
 * its rows to *rows. The value stays in every state. A valuation gives each variable one of as many invented objects as there are variables; a combination is a path for
 * each valuation, and is consistent where no atom over these objects is both true and false; its winning path has the highest leaf and, of equal ones, the true edge
 * where they part. Unlike a cut this sees what several paths do together. The result may be the listing itself, closed up, and may have one row more, leaf 0.
 * The work is bounded: valuations times paths by 512, and combinations, counted after each valuation (lowest objects first, the lowest variable changing slowest), by 100,000.
 * Refused, in this order: LISTING; BUFFER; UNBOUND (any parameter); PATHS; KINDS; RUNS; COMBINATIONS.
 */
uint64_t yindolve_reduce(const uint64_t *arities, size_t arities_count, const uint64_t *words, size_t words_count, uint64_t *result, size_t result_count,
    uint64_t *work, size_t work_count, uint64_t *rows);

/* The value of a listing in a state, to *value: the highest, over all choices of objects for its maximum variables, of the lowest leaf over all choices for its minimum
 * variables; without these the highest leaf over all valuations. The state has objects 0 to objects - 1; constants[c] is the
 * object of constant c (0 for a constant that has no word, words past YINDOLVE_CONSTANTS are not read); facts are rows of YINDOLVE_FACT_WORDS words, words behind
 * the last whole row are not read. More than 1,000,000 valuations, of variables of both kinds, are not gone through: a table for each row of the listing takes their place,
 * with the same value, and these tables may have 8,192 entries in all. With a minimum variable no tables do.
 * Refused, in this order: LISTING; RANGE (no object, or one named that is not there); UNBOUND (any parameter); VALUATIONS.
 */
uint64_t yindolve_value(const uint64_t *arities, size_t arities_count, const uint64_t *words, size_t words_count, uint64_t objects, const uint64_t *constants,
    size_t constants_count, const uint64_t *facts, size_t facts_count, uint64_t *value);

/* Texts. A text is bytes, its lines end with a line feed; docs/REFERENCE.md says what lines there are and what each is answered. A blank line, one of no bytes,
 * passes without effect and counts as a line.
 */

/* Answers a whole text: the answers behind one another to `answers`, the closing one too, and their bytes to *bytes; bytes behind them stay. A text of blank lines
 * only, or of no bytes, has no answers at all.
 * Never refused. YINDOLVE_FULL where the answer of a line does not fit: the answers before it are written, *bytes of them, and *lines lines are answered.
 */
uint64_t yindolve_run(const uint8_t *text, size_t text_count, uint8_t *answers, size_t answers_count, uint64_t *bytes, uint64_t *lines);

/* Opens a session: before its first line. Its memory is `numbers`, `arities` and `state` and, for its lines, words of any value for names, listings, table and
 * value; all of it belongs to the session until its last line.
 * Refused: BUFFER where numbers have fewer words than above, state has not as many, or there are not YINDOLVE_ARITIES arities.
 */
uint64_t yindolve_open(uint64_t *numbers, size_t numbers_count, uint64_t *arities, size_t arities_count, uint64_t *state, size_t state_count);

/* Answers the next lines of a session: the whole lines of a block, one after another, as long as YINDOLVE_ANSWER_BYTES of the buffer are free, so that every answer
 * fits. The answers' bytes to `answers`, their count to *bytes; how many bytes of the block were read, line feeds too, to *read. At least one line is answered where
 * there is one. Give the rest of the block again, with what comes behind it: more lines where the buffer was the end, else bytes of a line that is not whole yet.
 * The session's memory is tested once for a call, so that lines are best given many at a time. It passes the test if names, arities, the model laid out in listings
 * and table, state, value diagram and numbers agree as every line keeps them. So a session may be written to a file, read again and go on (examples/save.c), whatever
 * happened to its bytes: the call answers by the session that they are, or LISTING. (Words that pass but were not left by lines may hold any good value diagram; then a
 * value is that diagram's, and not the Bellman value, (text) prints the bytes that its names hold, and (did ..) goes on from the count and total that its numbers hold.)
 * Words behind the numbers and bytes behind the answers stay. The model's listings stay where they are, and a new one stands behind all others; so what a call leaves in
 * the words in use is fixed, word for word. Within a table the words behind those in use are the session's working space.
 * So is the index of the facts behind them in the state: a call makes it from the facts, whatever its words are, and its lines keep it.
 * Refused, in this order: LISTING where the memory is no session's, a table of another size among it, or its count of lines and the block's bytes together pass
 * 2^64 - 1; BUFFER where the working space or the buffer is smaller than above. Nothing else is done then.
 */
uint64_t yindolve_lines(const uint8_t *block, size_t block_count, uint64_t *numbers, size_t numbers_count, uint64_t *names, size_t names_count, uint64_t *arities,
    size_t arities_count, uint64_t *listings, size_t listings_count, uint64_t *table, size_t table_count, uint64_t *state, size_t state_count, uint64_t *value,
    size_t value_count, uint64_t *work, size_t work_count, uint8_t *answers, size_t answers_count, uint64_t *bytes, uint64_t *read);

/* The same with one line, which is given without its line feed: the answer's bytes to `answer`, none for a line that prints nothing, their count to *bytes. Where a
 * text ends with bytes that have no line feed, give the line "(" in their place: it is refused with FORM, as they are. yindolve_end closes the text.
 */
uint64_t yindolve_line(const uint8_t *line, size_t line_count, uint64_t *numbers, size_t numbers_count, uint64_t *names, size_t names_count, uint64_t *arities,
    size_t arities_count, uint64_t *listings, size_t listings_count, uint64_t *table, size_t table_count, uint64_t *state, size_t state_count, uint64_t *value,
    size_t value_count, uint64_t *work, size_t work_count, uint8_t *answer, size_t answer_count, uint64_t *bytes);

/* The closing answer of a session whose text ends here, to `answer`, its bytes to *bytes: (refused 5 0) where no (start) was accepted, though a line with bytes was
 * met; else no bytes. The session stays, and more lines may follow. A host that gives the lines of a text one by one and then calls this has the answers of
 * yindolve_run.
 * Refused, in this order: LISTING where `numbers` has fewer than YINDOLVE_NUMBER_WORDS, or words that no session's numbers are; BUFFER where `answer` has fewer than
 * YINDOLVE_ANSWER_BYTES. Nothing is written then.
 */
uint64_t yindolve_end(const uint64_t *numbers, size_t numbers_count, uint8_t *answer, size_t answer_count, uint64_t *bytes);

/* ----- Inline functions ----- */

/* An answer as a struct. Which fields count is said with the kinds; the others are 0, but for the count of the answer's bytes, which each kind has. */
typedef enum {
    YINDOLVE_ANSWER_NOTHING, /* the line is accepted, or blank, and has no answer */
    YINDOLVE_ANSWER_VALUE,   /* (value V k S^k): value, steps, scale; the value of the state is value / scale */
    YINDOLVE_ANSWER_BACKUP,  /* (backup k rows): steps, rows */
    YINDOLVE_ANSWER_CUT,     /* (cut row edge rows): row, edge (1 for true, 0 for false), rows */
    YINDOLVE_ANSWER_REDUCE,  /* (reduce rows): rows */
    YINDOLVE_ANSWER_ROWS,    /* (row ..) lines: rows; yindolve_read_rows reads them */
    YINDOLVE_ANSWER_TEXT,    /* the form that (text) prints: the answer's bytes but for the line feed, at most 4,086 */
    YINDOLVE_ANSWER_BEST,    /* (best action object ..): action, objects, parameters (how many objects) */
    YINDOLVE_ANSWER_COUNTS,  /* (count value states) lines, lowest value first: rows (how many lines); yindolve_read_counts reads them */
    YINDOLVE_ANSWER_DID,     /* (did count total): count, total: how many logged lines were accepted since the state was told, and the rewards met, unscaled */
    YINDOLVE_ANSWER_REFUSED, /* (refused number line): refusal, line; line 0 in a closing answer */
    YINDOLVE_ANSWER_UNKNOWN  /* bytes that are no answer of this version; none where no line was answered */
} yindolve_answer_kind;

typedef struct {
    yindolve_answer_kind kind;
    uint64_t value, steps, scale;
    uint64_t row, edge, rows;
    uint64_t refusal, line;
    uint64_t bytes;
    char action[16]; /* a name, 0 behind it */
    uint64_t objects[4], parameters;
    uint64_t count, total;
} yindolve_answer;

/* What a label tests: its predicate, and the term at a place from 0 to YINDOLVE_PLACES - 1. */
static inline uint64_t yindolve_label_predicate(uint64_t label) {
    return label >> (YINDOLVE_PLACES * YINDOLVE_TERM_BITS);
}
static inline uint64_t yindolve_label_term(uint64_t label, unsigned place) {
    return (label >> ((YINDOLVE_PLACES - 1 - place) * YINDOLVE_TERM_BITS)) & ((1 << YINDOLVE_TERM_BITS) - 1);
}

/* Reads a word at *at: steps over it and answers 1 if it stands there. For the functions below. */
static inline int yindolve_take_word(const uint8_t *bytes, size_t count, size_t *at, const char *word) {
    size_t length = strlen(word);
    if (count - *at < length || memcmp(bytes + *at, word, length) != 0) return 0;
    *at += length;
    return 1;
}

/* Reads a number at *at: steps over it and answers 1 if one stands there that 64 bits hold. For the functions below. */
static inline int yindolve_take_number(const uint8_t *bytes, size_t count, size_t *at, uint64_t *number) {
    size_t begin = *at;
    uint64_t n = 0;
    for (; *at < count && '0' <= bytes[*at] && bytes[*at] <= '9'; ++*at) {
        uint64_t digit = (uint64_t)(bytes[*at] - '0');
        if (n > (UINT64_MAX - digit) / 10) return 0;
        n = n * 10 + digit;
    }
    *number = n;
    return *at > begin;
}

/* Reads a row line at *at into three words of a listing: steps over it and answers 1 if one stands there. */
static inline int yindolve_take_row(const uint8_t *bytes, size_t count, size_t *at, uint64_t row[YINDOLVE_ROW_WORDS]) {
    uint64_t number;
    if (!yindolve_take_word(bytes, count, at, "(row ") || !yindolve_take_number(bytes, count, at, &number)) return 0;
    if (yindolve_take_word(bytes, count, at, " leaf ")) {
        row[0] = YINDOLVE_LEAF;
        row[2] = 0;
        return yindolve_take_number(bytes, count, at, &row[1]) && yindolve_take_word(bytes, count, at, ")\n");
    }
    return yindolve_take_word(bytes, count, at, " ") && yindolve_take_number(bytes, count, at, &row[0]) && yindolve_take_word(bytes, count, at, " ") &&
        yindolve_take_number(bytes, count, at, &row[1]) && yindolve_take_word(bytes, count, at, " ") && yindolve_take_number(bytes, count, at, &row[2]) &&
        yindolve_take_word(bytes, count, at, ")\n");
}

/* Reads the form of a diagram at *at, which has a line of its own: steps over it and answers 1 if one stands there. For the functions below. */
static inline int yindolve_take_form(const uint8_t *bytes, size_t count, size_t *at) {
    uint64_t number;
    if (!yindolve_take_word(bytes, count, at, "(if "))
        return yindolve_take_number(bytes, count, at, &number) && yindolve_take_word(bytes, count, at, "\n");
    while (*at < count && bytes[*at] != '\n') ++*at;
    return bytes[*at - 1] == ')' && yindolve_take_word(bytes, count, at, "\n");
}

/* Reads a count line at *at into two words, the value and its number of states: steps over it and answers 1 if one stands there. */
static inline int yindolve_take_count(const uint8_t *bytes, size_t count, size_t *at, uint64_t entry[2]) {
    return yindolve_take_word(bytes, count, at, "(count ") && yindolve_take_number(bytes, count, at, &entry[0]) && yindolve_take_word(bytes, count, at, " ") &&
        yindolve_take_number(bytes, count, at, &entry[1]) && yindolve_take_word(bytes, count, at, ")\n");
}

/* Reads what stands behind "(best " at *at: an action's name, up to 15 letters or digits, and up to 4 objects. For the functions below. */
static inline int yindolve_take_move(const uint8_t *bytes, size_t count, size_t *at, yindolve_answer *a) {
    size_t letters = 0;
    for (; *at < count && letters < 15 && (('a' <= bytes[*at] && bytes[*at] <= 'z') || ('0' <= bytes[*at] && bytes[*at] <= '9')); ++*at)
        a->action[letters++] = (char)bytes[*at];
    while (a->parameters < 4 && yindolve_take_word(bytes, count, at, " ")) {
        if (!yindolve_take_number(bytes, count, at, &a->objects[a->parameters++])) return 0;
    }
    return letters > 0 && yindolve_take_word(bytes, count, at, ")\n");
}

/* Reads the count lines of an answer into words, two for a line, their lines to *lines: 0; BUFFER where they do not fit; LISTING where the bytes are no such lines. */
static inline uint64_t yindolve_read_counts(const uint8_t *bytes, size_t count, uint64_t *words, size_t words_count, uint64_t *lines) {
    size_t at = 0, n = 0;
    uint64_t entry[2];
    if ((!bytes && count) || (!words && words_count)) return YINDOLVE_BUFFER;
    for (; at < count; ++n) {
        if (!yindolve_take_count(bytes, count, &at, entry)) return YINDOLVE_LISTING;
        if (words_count / 2 <= n) return YINDOLVE_BUFFER;
        memcpy(words + n * 2, entry, sizeof entry);
    }
    *lines = n;
    return n ? 0 : YINDOLVE_LISTING;
}

/* Reads the row lines of an answer into the words of a listing, their rows to *rows: 0; BUFFER where they do not fit; LISTING where the bytes are no rows. */
static inline uint64_t yindolve_read_rows(const uint8_t *bytes, size_t count, uint64_t *words, size_t words_count, uint64_t *rows) {
    size_t at = 0, n = 0;
    uint64_t row[YINDOLVE_ROW_WORDS];
    if ((!bytes && count) || (!words && words_count)) return YINDOLVE_BUFFER;
    for (; at < count; ++n) {
        if (!yindolve_take_row(bytes, count, &at, row)) return YINDOLVE_LISTING;
        if (words_count / YINDOLVE_ROW_WORDS <= n) return YINDOLVE_BUFFER;
        memcpy(words + n * YINDOLVE_ROW_WORDS, row, sizeof row);
    }
    *rows = n;
    return n ? 0 : YINDOLVE_LISTING;
}

/* Reads the answer of one line. */
static inline yindolve_answer yindolve_read_answer(const uint8_t *bytes, size_t count) {
    yindolve_answer a;
    size_t at = 0;
    uint64_t row[YINDOLVE_ROW_WORDS], entry[2];
    int whole = 0;
    memset(&a, 0, sizeof a);
    if (count == 0) return a;
    if (!bytes) {
        a.kind = YINDOLVE_ANSWER_UNKNOWN;
        return a;
    }
    a.bytes = count;
    if (yindolve_take_word(bytes, count, &at, "(value ")) {
        a.kind = YINDOLVE_ANSWER_VALUE;
        whole = yindolve_take_number(bytes, count, &at, &a.value) && yindolve_take_word(bytes, count, &at, " ") &&
            yindolve_take_number(bytes, count, &at, &a.steps) && yindolve_take_word(bytes, count, &at, " ") &&
            yindolve_take_number(bytes, count, &at, &a.scale) && yindolve_take_word(bytes, count, &at, ")\n");
    } else if (yindolve_take_word(bytes, count, &at, "(backup ")) {
        a.kind = YINDOLVE_ANSWER_BACKUP;
        whole = yindolve_take_number(bytes, count, &at, &a.steps) && yindolve_take_word(bytes, count, &at, " ") &&
            yindolve_take_number(bytes, count, &at, &a.rows) && yindolve_take_word(bytes, count, &at, ")\n");
    } else if (yindolve_take_word(bytes, count, &at, "(cut ")) {
        a.kind = YINDOLVE_ANSWER_CUT;
        whole = yindolve_take_number(bytes, count, &at, &a.row);
        a.edge = (uint64_t)yindolve_take_word(bytes, count, &at, " true ");
        whole = whole && (a.edge || yindolve_take_word(bytes, count, &at, " false ")) && yindolve_take_number(bytes, count, &at, &a.rows) &&
            yindolve_take_word(bytes, count, &at, ")\n");
    } else if (yindolve_take_word(bytes, count, &at, "(reduce ")) {
        a.kind = YINDOLVE_ANSWER_REDUCE;
        whole = yindolve_take_number(bytes, count, &at, &a.rows) && yindolve_take_word(bytes, count, &at, ")\n");
    } else if (yindolve_take_word(bytes, count, &at, "(best ")) {
        a.kind = YINDOLVE_ANSWER_BEST;
        whole = yindolve_take_move(bytes, count, &at, &a);
    } else if (yindolve_take_word(bytes, count, &at, "(did ")) {
        a.kind = YINDOLVE_ANSWER_DID;
        whole = yindolve_take_number(bytes, count, &at, &a.count) && yindolve_take_word(bytes, count, &at, " ") &&
            yindolve_take_number(bytes, count, &at, &a.total) && yindolve_take_word(bytes, count, &at, ")\n");
    } else if (yindolve_take_count(bytes, count, &at, entry)) {
        a.kind = YINDOLVE_ANSWER_COUNTS;
        for (a.rows = 1, whole = 1; whole && at < count; ++a.rows) whole = yindolve_take_count(bytes, count, &at, entry);
    } else if (yindolve_take_word(bytes, count, &at, "(refused ")) {
        a.kind = YINDOLVE_ANSWER_REFUSED;
        whole = yindolve_take_number(bytes, count, &at, &a.refusal) && yindolve_take_word(bytes, count, &at, " ") &&
            yindolve_take_number(bytes, count, &at, &a.line) && yindolve_take_word(bytes, count, &at, ")\n");
    } else if (yindolve_take_form(bytes, count, &at)) {
        a.kind = YINDOLVE_ANSWER_TEXT;
        whole = 1;
    } else {
        a.kind = YINDOLVE_ANSWER_ROWS;
        at = 0;
        whole = 1;
        for (; whole && at < count; ++a.rows) whole = yindolve_take_row(bytes, count, &at, row);
    }
    if (!whole || at != count) {
        memset(&a, 0, sizeof a);
        a.kind = YINDOLVE_ANSWER_UNKNOWN;
        a.bytes = count;
    }
    return a;
}

/* yindolve_run for pointers that may be null where their count is 0. */
static inline uint64_t yindolve_run_text(const uint8_t *text, size_t text_count, uint8_t *answers, size_t answers_count, uint64_t *bytes, uint64_t *lines) {
    uint8_t none[1];
    if ((!text && text_count) || (!answers && answers_count)) return YINDOLVE_BUFFER;
    return yindolve_run(text ? text : (const uint8_t *)yindolve_no_words, text_count, answers ? answers : none, answers_count, bytes, lines);
}

/* yindolve_value for pointers that may be null where their count is 0: no constants, no facts. */
static inline uint64_t yindolve_value_of(const uint64_t *arities, size_t arities_count, const uint64_t *words, size_t words_count, uint64_t objects,
    const uint64_t *constants, size_t constants_count, const uint64_t *facts, size_t facts_count, uint64_t *value) {
    if ((!arities && arities_count) || (!words && words_count) || (!constants && constants_count) || (!facts && facts_count)) return YINDOLVE_BUFFER;
    return yindolve_value(arities ? arities : yindolve_no_words, arities_count, words ? words : yindolve_no_words, words_count, objects,
        constants ? constants : yindolve_no_words, constants_count, facts ? facts : yindolve_no_words, facts_count, value);
}

/* yindolve_regress for pointers that may be null where their count is 0: no truth diagrams. */
static inline uint64_t yindolve_regress_under(const uint64_t *arities, size_t arities_count, const uint64_t *words, size_t words_count, const uint64_t *truths,
    size_t truths_count, const uint64_t *spans, size_t spans_count, uint64_t *result, size_t result_count, uint64_t *work, size_t work_count, uint64_t *rows) {
    uint64_t none[1];
    if ((!arities && arities_count) || (!words && words_count) || (!truths && truths_count) || (!spans && spans_count) || (!result && result_count) ||
        (!work && work_count)) {
        return YINDOLVE_BUFFER;
    }
    return yindolve_regress(arities ? arities : yindolve_no_words, arities_count, words ? words : yindolve_no_words, words_count,
        truths ? truths : yindolve_no_words, truths_count, spans ? spans : yindolve_no_words, spans_count, result ? result : none, result_count,
        work ? work : none, work_count, rows);
}

/* A session with all its memory; about 300 KB, so that it is best static or from the heap. It has no pointers: a copy is a session of its own. */
typedef struct {
    uint64_t numbers[YINDOLVE_NUMBER_WORDS];
    uint64_t names[YINDOLVE_NAME_WORDS];
    uint64_t arities[YINDOLVE_ARITIES];
    uint64_t listings[YINDOLVE_LISTING_WORDS];
    uint64_t table[YINDOLVE_TABLE_WORDS];
    uint64_t state[YINDOLVE_STATE_WORDS];
    uint64_t value[YINDOLVE_VALUE_WORDS];
    uint64_t work[YINDOLVE_SESSION_WORK_WORDS];
    uint8_t answer[YINDOLVE_ANSWER_BYTES];
} yindolve_session;

/* Opens the session: 0. */
static inline uint64_t yindolve_session_open(yindolve_session *s) {
    return yindolve_open(s->numbers, YINDOLVE_NUMBER_WORDS, s->arities, YINDOLVE_ARITIES, s->state, YINDOLVE_STATE_WORDS);
}

/* Answers the next line of an open session, given without its line feed: 0, the answer in s->answer, its bytes to *bytes. The line may be null where its count
 * is 0. Refused, and the line is not answered: BUFFER for null with a higher count, LISTING for words that are no session's, as before it was opened.
 */
static inline uint64_t yindolve_session_line(yindolve_session *s, const uint8_t *line, size_t line_count, uint64_t *bytes) {
    if (!line && line_count) return YINDOLVE_BUFFER;
    return yindolve_line(line ? line : (const uint8_t *)yindolve_no_words, line_count, s->numbers, YINDOLVE_NUMBER_WORDS, s->names, YINDOLVE_NAME_WORDS,
        s->arities, YINDOLVE_ARITIES, s->listings, YINDOLVE_LISTING_WORDS, s->table, YINDOLVE_TABLE_WORDS, s->state, YINDOLVE_STATE_WORDS, s->value,
        YINDOLVE_VALUE_WORDS, s->work, YINDOLVE_SESSION_WORK_WORDS, s->answer, YINDOLVE_ANSWER_BYTES, bytes);
}

/* Answers the whole lines of a block, the next of an open session, to a buffer of the caller's, best several times YINDOLVE_ANSWER_BYTES: 0, the answers' bytes to
 * *bytes, and how many bytes of the block were read to *read. The block may be null where its count is 0. Refused as a line is.
 */
static inline uint64_t yindolve_session_lines(yindolve_session *s, const uint8_t *block, size_t block_count, uint8_t *answers, size_t answers_count, uint64_t *bytes,
    uint64_t *read) {
    if ((!block && block_count) || !answers) return YINDOLVE_BUFFER;
    return yindolve_lines(block ? block : (const uint8_t *)yindolve_no_words, block_count, s->numbers, YINDOLVE_NUMBER_WORDS, s->names, YINDOLVE_NAME_WORDS,
        s->arities, YINDOLVE_ARITIES, s->listings, YINDOLVE_LISTING_WORDS, s->table, YINDOLVE_TABLE_WORDS, s->state, YINDOLVE_STATE_WORDS, s->value,
        YINDOLVE_VALUE_WORDS, s->work, YINDOLVE_SESSION_WORK_WORDS, answers, answers_count, bytes, read);
}

/* Answers the next line of an open session, a C string without its line feed, as a struct: yindolve_session_ask(s, "(value)"). The answer's bytes stay in s->answer.
 * The kind is UNKNOWN, without bytes, for a session that was not opened.
 */
static inline yindolve_answer yindolve_session_ask(yindolve_session *s, const char *line) {
    uint64_t bytes = 0, refusal = yindolve_session_line(s, (const uint8_t *)line, line ? strlen(line) : 0, &bytes);
    yindolve_answer a = yindolve_read_answer(s->answer, refusal ? 0 : bytes);
    if (refusal) a.kind = YINDOLVE_ANSWER_UNKNOWN;
    return a;
}

/* The closing answer of an open session whose text ends here: 0, the answer in s->answer, its bytes to *bytes, 0 where there is none. The session stays. Refused:
 * LISTING for a session that was not opened.
 */
static inline uint64_t yindolve_session_end(yindolve_session *s, uint64_t *bytes) {
    if (s->arities[0] != 2) return YINDOLVE_LISTING;
    return yindolve_end(s->numbers, YINDOLVE_NUMBER_WORDS, s->answer, YINDOLVE_ANSWER_BYTES, bytes);
}

/* A session as words, which a program may write to a file and read again, on a machine of the same kind and with a library of the same version: a mark, the
 * version, a sum over the others, and the words that the library keeps from line to line.
 */
#define YINDOLVE_SAVED_HEAD 3
#define YINDOLVE_SAVED_WORDS (YINDOLVE_SAVED_HEAD + YINDOLVE_NUMBER_WORDS + YINDOLVE_NAME_WORDS + YINDOLVE_ARITIES + YINDOLVE_LISTING_WORDS + YINDOLVE_TABLE_WORDS + \
    YINDOLVE_STATE_WORDS + YINDOLVE_VALUE_WORDS)
#define YINDOLVE_SAVED_MARK UINT64_C(0x65766c6f646e6979) /* the bytes "yindolve" */
#define YINDOLVE_SAVED_VERSION ((uint64_t)(YINDOLVE_VERSION_MAJOR * 10000 + YINDOLVE_VERSION_MINOR * 100 + YINDOLVE_VERSION_PATCH))

/* The sum of saved words: FNV-1a of the bytes behind the head. */
static inline uint64_t yindolve_saved_sum(const uint64_t *words) {
    uint64_t sum = UINT64_C(0xcbf29ce484222325);
    size_t i;
    for (i = YINDOLVE_SAVED_HEAD * 8; i < YINDOLVE_SAVED_WORDS * 8; ++i) sum = (sum ^ ((words[i / 8] >> (i % 8 * 8)) & 255)) * UINT64_C(0x100000001b3);
    return sum;
}

/* Writes the session to YINDOLVE_SAVED_WORDS words: 0, or BUFFER where there are fewer. */
static inline uint64_t yindolve_session_save(const yindolve_session *s, uint64_t *words, size_t words_count) {
    uint64_t *to = words;
    if (!words || words_count < YINDOLVE_SAVED_WORDS) return YINDOLVE_BUFFER;
    to += YINDOLVE_SAVED_HEAD;
    memcpy(to, s->numbers, sizeof s->numbers), to += YINDOLVE_NUMBER_WORDS;
    memcpy(to, s->names, sizeof s->names), to += YINDOLVE_NAME_WORDS;
    memcpy(to, s->arities, sizeof s->arities), to += YINDOLVE_ARITIES;
    memcpy(to, s->listings, sizeof s->listings), to += YINDOLVE_LISTING_WORDS;
    memcpy(to, s->table, sizeof s->table), to += YINDOLVE_TABLE_WORDS;
    memcpy(to, s->state, sizeof s->state), to += YINDOLVE_STATE_WORDS;
    memcpy(to, s->value, sizeof s->value);
    words[0] = YINDOLVE_SAVED_MARK;
    words[1] = YINDOLVE_SAVED_VERSION;
    words[2] = yindolve_saved_sum(words);
    return 0;
}

/* The session that was saved, to *s: 0; BUFFER where there are not YINDOLVE_SAVED_WORDS words; LISTING where the mark, the version or the sum is wrong. After a
 * refusal *s is as it was. The sum tells words that were damaged by accident. Words that someone made up do no harm either: the library tests a session's words
 * before it answers lines, and LISTING is the answer where they are no session's.
 */
static inline uint64_t yindolve_session_load(yindolve_session *s, const uint64_t *words, size_t words_count) {
    const uint64_t *from = words;
    if (!words || words_count != YINDOLVE_SAVED_WORDS) return YINDOLVE_BUFFER;
    if (words[0] != YINDOLVE_SAVED_MARK || words[1] != YINDOLVE_SAVED_VERSION || words[2] != yindolve_saved_sum(words)) return YINDOLVE_LISTING;
    from += YINDOLVE_SAVED_HEAD;
    memcpy(s->numbers, from, sizeof s->numbers), from += YINDOLVE_NUMBER_WORDS;
    memcpy(s->names, from, sizeof s->names), from += YINDOLVE_NAME_WORDS;
    memcpy(s->arities, from, sizeof s->arities), from += YINDOLVE_ARITIES;
    memcpy(s->listings, from, sizeof s->listings), from += YINDOLVE_LISTING_WORDS;
    memcpy(s->table, from, sizeof s->table), from += YINDOLVE_TABLE_WORDS;
    memcpy(s->state, from, sizeof s->state), from += YINDOLVE_STATE_WORDS;
    memcpy(s->value, from, sizeof s->value);
    return 0;
}

#ifdef __cplusplus
}
#endif

#endif
