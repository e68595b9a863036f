/* Sessions whose words are damaged, at random and in single words: a call answers LISTING and writes nothing, or it answers the lines by the session that the words
 * are, and leaves one that passes the test again. A session that is not damaged answers a text in blocks of any size as yindolve_run does.
 *     damage SEED SECONDS
 */
#include <stdio.h>
#include <stdlib.h>
#include <time.h>
#include "yindolve.h"

#define EXPECT(test)                                                                               \
    do {                                                                                           \
        if (!(test)) {                                                                             \
            printf("line %d, seed %llu: %s\n", __LINE__, (unsigned long long)first_seed, #test); \
            exit(1);                                                                               \
        }                                                                                          \
    } while (0)

static const char model[] = "(constant hub)\n(constant far)\n(predicate stock 1)\n(predicate road 2)\n(predicate rain 0)\n(total 4)\n(discount 1 2)\n"
    "(reward (if (stock ?a) (if (road hub ?a) 10 3) 0))\n(action fill !d)\n(variant done (if (rain) 1 3))\n(becomes (stock ?s) (if (= !d ?s) 1 (if (stock ?s) 1 0)))\n"
    "(variant none (if (rain) 3 1))\n(action wait)\n(variant only 4)\n(becomes (rain) 0)\n(start)\n";
static const char run[] = "(did wait only)\n(objects 3)\n(is hub 0)\n(is far 2)\n(true stock 2)\n(true road 0 2)\n(value)\n(backup)\n(cut)\n(value)\n(show)\n(true road 0 1)\n(backup)\n"
    "(value)\n(did fill done 1)\n(did wait only)\n(did fill none 0)\n";

/* Places among the numbers: the part of the text, the names of earlier actions' variants, count and total of (did ..) lines, rows of the value. */
enum { PART = 0, EARLIER = 9, COUNT = 19, TOTAL = 20, ROWS = 21 };
static const uint64_t of_logs[] = {EARLIER, COUNT, TOTAL};

/* Words of the index of the facts, the last of the state: buckets, and a link for each fact. */
enum { INDEX_WORDS = 1024 + 1024 };

static uint64_t first_seed, seed;
static yindolve_session whole, part, damaged, copy, other;
static uint8_t text[sizeof model + sizeof run], answers[1 << 20], joined[1 << 20], first[1 << 20], second[1 << 20];

static uint64_t next(uint64_t below) {
    seed ^= seed << 13, seed ^= seed >> 7, seed ^= seed << 17;
    return seed % below;
}

/* Gives a text in blocks of at most `most` bytes; the bytes of all answers. */
static size_t in_blocks(yindolve_session *s, const uint8_t *bytes, size_t count, size_t most) {
    size_t at = 0, written = 0;
    while (at < count) {
        size_t block = 1 + (size_t)next(most);
        uint64_t answered = 0, read = 0;
        for (;;) {
            if (block > count - at) block = count - at;
            size_t room = YINDOLVE_ANSWER_BYTES + (size_t)next(3) * YINDOLVE_ANSWER_BYTES;
            EXPECT(yindolve_session_lines(s, bytes + at, block, first, room, &answered, &read) == 0);
            if (read > 0 || block == count - at) break;
            ++block; /* no whole line yet */
        }
        memcpy(joined + written, first, answered);
        written += answered;
        at += read;
        if (read == 0) break;
    }
    EXPECT(at == count);
    return written;
}

/* The words that are kept from line to line, but for the working space and the answer. */
static int same(const yindolve_session *a, const yindolve_session *b) {
    return memcmp(a, b, offsetof(yindolve_session, work)) == 0;
}

static void damage(yindolve_session *s) {
    uint64_t *words = (uint64_t *)s, counts[] = {YINDOLVE_NUMBER_WORDS, YINDOLVE_ARITIES + YINDOLVE_NUMBER_WORDS + YINDOLVE_NAME_WORDS, offsetof(yindolve_session, work) / 8};
    uint64_t times = 1 + next(3);
    while (times--) {
        uint64_t i = next(4) ? next(counts[next(2)]) : next(counts[2]);
        if (next(3) == 0) i = offsetof(yindolve_session, table) / 8 + next(600);
        if (next(5) == 0) i = offsetof(yindolve_session, listings) / 8 + next(120);
        if (next(5) == 0) i = offsetof(yindolve_session, value) / 8 + next(60);
        if (next(5) == 0) i = of_logs[next(3)];
        switch (next(6)) {
        case 0: words[i] += 1; break;
        case 1: words[i] -= 1; break;
        case 2: words[i] ^= UINT64_C(1) << next(64); break;
        case 3: words[i] = next(100); break;
        case 4: words[i] = words[next(counts[2])]; break;
        default: words[i] = next(UINT64_MAX);
        }
    }
}

/* One word of a session is another: whether lines are answered; if not, LISTING is, and nothing is written. */
static int passes_with(const yindolve_session *s, size_t at, uint64_t word) {
    uint64_t bytes = 0, read = 0;
    damaged = *s;
    ((uint64_t *)&damaged)[at] = word;
    copy = damaged;
    uint64_t answer = yindolve_session_lines(&damaged, (const uint8_t *)run, sizeof run - 1, first, sizeof first, &bytes, &read);
    EXPECT(answer == 0 || (answer == YINDOLVE_LISTING && same(&damaged, &copy)));
    return answer == 0;
}

/* The same for one of its numbers. */
static int passes(const yindolve_session *s, size_t place, uint64_t word) {
    return passes_with(s, offsetof(yindolve_session, numbers) / 8 + place, word);
}

/* The first word of a table that is this one. */
static size_t place_of(const yindolve_session *s, size_t table, uint64_t word) {
    size_t at = table / 8;
    while (at < offsetof(yindolve_session, work) / 8 && ((const uint64_t *)s)[at] != word) ++at;
    EXPECT(at < offsetof(yindolve_session, work) / 8);
    return at;
}

/* Minimum variables stand in the reward and in the value diagram alone, closed up: words that have one in a truth diagram, or the second without the first, are no session's. */
static void minimum_variables(void) {
    static const char *const lines[] = {"(predicate p 1)", "(reward (if (p %a) 5 0))", "(action a)", "(variant v 100)", "(becomes (p ?a) (if (p ?a) 1 0))", "(start)"};
    const uint64_t of_maximum = YINDOLVE_LABEL(1, 64, 0, 0, 0, 0, 0), of_minimum = YINDOLVE_LABEL(1, 128, 0, 0, 0, 0, 0), of_second = YINDOLVE_LABEL(1, 129, 0, 0, 0, 0, 0);
    EXPECT(yindolve_session_open(&part) == 0);
    for (size_t i = 0; i < sizeof lines / sizeof lines[0]; ++i) EXPECT(yindolve_session_ask(&part, lines[i]).kind == YINDOLVE_ANSWER_NOTHING);
    size_t reward = place_of(&part, offsetof(yindolve_session, listings), of_minimum), truth = place_of(&part, offsetof(yindolve_session, listings), of_maximum);
    size_t value = place_of(&part, offsetof(yindolve_session, value), of_minimum);
    EXPECT(passes_with(&part, reward, of_maximum) && !passes_with(&part, reward, of_second));
    EXPECT(!passes_with(&part, truth, of_minimum));
    EXPECT(passes_with(&part, value, of_maximum) && !passes_with(&part, value, of_second));
}

/* The names of variants are those of the table; count and total are at most 10^18, with no total before the first line. */
static void numbers_of_logs(const yindolve_session *s) {
    uint64_t earlier = s->numbers[EARLIER];
    EXPECT(earlier == 2 && s->numbers[COUNT] == 3 && s->numbers[TOTAL] > 0);
    EXPECT(passes(s, EARLIER, earlier) && !passes(s, EARLIER, earlier - 1) && !passes(s, EARLIER, earlier + 1) && !passes(s, EARLIER, UINT64_MAX));
    EXPECT(passes(s, COUNT, YINDOLVE_VALUE) && !passes(s, COUNT, YINDOLVE_VALUE + 1) && !passes(s, COUNT, UINT64_MAX) && !passes(s, COUNT, 0));
    EXPECT(passes(s, TOTAL, YINDOLVE_VALUE) && !passes(s, TOTAL, YINDOLVE_VALUE + 1) && !passes(s, TOTAL, UINT64_MAX) && passes(s, TOTAL, 0));
    other = *s;
    other.numbers[TOTAL] = 0;
    EXPECT(passes(&other, COUNT, 0));
}

/* A run has an action: the words of a run with a reward and a value diagram pass with one, and without one do not. */
static void run_without_action(void) {
    for (int actions = 0; actions < 2; ++actions) {
        EXPECT(yindolve_session_open(&part) == 0 && yindolve_session_ask(&part, "(reward 1)").kind == YINDOLVE_ANSWER_NOTHING);
        if (actions) yindolve_session_ask(&part, "(action a)"), yindolve_session_ask(&part, "(variant v 100)");
        part.value[0] = YINDOLVE_LEAF, part.value[1] = 1, part.value[2] = 0;
        part.numbers[ROWS] = 1;
        EXPECT(passes(&part, PART, 0) && passes(&part, PART, 1) == actions);
    }
}

/* The index of the facts, behind them in the state, is of no account: with other words in it the lines are answered alike, and leave a session that goes on alike. */
static void words_of_the_index(const yindolve_session *s) {
    uint64_t bytes = 0, again = 0, read = 0;
    damaged = other = *s;
    for (size_t i = 0; i < INDEX_WORDS; ++i) other.state[YINDOLVE_STATE_WORDS - INDEX_WORDS + i] = next(2) ? next(UINT64_MAX) : next(2048);
    for (int times = 0; times < 2; ++times) {
        EXPECT(yindolve_session_lines(&damaged, (const uint8_t *)run, sizeof run - 1, first, sizeof first, &bytes, &read) == 0);
        EXPECT(yindolve_session_lines(&other, (const uint8_t *)run, sizeof run - 1, second, sizeof second, &again, &read) == 0);
        EXPECT(bytes == again && memcmp(first, second, bytes) == 0 && memcmp(damaged.numbers, other.numbers, sizeof other.numbers) == 0);
    }
}

int main(int count, char **arguments) {
    uint64_t bytes = 0, lines = 0, read = 0, refused = 0, accepted = 0;
    time_t end;
    if (count != 3) return 2;
    first_seed = seed = strtoull(arguments[1], NULL, 10) | 1;
    end = time(NULL) + atoi(arguments[2]);
    memcpy(text, model, sizeof model - 1);
    memcpy(text + sizeof model - 1, run, sizeof run - 1);
    size_t size = sizeof model + sizeof run - 2;
    EXPECT(yindolve_run(text, size, answers, sizeof answers, &bytes, &lines) == 0 && bytes > 100);
    run_without_action();
    minimum_variables();
    do {
        EXPECT(yindolve_session_open(&whole) == 0 && in_blocks(&whole, text, size, 200) == bytes && memcmp(joined, answers, bytes) == 0);
        numbers_of_logs(&whole);
        words_of_the_index(&whole);
        EXPECT(yindolve_session_open(&part) == 0 && in_blocks(&part, text, sizeof model - 1 + next(2) * (sizeof run - 1), 60) <= bytes);
        for (int i = 0; i < 100; ++i) {
            damaged = next(2) ? whole : part;
            damage(&damaged);
            copy = other = damaged;
            uint64_t answer = yindolve_session_lines(&damaged, (const uint8_t *)run, sizeof run - 1, first, sizeof first, &bytes, &read);
            if (answer) {
                ++refused;
                EXPECT(answer == YINDOLVE_LISTING && same(&damaged, &copy) && memcmp(damaged.work, copy.work, sizeof copy.work) == 0);
                continue;
            }
            ++accepted;
            EXPECT(read == sizeof run - 1 && bytes < sizeof first);
            memset(other.work, (int)next(256), sizeof other.work); /* which is of no account */
            EXPECT(yindolve_session_lines(&other, (const uint8_t *)run, sizeof run - 1, second, sizeof second, &lines, &read) == 0 && lines == bytes);
            EXPECT(same(&damaged, &other) && memcmp(first, second, bytes) == 0);
            EXPECT(yindolve_session_lines(&damaged, (const uint8_t *)run, sizeof run - 1, first, sizeof first, &bytes, &read) == 0);
        }
        EXPECT(yindolve_run(text, size, answers, sizeof answers, &bytes, &lines) == 0);
    } while (time(NULL) < end);
    printf("%llu sessions refused, %llu accepted\n", (unsigned long long)refused, (unsigned long long)accepted);
    return !(refused > 0 && accepted > 0);
}
