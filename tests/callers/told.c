/* Solves what it reads from standard input, and prints the reports. It reads, in numbers with spaces between:
 *
 *     objective COUNT COEFFICIENT LITERAL ..
 *     sum RELATION BOUND COUNT COEFFICIENT LITERAL ..
 *     clause COUNT LITERAL ..
 *     solve DECISIONS                     solves what was told since the last time
 *     text FORMAT DECISIONS LENGTH BYTES  solves a text by itself
 *     under DECISIONS COUNT LITERAL ..    solves what was told so far, under literals
 *     explain DECISIONS COUNT LITERAL ..  tells why nothing is feasible under literals
 *     fixed AMONG DECISIONS COUNT LITERAL ..  tells which variables are fixed under literals
 *     suggest COUNT VALUE ..              suggests values
 *     new                                 forgets what was told
 *
 * Each report is followed by a line '= ANSWER'. told.rs does the same. */
#include "pbcube.h"

#include <inttypes.h>
#include <stdio.h>
#include <stdlib.h>
#include <string.h>

enum { MOST = 1 << 16 };

static char bytes[MOST];
static int32_t literals[MOST];
static int32_t core[MOST];

static int64_t number(void)
{
    int64_t read;
    if (scanf("%" SCNd64, &read) != 1)
        exit(2);
    return read;
}

static void expect(int is_right)
{
    if (!is_right)
        exit(3);
}

static void terms(pbcube *solver)
{
    for (int64_t left = number(); left > 0; left--) {
        int64_t coefficient = number();
        expect(pbcube_term(solver, coefficient, (int32_t)number()) == PBCUBE_OK);
    }
}

/* Reads literals, and answers how many. */
static size_t read_literals(void)
{
    size_t count = (size_t)number();
    expect(count <= MOST);
    for (size_t i = 0; i < count; i++)
        literals[i] = (int32_t)number();
    return count;
}

static void clause(pbcube *solver)
{
    size_t count = read_literals();
    expect(pbcube_clause(solver, literals, count) == PBCUBE_OK);
}

/* What was found, in the form of the program's reports of OPB. */
static void report(pbcube *solver, int answer, int has_objective)
{
    int64_t cost;
    char text[48] = "";
    size_t length = pbcube_cost_text(solver, text, sizeof text);
    if (length > 0 && has_objective)
        printf("o %.*s\n", (int)length, text);
    int code = pbcube_cost(solver, &cost);
    if (code == PBCUBE_OK)
        expect(strtoll(text, NULL, 10) == cost);
    else
        expect(length == 0 ? code == PBCUBE_NO_ANSWER : length >= 19 && code == PBCUBE_OUT_OF_RANGE);
    puts(answer == PBCUBE_OPTIMUM         ? "s OPTIMUM FOUND"
         : answer == PBCUBE_UNSATISFIABLE ? "s UNSATISFIABLE"
         : answer == PBCUBE_UNKNOWN       ? "s UNKNOWN"
                                          : "s SATISFIABLE");
    if (answer != PBCUBE_UNSATISFIABLE && answer != PBCUBE_UNKNOWN) {
        fputs("v", stdout);
        for (uint32_t variable = 1; variable <= pbcube_variables(solver); variable++)
            printf(" %sx%" PRIu32, pbcube_value(solver, variable) == 1 ? "" : "-", variable);
        puts("");
    }
    printf("= %d\n", answer);
}

static void text(pbcube *solver)
{
    int format = (int)number();
    uint64_t decisions = (uint64_t)number();
    size_t length = (size_t)number();
    expect(length <= MOST && getchar() == ' ' && fread(bytes, 1, length, stdin) == length);
    int answer = pbcube_run(solver, format, bytes, length, decisions);
    length = pbcube_report(solver, NULL, 0);
    expect(answer > 0 && length <= MOST && pbcube_report(solver, bytes, MOST) == length);
    fwrite(bytes, 1, length, stdout);
    printf("= %d\n", answer);
}

static void under(pbcube *solver, int has_objective)
{
    uint64_t decisions = (uint64_t)number();
    size_t count = read_literals();
    report(solver, pbcube_solve_under(solver, literals, count, decisions), has_objective);
}

static void explain(pbcube *solver)
{
    uint64_t decisions = (uint64_t)number();
    size_t count = read_literals(), core_count = 0;
    int answer = pbcube_explain(solver, literals, count, decisions, core, &core_count);
    fputs("core", stdout);
    for (size_t i = 0; i < core_count; i++)
        printf(" %" PRId32, core[i]);
    printf("\n= %d\n", answer);
}

static void fixed(pbcube *solver)
{
    int among = (int)number();
    uint64_t decisions = (uint64_t)number();
    size_t count = read_literals();
    int answer = pbcube_fixed(solver, literals, count, among, decisions, (uint8_t *)bytes, MOST);
    fputs("fixed ", stdout);
    for (uint32_t i = 0; answer != PBCUBE_UNSATISFIABLE && i < pbcube_variables(solver); i++)
        putchar('0' + bytes[i]);
    printf("\n= %d\n", answer);
}

/* Writes what was found last, its cost and its values, as a text. */
static void write_found(pbcube *solver, char *text)
{
    text += pbcube_cost_text(solver, text, MOST);
    for (uint32_t variable = 1; variable <= pbcube_variables(solver); variable++)
        text += sprintf(text, " %d", pbcube_value(solver, variable));
    *text = '\0';
}

/* Asks, and expects that what was found last stays. */
static void ask_beside(pbcube *solver, void (*question)(pbcube *))
{
    static char before[MOST], after[MOST];
    write_found(solver, before);
    question(solver);
    write_found(solver, after);
    expect(strcmp(before, after) == 0);
}

static void suggest(pbcube *solver)
{
    size_t count = read_literals();
    for (size_t i = 0; i < count; i++)
        bytes[i] = (char)literals[i];
    expect(pbcube_suggest(solver, (uint8_t *)bytes, count) == PBCUBE_OK);
}

/* Asks what the word says, and answers whether it is a question. */
static int ask(pbcube *solver, const char *word, int has_objective)
{
    if (strcmp(word, "under") == 0)
        under(solver, has_objective);
    else if (strcmp(word, "explain") == 0)
        ask_beside(solver, explain);
    else if (strcmp(word, "fixed") == 0)
        ask_beside(solver, fixed);
    else if (strcmp(word, "suggest") == 0)
        suggest(solver);
    else
        return 0;
    return 1;
}

int main(void)
{
    char word[16];
    int has_objective = 0;
    pbcube *solver = pbcube_new();
    expect(solver != NULL);
    while (scanf("%15s", word) == 1) {
        if (strcmp(word, "objective") == 0) {
            terms(solver);
            has_objective = 1;
            expect(pbcube_end_objective(solver) == PBCUBE_OK);
        } else if (strcmp(word, "sum") == 0) {
            int relation = (int)number();
            int64_t bound = number();
            terms(solver);
            expect(pbcube_end(solver, relation, bound) == PBCUBE_OK);
        } else if (strcmp(word, "clause") == 0) {
            clause(solver);
        } else if (strcmp(word, "solve") == 0 || strcmp(word, "new") == 0) {
            if (word[0] == 's')
                report(solver, pbcube_solve(solver, (uint64_t)number()), has_objective);
            pbcube_free(solver);
            solver = pbcube_new();
            has_objective = 0;
        } else if (!ask(solver, word, has_objective)) {
            text(solver);
        }
    }
    pbcube_free(solver);
    return 0;
}
