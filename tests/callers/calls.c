/* Calls each function of pbcube.h: in order, out of order, with null pointers and at the limits. Exits with the line of the first
 * answer that is not the expected one. Where requests for memory are refused (refusing.c) it only sees that each call answers. With
 * a word it tells as many constraints as there may be. */
#include "pbcube.h"

#include <stdbool.h>
#include <stdio.h>
#include <stdlib.h>
#include <string.h>

static bool some_are_refused;

#define EXPECT(is_right) \
    do { \
        bool right = (is_right); \
        if (!some_are_refused && !right) { \
            fprintf(stderr, "calls: line %d\n", __LINE__); \
            exit(1); \
        } \
    } while (0)

static void null_pointers(void)
{
    int64_t cost = 5;
    size_t count = 5;
    EXPECT(pbcube_term(NULL, 1, 1) == PBCUBE_NULL);
    EXPECT(pbcube_end(NULL, PBCUBE_AT_LEAST, 1) == PBCUBE_NULL);
    EXPECT(pbcube_end_objective(NULL) == PBCUBE_NULL);
    EXPECT(pbcube_clause(NULL, NULL, 0) == PBCUBE_NULL);
    EXPECT(pbcube_discard(NULL) == PBCUBE_NULL);
    EXPECT(pbcube_variables(NULL) == 0);
    EXPECT(pbcube_solve(NULL, PBCUBE_NO_LIMIT) == PBCUBE_NULL);
    EXPECT(pbcube_solve_under(NULL, NULL, 0, 0) == PBCUBE_NULL && pbcube_suggest(NULL, NULL, 0) == PBCUBE_NULL);
    EXPECT(pbcube_explain(NULL, NULL, 0, 0, NULL, &count) == PBCUBE_NULL && count == 5);
    EXPECT(pbcube_fixed(NULL, NULL, 0, PBCUBE_LEAST, 0, NULL, 0) == PBCUBE_NULL);
    EXPECT(pbcube_cost(NULL, &cost) == PBCUBE_NULL && cost == 5);
    EXPECT(pbcube_cost_text(NULL, NULL, 0) == 0);
    EXPECT(pbcube_value(NULL, 1) == PBCUBE_NULL);
    EXPECT(pbcube_run(NULL, PBCUBE_OPB, "", 0, 0) == PBCUBE_NULL);
    EXPECT(pbcube_report(NULL, NULL, 0) == 0);
    EXPECT(pbcube_hint(PBCUBE_OPB, NULL, 1, NULL, 0) == 0);
    pbcube_free(NULL);
}

static void in_order(pbcube *solver)
{
    const int32_t clause[] = {1, 2}, wrong[] = {1, 0};
    int64_t cost = 5;
    char text[8] = "";
    EXPECT(pbcube_variables(solver) == 0);
    EXPECT(pbcube_value(solver, 1) == PBCUBE_NO_ANSWER);
    EXPECT(pbcube_cost(solver, &cost) == PBCUBE_NO_ANSWER && cost == 5);
    EXPECT(pbcube_cost(solver, NULL) == PBCUBE_NULL);
    EXPECT(pbcube_term(solver, 3, 1) == PBCUBE_OK && pbcube_term(solver, 2, 2) == PBCUBE_OK);
    EXPECT(pbcube_term(solver, 1, 0) == PBCUBE_BAD_VARIABLE && pbcube_term(solver, 1, INT32_MIN) == PBCUBE_BAD_VARIABLE);
    EXPECT(pbcube_term(solver, 1, 1048577) == PBCUBE_BAD_VARIABLE);
    EXPECT(pbcube_clause(solver, clause, 2) == PBCUBE_UNENDED && pbcube_solve(solver, 0) == PBCUBE_UNENDED);
    EXPECT(pbcube_end(solver, 3, 0) == PBCUBE_BAD_ARGUMENT);
    EXPECT(pbcube_end_objective(solver) == PBCUBE_OK);
    EXPECT(pbcube_clause(solver, wrong, 2) == PBCUBE_BAD_VARIABLE && pbcube_clause(solver, NULL, 2) == PBCUBE_NULL);
    EXPECT(pbcube_clause(solver, clause, 2) == PBCUBE_OK && pbcube_variables(solver) == 2);
    EXPECT(pbcube_term(solver, 1, -9) == PBCUBE_OK && pbcube_discard(solver) == PBCUBE_OK && pbcube_variables(solver) == 2);
    EXPECT(pbcube_solve(solver, 0) == PBCUBE_UNKNOWN && pbcube_cost_text(solver, text, sizeof text) == 0);
    EXPECT(pbcube_solve(solver, PBCUBE_NO_LIMIT) == PBCUBE_OPTIMUM);
    EXPECT(pbcube_cost(solver, &cost) == PBCUBE_OK && cost == 2);
    EXPECT(pbcube_cost_text(solver, text, sizeof text) == 1 && text[0] == '2' && pbcube_cost_text(solver, NULL, 0) == 1);
    EXPECT(pbcube_value(solver, 1) == 0 && pbcube_value(solver, 2) == 1);
    EXPECT(pbcube_value(solver, 0) == PBCUBE_BAD_VARIABLE && pbcube_value(solver, 3) == PBCUBE_BAD_VARIABLE);
    EXPECT(pbcube_term(solver, 1, 1) == PBCUBE_OK && pbcube_solve(solver, 0) == PBCUBE_UNENDED);
    EXPECT(pbcube_discard(solver) == PBCUBE_OK);
    EXPECT(pbcube_value(solver, 2) == 1); /* as before */
    EXPECT(pbcube_solve(solver, 0) == PBCUBE_OPTIMUM); /* it is known, so it takes no decision */
    EXPECT(pbcube_clause(solver, clause, 2) == PBCUBE_OK && pbcube_value(solver, 2) == 1); /* as before */
    EXPECT(pbcube_solve(solver, 0) == PBCUBE_UNKNOWN && pbcube_value(solver, 1) == PBCUBE_NO_ANSWER); /* in place of the optimum */
    EXPECT(pbcube_cost(solver, &cost) == PBCUBE_NO_ANSWER && cost == 2);
}

/* min: 3 x1 + 2 x2 where x1 or x2 is 1, and x3 or x4. */
static void tell_pairs(pbcube *solver)
{
    const int32_t clause[] = {1, 2}, other[] = {3, 4};
    EXPECT(pbcube_term(solver, 3, 1) == PBCUBE_OK && pbcube_term(solver, 2, 2) == PBCUBE_OK);
    EXPECT(pbcube_end_objective(solver) == PBCUBE_OK);
    EXPECT(pbcube_clause(solver, clause, 2) == PBCUBE_OK && pbcube_clause(solver, other, 2) == PBCUBE_OK);
}

static void questions(pbcube *solver)
{
    const int32_t none[] = {-3, -1, -2, -1}, some[] = {-2, 9};
    const uint8_t values[] = {1, 0, 1, 0};
    int32_t core[4] = {7, 7, 7, 7};
    uint8_t statuses[5] = {9, 9, 9, 9, 9};
    int64_t cost = 5;
    size_t count = 9;
    tell_pairs(solver);
    EXPECT(pbcube_solve_under(solver, some, 2, PBCUBE_NO_LIMIT) == PBCUBE_OPTIMUM); /* no statement names x9 */
    EXPECT(pbcube_cost(solver, &cost) == PBCUBE_OK && cost == 3 && pbcube_value(solver, 9) == PBCUBE_BAD_VARIABLE);
    EXPECT(pbcube_explain(solver, some, 2, PBCUBE_NO_LIMIT, core, &count) == PBCUBE_SATISFIABLE && count == 9 && core[0] == 7);
    EXPECT(pbcube_explain(solver, none, 4, PBCUBE_NO_LIMIT, core, &count) == PBCUBE_UNSATISFIABLE && count == 2);
    EXPECT((core[0] == -2 && core[1] == -1 && core[2] == 7) || (core[0] == -1 && core[1] == -2 && core[2] == 7));
    EXPECT(pbcube_fixed(solver, some, 1, PBCUBE_FEASIBLE, PBCUBE_NO_LIMIT, statuses, 5) == PBCUBE_SATISFIABLE);
    EXPECT(statuses[0] == PBCUBE_TRUE && statuses[1] == PBCUBE_FALSE && statuses[2] == PBCUBE_FREE && statuses[4] == 9);
    EXPECT(pbcube_fixed(solver, NULL, 0, PBCUBE_LEAST, PBCUBE_NO_LIMIT, statuses, 1) == PBCUBE_SATISFIABLE);
    EXPECT(statuses[0] == PBCUBE_FALSE && statuses[1] == PBCUBE_FALSE); /* there was room for one */
    EXPECT(pbcube_fixed(solver, none, 4, PBCUBE_LEAST, PBCUBE_NO_LIMIT, statuses, 4) == PBCUBE_UNSATISFIABLE);
    EXPECT(statuses[3] == PBCUBE_FREE); /* as it was */
    EXPECT(pbcube_cost(solver, &cost) == PBCUBE_OK && cost == 3); /* what was found stays */
    EXPECT(pbcube_fixed(solver, NULL, 0, PBCUBE_FEASIBLE, 0, statuses, 4) == PBCUBE_UNKNOWN && statuses[0] == PBCUBE_NOT_KNOWN);
    EXPECT(pbcube_suggest(solver, values, 4) == PBCUBE_OK && pbcube_solve(solver, 0) == PBCUBE_FOUND);
    EXPECT(pbcube_cost(solver, &cost) == PBCUBE_OK && cost == 3 && pbcube_value(solver, 3) == 1);
    EXPECT(pbcube_explain(solver, none, 4, 0, core, &count) == PBCUBE_UNKNOWN || count <= 4);
    EXPECT(pbcube_clause(solver, none + 2, 1) == PBCUBE_OK && pbcube_solve(solver, PBCUBE_NO_LIMIT) == PBCUBE_OPTIMUM);
    EXPECT(pbcube_cost(solver, &cost) == PBCUBE_OK && cost == 3);
    pbcube_free(solver);
}

/* min: 3 x1 + 2 x2 where x1 or x2 is 1. */
static void tell_jobs(pbcube *solver)
{
    EXPECT(pbcube_term(solver, 3, 1) == PBCUBE_OK && pbcube_term(solver, 2, 2) == PBCUBE_OK);
    EXPECT(pbcube_end_objective(solver) == PBCUBE_OK);
    EXPECT(pbcube_term(solver, 1, 1) == PBCUBE_OK && pbcube_term(solver, 1, 2) == PBCUBE_OK);
    EXPECT(pbcube_end(solver, PBCUBE_AT_LEAST, 1) == PBCUBE_OK);
}

/* Whether something of this cost is found. */
static bool costs(pbcube *solver, int64_t cost)
{
    int64_t told = cost + 1;
    return pbcube_cost(solver, &told) == PBCUBE_OK && told == cost;
}

static void statements_after_questions(pbcube *solver)
{
    const int32_t first[] = {1};
    tell_jobs(solver);
    EXPECT(pbcube_solve(solver, PBCUBE_NO_LIMIT) == PBCUBE_OPTIMUM && costs(solver, 2));
    EXPECT(pbcube_term(solver, 1, 2) == PBCUBE_OK && pbcube_term(solver, 1, 3) == PBCUBE_OK);
    EXPECT(pbcube_solve_under(solver, first, 1, PBCUBE_NO_LIMIT) == PBCUBE_UNENDED);
    EXPECT(pbcube_end(solver, PBCUBE_AT_MOST, 0) == PBCUBE_OK);
    EXPECT(costs(solver, 2) && pbcube_variables(solver) == 3); /* what was found stays */
    EXPECT(pbcube_solve(solver, PBCUBE_NO_LIMIT) == PBCUBE_OPTIMUM && costs(solver, 3));
    EXPECT(pbcube_value(solver, 0) == PBCUBE_BAD_VARIABLE && pbcube_value(solver, 1) == 1);
    EXPECT(pbcube_value(solver, 2) == 0 && pbcube_value(solver, 3) == 0);
    pbcube_free(solver);
}

static void assumptions(pbcube *solver)
{
    const int32_t first[] = {1}, not_first[] = {-1}, not_second[] = {-2}, unnamed[] = {9}, none[] = {-2, -1, 3};
    int32_t core[3] = {7, 7, 7};
    uint8_t statuses[2] = {9, 9};
    size_t count = 9;
    tell_jobs(solver);
    EXPECT(pbcube_solve_under(solver, not_second, 1, PBCUBE_NO_LIMIT) == PBCUBE_OPTIMUM && costs(solver, 3));
    EXPECT(pbcube_solve_under(solver, first, 1, PBCUBE_NO_LIMIT) == PBCUBE_OPTIMUM && costs(solver, 3));
    EXPECT(pbcube_solve_under(solver, unnamed, 1, PBCUBE_NO_LIMIT) == PBCUBE_OPTIMUM && costs(solver, 2));
    EXPECT(pbcube_explain(solver, none, 3, PBCUBE_NO_LIMIT, core, &count) == PBCUBE_UNSATISFIABLE && count == 2);
    EXPECT(pbcube_fixed(solver, not_first, 1, PBCUBE_FEASIBLE, PBCUBE_NO_LIMIT, statuses, 2) == PBCUBE_SATISFIABLE);
    EXPECT(statuses[0] == PBCUBE_FALSE && statuses[1] == PBCUBE_TRUE);
    EXPECT(pbcube_fixed(solver, first, 1, PBCUBE_FEASIBLE, PBCUBE_NO_LIMIT, statuses, 2) == PBCUBE_SATISFIABLE);
    EXPECT(statuses[0] == PBCUBE_TRUE && statuses[1] == PBCUBE_FREE && costs(solver, 2));
    pbcube_free(solver);
}

/* Only the search that is cut ends with what was suggested. */
static void suggestions(pbcube *solver)
{
    const int32_t not_first[] = {-1};
    const uint8_t values[] = {1, 1, 0};
    tell_jobs(solver);
    EXPECT(pbcube_suggest(solver, values, 3) == PBCUBE_BAD_LENGTH && pbcube_suggest(solver, values, 2) == PBCUBE_OK);
    EXPECT(pbcube_solve(solver, 0) == PBCUBE_FOUND && costs(solver, 5));
    EXPECT(pbcube_solve_under(solver, not_first, 1, PBCUBE_NO_LIMIT) == PBCUBE_OPTIMUM && costs(solver, 2));
    EXPECT(pbcube_suggest(solver, values, 2) == PBCUBE_OK);
    EXPECT(pbcube_solve(solver, PBCUBE_NO_LIMIT) == PBCUBE_OPTIMUM && costs(solver, 2));
    pbcube_free(solver);
}

/* After each refusal everything is as it was. */
static void misuse(pbcube *solver)
{
    const int32_t zero[] = {1, 0}, great[] = {1048577}, one[] = {1};
    const uint8_t values[] = {1, 0, 1, 0, 1}, two[] = {1, 0, 2, 0};
    int32_t core[2] = {7, 7};
    uint8_t statuses[4] = {9, 9, 9, 9};
    int64_t cost = 5;
    size_t count = 9;
    tell_pairs(solver);
    EXPECT(pbcube_solve(solver, PBCUBE_NO_LIMIT) == PBCUBE_OPTIMUM);
    EXPECT(pbcube_solve_under(solver, zero, 2, 0) == PBCUBE_BAD_VARIABLE);
    EXPECT(pbcube_solve_under(solver, great, 1, 0) == PBCUBE_BAD_VARIABLE);
    EXPECT(pbcube_explain(solver, zero, 2, 0, core, &count) == PBCUBE_BAD_VARIABLE);
    EXPECT(pbcube_fixed(solver, great, 1, PBCUBE_LEAST, 0, statuses, 4) == PBCUBE_BAD_VARIABLE);
    EXPECT(pbcube_fixed(solver, one, 1, 2, 0, statuses, 4) == PBCUBE_BAD_ARGUMENT);
    EXPECT(pbcube_fixed(solver, one, 1, -1, 0, statuses, 4) == PBCUBE_BAD_ARGUMENT);
    EXPECT(pbcube_suggest(solver, values, 3) == PBCUBE_BAD_LENGTH && pbcube_suggest(solver, values, 5) == PBCUBE_BAD_LENGTH);
    EXPECT(pbcube_suggest(solver, NULL, 0) == PBCUBE_BAD_LENGTH && pbcube_suggest(solver, two, 4) == PBCUBE_BAD_ARGUMENT);
    EXPECT(pbcube_solve_under(solver, NULL, 1, 0) == PBCUBE_NULL && pbcube_suggest(solver, NULL, 4) == PBCUBE_NULL);
    EXPECT(pbcube_explain(solver, NULL, 1, 0, core, &count) == PBCUBE_NULL);
    EXPECT(pbcube_explain(solver, one, 1, 0, NULL, &count) == PBCUBE_NULL);
    EXPECT(pbcube_explain(solver, one, 1, 0, core, NULL) == PBCUBE_NULL);
    EXPECT(pbcube_fixed(solver, NULL, 1, PBCUBE_LEAST, 0, statuses, 4) == PBCUBE_NULL);
    EXPECT(pbcube_fixed(solver, one, 1, PBCUBE_LEAST, 0, NULL, 4) == PBCUBE_NULL);
    EXPECT(pbcube_term(solver, 1, 4) == PBCUBE_OK);
    EXPECT(pbcube_solve_under(solver, zero, 2, 0) == PBCUBE_UNENDED);
    EXPECT(pbcube_explain(solver, one, 1, 0, core, &count) == PBCUBE_UNENDED);
    EXPECT(pbcube_fixed(solver, one, 1, PBCUBE_LEAST, 0, statuses, 4) == PBCUBE_UNENDED);
    EXPECT(count == 9 && core[0] == 7 && core[1] == 7 && statuses[0] == 9 && statuses[3] == 9);
    EXPECT(pbcube_cost(solver, &cost) == PBCUBE_OK && cost == 2 && pbcube_variables(solver) == 4);
    EXPECT(pbcube_end(solver, PBCUBE_AT_LEAST, 1) == PBCUBE_OK); /* the term is still there */
    EXPECT(pbcube_solve(solver, PBCUBE_NO_LIMIT) == PBCUBE_OPTIMUM && pbcube_value(solver, 3) == 0 && pbcube_value(solver, 4) == 1);
    pbcube_free(solver);
}

static void great_costs(pbcube *solver)
{
    char text[24] = "";
    int64_t cost = 5;
    for (int i = 0; i < 3; i++)
        EXPECT(pbcube_term(solver, INT64_MIN, -1) == PBCUBE_OK);
    EXPECT(pbcube_end_objective(solver) == PBCUBE_OK && pbcube_clause(solver, NULL, 0) == PBCUBE_OK);
    EXPECT(pbcube_solve(solver, PBCUBE_NO_LIMIT) == PBCUBE_UNSATISFIABLE && pbcube_value(solver, 1) == PBCUBE_NO_ANSWER);
    pbcube_free(solver);
    solver = pbcube_new();
    for (int i = 0; i < 3; i++)
        EXPECT(pbcube_term(solver, INT64_MIN, -1) == PBCUBE_OK);
    EXPECT(pbcube_end_objective(solver) == PBCUBE_OK && pbcube_solve(solver, PBCUBE_NO_LIMIT) == PBCUBE_OPTIMUM);
    EXPECT(pbcube_cost(solver, &cost) == PBCUBE_OUT_OF_RANGE && cost == 5);
    EXPECT(pbcube_cost_text(solver, text, 3) == 21 && strcmp(text, "-27") == 0);
    EXPECT(pbcube_cost_text(solver, text, sizeof text) == 21 && strcmp(text, "-27670116110564327424") == 0);
    pbcube_free(solver);
}

/* Whether this is the report of the last text. */
static bool reports(pbcube *solver, const char *expected)
{
    char report[64] = "";
    return pbcube_report(solver, report, sizeof report) == strlen(expected) && memcmp(report, expected, strlen(expected)) == 0;
}

static void texts(pbcube *solver)
{
    static const char tie[] = "min: 2 x1 3 x2 1 x3 ;\n1 x1 1 x2 >= 1 ;\n1 x2 1 x3 >= 1 ;\n";
    static const char other[] = "min: 1 x1 ;\n1 y1 >= 1 ;\n";
    EXPECT(pbcube_report(solver, NULL, 0) == 0);
    EXPECT(pbcube_run(solver, PBCUBE_OPB, tie, strlen(tie), PBCUBE_NO_LIMIT) == PBCUBE_OPTIMUM);
    EXPECT(reports(solver, "o 3\ns OPTIMUM FOUND\nv -x1 x2 -x3\n"));
    EXPECT(pbcube_run(solver, 3, tie, strlen(tie), 0) == PBCUBE_BAD_ARGUMENT && pbcube_run(solver, 0, NULL, 1, 0) == PBCUBE_NULL);
    EXPECT(pbcube_run(solver, PBCUBE_OPB, "* a comment\n1 x1 x2 >= 1 ;", 26, 0) == PBCUBE_UNSUPPORTED);
    EXPECT(reports(solver, "c refused: NonLinear at line 2\ns UNSUPPORTED\n"));
    EXPECT(pbcube_run(solver, PBCUBE_CNF, "p cnf 2 1\n1 2 0\n", 16, PBCUBE_NO_LIMIT) == PBCUBE_SATISFIABLE);
    EXPECT(reports(solver, "s SATISFIABLE\nv -1 2 0\n"));
    EXPECT(pbcube_run(solver, PBCUBE_OPB, other, strlen(other), PBCUBE_NO_LIMIT) == PBCUBE_UNSUPPORTED);
    EXPECT(reports(solver, "c refused: Syntax at line 2\ns UNSUPPORTED\n"));
    EXPECT(pbcube_run(solver, PBCUBE_OPB, NULL, 0, PBCUBE_NO_LIMIT) == PBCUBE_SATISFIABLE);
    pbcube_free(solver);
}

/* Whether this is the hint on a text, and its length is answered where there is less room and none. */
static bool hints(int format, const char *text, const char *expected)
{
    char all[128] = "", few[4] = "";
    size_t length = strlen(text);
    return pbcube_hint(format, text, length, all, sizeof all) == strlen(expected) && strcmp(all, expected) == 0
        && pbcube_hint(format, text, length, few, 3) == strlen(expected) && strncmp(few, expected, 3) == 0 && few[3] == 0
        && pbcube_hint(format, text, length, NULL, 9) == strlen(expected);
}

static void hinted_texts(void)
{
    EXPECT(hints(PBCUBE_OPB, "1 x1 > 0 ;", "line 1, column 6: '>': write >= and the least number allowed, as >= 2 for > 1"));
    EXPECT(hints(PBCUBE_ICNF, "p cnf 1 1\n1 0\n", "the text begins as DIMACS CNF: give --format cnf"));
    EXPECT(hints(PBCUBE_OPB, "1 x1 >= 0 ;", "") && hints(PBCUBE_OPB, "", "") && hints(3, "1 x1 > 0 ;", ""));
    EXPECT(pbcube_hint(PBCUBE_OPB, NULL, 0, NULL, 0) == 0);
}

static void limits(pbcube *solver)
{
    enum { MOST_CONSTRAINTS = 4194304 };
    for (int i = 0; i < MOST_CONSTRAINTS; i++)
        EXPECT(pbcube_end(solver, PBCUBE_AT_LEAST, 0) == PBCUBE_OK);
    EXPECT(pbcube_end(solver, PBCUBE_AT_LEAST, 0) == PBCUBE_TOO_MANY && pbcube_clause(solver, NULL, 0) == PBCUBE_TOO_MANY);
    EXPECT(pbcube_term(solver, 1, -1048576) == PBCUBE_OK && pbcube_end_objective(solver) == PBCUBE_OK);
    EXPECT(pbcube_solve(solver, PBCUBE_NO_LIMIT) == PBCUBE_OPTIMUM && pbcube_value(solver, 1048576) == 1);
    pbcube_free(solver);
}

int main(int count, char **words)
{
    some_are_refused = getenv("REFUSE_AT") != NULL;
    if (count > 1 && words[1]) {
        limits(pbcube_new());
        return 0;
    }
    null_pointers();
    pbcube *solver = pbcube_new();
    in_order(solver);
    pbcube_free(solver);
    questions(pbcube_new());
    statements_after_questions(pbcube_new());
    assumptions(pbcube_new());
    suggestions(pbcube_new());
    misuse(pbcube_new());
    great_costs(pbcube_new());
    texts(pbcube_new());
    hinted_texts();
    for (int number = -12; number < 42; number++)
        EXPECT(pbcube_name(number)[0] != '\0');
    EXPECT(strcmp(pbcube_version(), PBCUBE_VERSION) == 0);
    return 0;
}
