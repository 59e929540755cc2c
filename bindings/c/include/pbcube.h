/* pbcube: a pseudo-Boolean optimiser whose answer is proved, for C and C++.
 *
 * A solver is told linear constraints over variables with the values 0 and 1, and finds the least cost and, among the
 * assignments of that cost, the first one: at the first variable where two differ, the one with 0 comes first.
 *
 * A literal is n for variable n and -n for its negation, which is worth 1 where the variable is 0; n is from 1 to 1048576.
 * There are as many variables as the greatest one that a statement names. The absolute numbers of a constraint, its bound
 * included, add up to at most 2^126 - 1, as do those of the objective; there are at most 4194304 constraints, and 16777216
 * terms. Nothing is printed. Link libpbcube.a; no thread is started, and memory comes from malloc.
 *
 * Statements may follow questions, and questions statements. A call that answers a number below 0 changed nothing. A solver is
 * owned by its caller until pbcube_free, and everything that it gives is copied. It may go from thread to thread, but is in one
 * call at a time. To share work among threads, give each a solver of its own with the same statements and one cube of the division
 * as unit clauses, and take the answer that comes first: the least cost, and of equal costs the one with 0 at the first variable
 * where they differ. */
#ifndef PBCUBE_H
#define PBCUBE_H

#include <stddef.h>
#include <stdint.h>

#ifdef __cplusplus
extern "C" {
#endif

typedef struct pbcube pbcube;

enum pbcube_answer { /* of pbcube_solve, pbcube_solve_under and pbcube_run; the other questions say what they mean by them */
    PBCUBE_UNKNOWN = 1,        /* the search was cut by its budget, and found nothing; or of pbcube_run: memory was refused */
    PBCUBE_SATISFIABLE = 10,   /* there is no objective; the first feasible assignment was found */
    PBCUBE_FOUND = 11,         /* the search was cut; what was found is feasible, and may not be the least */
    PBCUBE_UNSATISFIABLE = 20, /* no assignment is feasible */
    PBCUBE_CORE = 21,          /* of pbcube_explain: none is feasible under the core, which may not be minimal */
    PBCUBE_OPTIMUM = 30,       /* the least assignment was found */
    PBCUBE_UNSUPPORTED = 40    /* the text was refused; its report says why, and at which line */
};

enum pbcube_code { /* of every call that answers an int */
    PBCUBE_OK = 0,
    PBCUBE_BAD_VARIABLE = -1,  /* a variable is 0, over 1048576, or for pbcube_value over the number of variables */
    PBCUBE_TOO_LARGE = -2,     /* the absolute numbers of a statement add up to more than 2^126 - 1 (it takes over 2^62 terms) */
    PBCUBE_TOO_MANY = -3,      /* there would be more constraints or terms than the limit */
    PBCUBE_MEMORY = -4,        /* memory was refused */
    PBCUBE_UNENDED = -5,       /* terms were given, and their sum was not ended */
    PBCUBE_NO_ANSWER = -7,     /* nothing was found */
    PBCUBE_BAD_ARGUMENT = -8,  /* a relation, a format or what is asked about is none of those below; a value is not 0 or 1 */
    PBCUBE_OUT_OF_RANGE = -9,  /* the cost does not fit int64_t: pbcube_cost_text gives it */
    PBCUBE_NULL = -10,         /* a pointer is null */
    PBCUBE_BAD_LENGTH = -11    /* there is not one value for each variable */
};

enum pbcube_relation { PBCUBE_AT_LEAST = 0, PBCUBE_AT_MOST = 1, PBCUBE_EQUAL = 2 };
enum pbcube_format { PBCUBE_OPB = 0, PBCUBE_CNF = 1, PBCUBE_ICNF = 2 };
enum pbcube_among { PBCUBE_FEASIBLE = 0, PBCUBE_LEAST = 1 };
enum pbcube_status { PBCUBE_FALSE = 0, PBCUBE_TRUE = 1, PBCUBE_FREE = 2, PBCUBE_NOT_KNOWN = 3 };

#define PBCUBE_NO_LIMIT UINT64_MAX
#define PBCUBE_VERSION "1.0.0"

/* Making and freeing. A null pointer is made where memory is refused, and may be freed. */
pbcube *pbcube_new(void);
void pbcube_free(pbcube *solver);

/* Telling. A sum is given term by term, and then ended: as a constraint, or as the objective, in place of one told before. An
 * empty sum is 0. Where an end is refused, the terms are still there: pbcube_discard forgets them. A clause is at least one true
 * literal; it is refused as PBCUBE_UNENDED within a sum. */
int pbcube_term(pbcube *solver, int64_t coefficient, int32_t literal);
int pbcube_end(pbcube *solver, int relation, int64_t bound);
int pbcube_end_objective(pbcube *solver);
int pbcube_clause(pbcube *solver, const int32_t *literals, size_t count);
int pbcube_discard(pbcube *solver);
uint32_t pbcube_variables(pbcube *solver); /* how many there are so far; of null 0 */

/* Solving, with at most this many decisions, or PBCUBE_NO_LIMIT. What was found is kept until a later search ends, which also
 * takes it away where that one finds nothing. pbcube_solve_under searches among the assignments that make the literals true; a
 * literal of a variable that no statement names is left out. From one question to the next, up to the next statement, a solver
 * keeps its search. */
int pbcube_solve(pbcube *solver, uint64_t decisions);
int pbcube_solve_under(pbcube *solver, const int32_t *literals, size_t count, uint64_t decisions);

/* Values that searches try first: a byte 0 or 1 for each variable there is. Only a search that is cut depends on them. */
int pbcube_suggest(pbcube *solver, const uint8_t *values, size_t count);

/* Why nothing is feasible under the literals: PBCUBE_UNSATISFIABLE or PBCUBE_CORE, with some of them that are enough for that
 * in the core and their number in core_count. With PBCUBE_UNSATISFIABLE the core is minimal: something is feasible once any one
 * of its literals is left out. The core is another array with room for `count` literals. PBCUBE_SATISFIABLE, where something is
 * feasible, and PBCUBE_UNKNOWN write nothing. */
int pbcube_explain(pbcube *solver, const int32_t *literals, size_t count, uint64_t decisions, int32_t *core, size_t *core_count);

/* Which variables have one value in all assignments that are asked about: all that are feasible under the literals, or those of
 * them that cost least. PBCUBE_SATISFIABLE writes a pbcube_status for each variable, that of variable 1 first, as many as fit;
 * PBCUBE_UNKNOWN too, with PBCUBE_NOT_KNOWN among them; PBCUBE_UNSATISFIABLE, where nothing is feasible, writes nothing. What was
 * found before stays with this question and the one above. */
int pbcube_fixed(pbcube *solver, const int32_t *literals, size_t count, int among, uint64_t decisions,
                 uint8_t *statuses, size_t size);

/* Reading what was found. The cost is 0 without an objective; where an error is answered none is written. A value is 0 or 1. The
 * text of the cost is decimal, of at most 39 bytes: as many of them as fit are written, with no zero at the end, and its length is
 * answered, 0 where nothing was found or the solver is null. Where the text is null nothing is written, whatever its size, and the
 * length is answered all the same. */
int pbcube_cost(pbcube *solver, int64_t *cost);
size_t pbcube_cost_text(pbcube *solver, char *text, size_t size);
int pbcube_value(pbcube *solver, uint32_t variable);

/* The short way: solves a text by itself, apart from what the solver was told, and keeps its report, which is what the program
 * pbcube prints of such a file: where memory is refused it may say so ("c refused: Memory"), with the answer PBCUBE_UNKNOWN.
 * pbcube_report writes it as pbcube_cost_text does the cost, up to the next pbcube_run: with no zero at the end, and its whole
 * length is answered, which may be more than fit. */
int pbcube_run(pbcube *solver, int format, const char *text, size_t length, uint64_t decisions);
size_t pbcube_report(pbcube *solver, char *text, size_t size);

/* The hint that the program gives on its standard error where it refuses this text, with "the text" in place of a file's name: which
 * word or which rule is likely the one to correct, and what to write. It is written as the report is, in printable ASCII; its length
 * is 0 where there is none, as for a text that is not refused. */
size_t pbcube_hint(int format, const char *text, size_t length, char *hint, size_t size);

/* The name of an answer or a code, as "BadVariable"; never null, and never freed. */
const char *pbcube_name(int number);

/* The version of the library: the PBCUBE_VERSION of the header that it was built with; never null, and never freed. */
const char *pbcube_version(void);

#ifdef __cplusplus
}
#endif
#endif
