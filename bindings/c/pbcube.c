/* The calls of pbcube.h: each tests its pointers, and then makes the proved call of crates/pb_c/src. */
#include "pbcube.h"

#include <stdlib.h>

/* Laid out like Solver in crates/pb_c/src/solver.rt: where all bytes are 0 there is no session. */
struct pbcube {
    void *session;
    uint32_t made;
};

/* The exports of crates/pb_c/src. A slice is a pointer, which is never null, and a length. */
int32_t pb_c_new(pbcube *solver);
void pb_c_free(pbcube *solver);
int32_t pb_c_term(pbcube *solver, int64_t coefficient, int32_t literal);
int32_t pb_c_end(pbcube *solver, int32_t relation, int64_t bound);
int32_t pb_c_end_objective(pbcube *solver);
int32_t pb_c_clause(pbcube *solver, const int32_t *literals, size_t count);
int32_t pb_c_discard(pbcube *solver);
uint32_t pb_c_variables(pbcube *solver);
int32_t pb_c_solve(pbcube *solver, uint64_t nodes);
int32_t pb_c_solve_under(pbcube *solver, const int32_t *literals, size_t count, uint64_t nodes);
int32_t pb_c_suggest(pbcube *solver, const uint8_t *values, size_t count);
int32_t pb_c_explain(pbcube *solver, const int32_t *literals, size_t count, uint64_t nodes,
                     int32_t *core, size_t room, size_t *core_count);
int32_t pb_c_fixed(pbcube *solver, const int32_t *literals, size_t count, int32_t among, uint64_t nodes,
                   uint8_t *statuses, size_t room);
int32_t pb_c_cost(pbcube *solver, int64_t *cost);
size_t pb_c_cost_text(pbcube *solver, char *room, size_t size);
int32_t pb_c_value(pbcube *solver, uint32_t variable);
int32_t pb_c_run(pbcube *solver, int32_t format, const char *text, size_t length, uint64_t nodes);
size_t pb_c_report(pbcube *solver, char *room, size_t size);
size_t pb_c_hint(int32_t format, const char *text, size_t length, char *room, size_t size);

pbcube *pbcube_new(void)
{
    pbcube *solver = calloc(1, sizeof *solver);
    if (solver && pb_c_new(solver) != PBCUBE_OK) {
        free(solver);
        return NULL;
    }
    return solver;
}

void pbcube_free(pbcube *solver)
{
    if (solver)
        pb_c_free(solver);
    free(solver);
}

int pbcube_term(pbcube *solver, int64_t coefficient, int32_t literal)
{
    return solver ? pb_c_term(solver, coefficient, literal) : PBCUBE_NULL;
}

int pbcube_end(pbcube *solver, int relation, int64_t bound)
{
    return solver ? pb_c_end(solver, relation, bound) : PBCUBE_NULL;
}

int pbcube_end_objective(pbcube *solver)
{
    return solver ? pb_c_end_objective(solver) : PBCUBE_NULL;
}

/* The array, or where it is empty a pointer that is not null. */
static const int32_t *array_of(const int32_t *literals, size_t count)
{
    static const int32_t none = 0;
    return count > 0 ? literals : &none;
}

int pbcube_clause(pbcube *solver, const int32_t *literals, size_t count)
{
    if (!solver || (!literals && count > 0))
        return PBCUBE_NULL;
    return pb_c_clause(solver, array_of(literals, count), count);
}

int pbcube_discard(pbcube *solver)
{
    return solver ? pb_c_discard(solver) : PBCUBE_NULL;
}

uint32_t pbcube_variables(pbcube *solver)
{
    return solver ? pb_c_variables(solver) : 0;
}

int pbcube_solve(pbcube *solver, uint64_t decisions)
{
    return solver ? pb_c_solve(solver, decisions) : PBCUBE_NULL;
}

int pbcube_solve_under(pbcube *solver, const int32_t *literals, size_t count, uint64_t decisions)
{
    if (!solver || (!literals && count > 0))
        return PBCUBE_NULL;
    return pb_c_solve_under(solver, array_of(literals, count), count, decisions);
}

int pbcube_suggest(pbcube *solver, const uint8_t *values, size_t count)
{
    static const uint8_t none = 0;
    if (!solver || (!values && count > 0))
        return PBCUBE_NULL;
    return pb_c_suggest(solver, count > 0 ? values : &none, count);
}

int pbcube_explain(pbcube *solver, const int32_t *literals, size_t count, uint64_t decisions, int32_t *core, size_t *core_count)
{
    int32_t none;
    if (!solver || !core_count || ((!literals || !core) && count > 0))
        return PBCUBE_NULL;
    return pb_c_explain(solver, array_of(literals, count), count, decisions, count > 0 ? core : &none, count, core_count);
}

int pbcube_fixed(pbcube *solver, const int32_t *literals, size_t count, int among, uint64_t decisions,
                 uint8_t *statuses, size_t size)
{
    uint8_t none;
    if (!solver || (!literals && count > 0) || (!statuses && size > 0))
        return PBCUBE_NULL;
    return pb_c_fixed(solver, array_of(literals, count), count, among, decisions, size > 0 ? statuses : &none, size);
}

int pbcube_cost(pbcube *solver, int64_t *cost)
{
    return solver && cost ? pb_c_cost(solver, cost) : PBCUBE_NULL;
}

size_t pbcube_cost_text(pbcube *solver, char *text, size_t size)
{
    char none;
    return solver ? pb_c_cost_text(solver, text ? text : &none, text ? size : 0) : 0;
}

int pbcube_value(pbcube *solver, uint32_t variable)
{
    return solver ? pb_c_value(solver, variable) : PBCUBE_NULL;
}

int pbcube_run(pbcube *solver, int format, const char *text, size_t length, uint64_t decisions)
{
    if (!solver || (!text && length > 0))
        return PBCUBE_NULL;
    return pb_c_run(solver, format, length > 0 ? text : "", length, decisions);
}

size_t pbcube_report(pbcube *solver, char *text, size_t size)
{
    char none;
    return solver ? pb_c_report(solver, text ? text : &none, text ? size : 0) : 0;
}

size_t pbcube_hint(int format, const char *text, size_t length, char *hint, size_t size)
{
    char none;
    if (!text && length > 0)
        return 0;
    return pb_c_hint(format, length > 0 ? text : "", length, hint ? hint : &none, hint ? size : 0);
}

const char *pbcube_name(int number)
{
    switch (number) {
    case PBCUBE_OK: return "OK";
    case PBCUBE_UNKNOWN: return "Unknown";
    case PBCUBE_SATISFIABLE: return "Satisfiable";
    case PBCUBE_FOUND: return "Found";
    case PBCUBE_UNSATISFIABLE: return "Unsatisfiable";
    case PBCUBE_CORE: return "Core";
    case PBCUBE_OPTIMUM: return "Optimum";
    case PBCUBE_UNSUPPORTED: return "Unsupported";
    case PBCUBE_BAD_VARIABLE: return "BadVariable";
    case PBCUBE_TOO_LARGE: return "TooLarge";
    case PBCUBE_TOO_MANY: return "TooMany";
    case PBCUBE_MEMORY: return "Memory";
    case PBCUBE_UNENDED: return "Unended";
    case PBCUBE_NO_ANSWER: return "NoAnswer";
    case PBCUBE_BAD_ARGUMENT: return "BadArgument";
    case PBCUBE_OUT_OF_RANGE: return "OutOfRange";
    case PBCUBE_NULL: return "Null";
    case PBCUBE_BAD_LENGTH: return "BadLength";
    default: return "unnamed";
    }
}

const char *pbcube_version(void)
{
    return PBCUBE_VERSION;
}
