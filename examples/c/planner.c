/* A planner's call: five jobs go to three machines, each with a capacity, at the least cost.
 *
 *     bindings/c/build && cc -I bindings/c/include examples/c/planner.c bindings/c/out/libpbcube.a -o planner && ./planner
 *
 * Prints the plan, or why there is none, and exits with 0 where it is the cheapest one. */
#include "pbcube.h"

#include <stdio.h>

enum { JOBS = 5, MACHINES = 3 };

static const int64_t load[JOBS] = {4, 3, 5, 2, 4};
static const int64_t capacity[MACHINES] = {8, 7, 6};
static const int64_t cost[JOBS][MACHINES] = {{7, 4, 6}, {3, 5, 2}, {6, 6, 9}, {2, 3, 4}, {5, 8, 3}};

/* The variable that is 1 where the job runs on the machine. */
static int32_t runs_on(int job, int machine)
{
    return 1 + job * MACHINES + machine;
}

/* Tells the solver the plan's rules, up to the first call that is refused. */
static int tell(pbcube *solver)
{
    int code = PBCUBE_OK;
    for (int job = 0; job < JOBS; job++)
        for (int machine = 0; machine < MACHINES && !code; machine++)
            code = pbcube_term(solver, cost[job][machine], runs_on(job, machine));
    if (!code)
        code = pbcube_end_objective(solver);
    for (int job = 0; job < JOBS && !code; job++) { /* each job runs on one machine */
        for (int machine = 0; machine < MACHINES && !code; machine++)
            code = pbcube_term(solver, 1, runs_on(job, machine));
        if (!code)
            code = pbcube_end(solver, PBCUBE_EQUAL, 1);
    }
    for (int machine = 0; machine < MACHINES && !code; machine++) { /* and no machine takes more than it can */
        for (int job = 0; job < JOBS && !code; job++)
            code = pbcube_term(solver, load[job], runs_on(job, machine));
        if (!code)
            code = pbcube_end(solver, PBCUBE_AT_MOST, capacity[machine]);
    }
    if (!code) { /* the first job does not run beside the last */
        for (int machine = 0; machine < MACHINES && !code; machine++) {
            const int32_t apart[] = {-runs_on(0, machine), -runs_on(JOBS - 1, machine)};
            code = pbcube_clause(solver, apart, 2);
        }
    }
    return code;
}

static void print(pbcube *solver)
{
    int64_t least;
    if (pbcube_cost(solver, &least) == PBCUBE_OK)
        printf("cost %lld\n", (long long)least);
    for (int job = 0; job < JOBS; job++)
        for (int machine = 0; machine < MACHINES; machine++)
            if (pbcube_value(solver, (uint32_t)runs_on(job, machine)) == 1)
                printf("job %d on machine %d\n", job, machine);
}

int main(void)
{
    pbcube *solver = pbcube_new();
    int answer = solver ? tell(solver) : PBCUBE_MEMORY;
    if (answer == PBCUBE_OK)
        answer = pbcube_solve(solver, PBCUBE_NO_LIMIT);
    if (answer == PBCUBE_OPTIMUM)
        print(solver);
    else
        printf("no plan: %s\n", pbcube_name(answer));
    pbcube_free(solver);
    return answer == PBCUBE_OPTIMUM ? 0 : 1;
}
