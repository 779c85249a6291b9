/* Points in the plane and distances between them, given to SolveSpace's solver. */
#include <math.h>
#include <stddef.h>
#include <stdint.h>
#include <string.h>
#include <time.h>

#include <slvs.h>

enum { MOST_POINTS = 64, MOST_DISTANCES = 200 };

/* Groups: the plane stands still, the points are solved. */
enum { FIXED = 1, SOLVED = 2 };
/* Entities. Point i is FIRST_POINT + i. */
enum { ORIGIN = 1, NORMAL, PLANE, FIRST_POINT };
/* Parameters: three for the origin, four for the normal. Point i has FIRST_PLACE + 2i and the next. */
enum { ORIGIN_PLACE = 1, NORMAL_TURN = 4, FIRST_PLACE = 8 };

/* Solves n points, laid out at the given places, with a distance for each of the e pairs: the one it has in the
   layout, so that nothing contradicts. If rough is not 0 the distances are rounded to whole numbers, as a sheet holds
   them, and each point starts from the nearest point of a grid of ten, as a drawing has it. The result is libslvs' own
   number, and *dof the degrees of freedom it counts, the three motions of the whole plane among them. It is not asked
   which constraints are to blame, as that takes e times as long. */
int32_t solver_solve(size_t n, const double (*at)[2], size_t e, const uint8_t (*pairs)[2], int32_t rough, int32_t *dof)
{
    Slvs_Param params[FIRST_PLACE + 2 * MOST_POINTS];
    Slvs_Entity entities[FIRST_POINT + MOST_POINTS];
    Slvs_Constraint constraints[MOST_DISTANCES];
    Slvs_System system;

    memset(&system, 0, sizeof system);
    system.param = params;
    system.entity = entities;
    system.constraint = constraints;

    for (uint32_t i = 0; i < 7; i++)
        params[system.params++] = Slvs_MakeParam(ORIGIN_PLACE + i, FIXED, ORIGIN_PLACE + i == NORMAL_TURN);
    entities[system.entities++] = Slvs_MakePoint3d(ORIGIN, FIXED, ORIGIN_PLACE, ORIGIN_PLACE + 1, ORIGIN_PLACE + 2);
    entities[system.entities++] =
        Slvs_MakeNormal3d(NORMAL, FIXED, NORMAL_TURN, NORMAL_TURN + 1, NORMAL_TURN + 2, NORMAL_TURN + 3);
    entities[system.entities++] = Slvs_MakeWorkplane(PLANE, FIXED, ORIGIN, NORMAL);

    for (uint32_t i = 0; i < n; i++) {
        uint32_t place = FIRST_PLACE + 2 * i;
        for (uint32_t k = 0; k < 2; k++)
            params[system.params++] = Slvs_MakeParam(place + k, SOLVED, rough ? 10 * round(at[i][k] / 10) : at[i][k]);
        entities[system.entities++] = Slvs_MakePoint2d(FIRST_POINT + i, SOLVED, PLANE, place, place + 1);
    }
    for (uint32_t i = 0; i < e; i++) {
        uint32_t a = pairs[i][0], b = pairs[i][1];
        double exact = hypot(at[a][0] - at[b][0], at[a][1] - at[b][1]);
        double distance = rough ? fmax(round(exact), 1) : exact;
        constraints[system.constraints++] = Slvs_MakeConstraint(i + 1, SOLVED, SLVS_C_PT_PT_DISTANCE, PLANE, distance,
                                                                FIRST_POINT + a, FIRST_POINT + b, 0, 0);
    }

    Slvs_Solve(&system, SOLVED);
    *dof = system.dof;
    return system.result;
}

/* The processor time that this program has had, in nanoseconds. */
double solver_clock(void)
{
    return 1e9 * (double)clock() / CLOCKS_PER_SEC;
}
