/* A picture of grids of 128 voxels a side, as shells of clear tinted acrylic over a light floor. Only sums, products, quotients and square roots are taken, so that the
   picture is the same on every machine with IEEE's arithmetic. */
#ifndef VIEW_H
#define VIEW_H

#include <stdbool.h>

#include "vec.h"

enum { SIDE = 128, VOXELS = SIDE * SIDE * SIDE };

typedef struct {
    double r, g, b;
} colour;

/* values: signed distances in voxels, near the surface, of the voxel x * 128 * 128 + y * 128 + z, and beyond that only the sign. x_to and y_to: where the grid's x and y axes
   point in the room, whose axes are right, up, and towards the eye. right: how far right of the middle of the room this point of the grid is; mirrored: the grid is a mirror
   image, in z, and so is its place. cut: the normal of a plane through the same point in which the shell is opened, or 0. */
typedef struct {
    const float *values;
    vec x_to, y_to, middle, cut;
    double right;
    bool mirrored;
    colour tone;
} shell;

enum { SHELLS = 2, MOST_PIXELS = 1600 * 800 };

/* The value at a point between voxels. */
double field(const float *values, vec p);

/* At most MOST_PIXELS pixels of three bytes. */
void draw(const shell shells[SHELLS], int wide, int high, unsigned char *rgb);

#endif
