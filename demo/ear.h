/* The parts of a custom shell, as signed distances in voxels: negative inside. A voxel is 0.2 mm, a grid 25.6 mm a side.

   x goes from the faceplate along the ear canal, y up, z to the front of the head, or, in the right ear, to its back. Between two points no distance changes by more than
   how far they are apart. */
#ifndef EAR_H
#define EAR_H

#include <stdbool.h>

#include "vec.h"

/* IMPRESSION: the cast of the ear, longer than the shell. LOCK: the horn that holds the shell in the ear. FACEPLATE: the half space in which the shell ends. CAVITY: the
   impression less the wall, with the bore for the sound. SLEEVE: the vent with its wall. VENT: the way of the air beside the cavity, from the faceplate to the tip. */
typedef enum { IMPRESSION, LOCK, FACEPLATE, CAVITY, SLEEVE, VENT, PARTS } part;

/* All balls from one to another, whose radii change evenly: where the first is, the direction and the distance to the last, the first radius, and its loss a voxel. */
typedef struct {
    vec from, way;
    double length, radius, loss, slant;
} cone;

enum { CANAL = 24, LOBES = 4, HORN = 3, VENT_CONES = CANAL + 1 };

typedef struct {
    bool mirrored;
    cone canal[CANAL], lobes[LOBES], horn[HORN], vent[VENT_CONES], bore;
    vec plate_at, plate_normal;
} ear_shape;

extern const double VOXEL_MM, WALL;

ear_shape left_ear(void);
ear_shape right_ear(void);
void distances(const ear_shape *e, vec p, double to[PARTS]);

#endif
