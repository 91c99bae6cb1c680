#ifndef DOT_H
#define DOT_H

#include "plan.h"

/* A plan as a picture, in Graphviz's language. */
void draw(FILE *to, const struct plan *plan);

#endif
