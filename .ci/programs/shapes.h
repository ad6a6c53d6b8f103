#ifndef SHAPES_H
#define SHAPES_H

struct point { int x, y; };
enum colour { RED, GREEN = 7, BLUE };
typedef struct point point_t;
union either { int number; float real; };

int area(point_t *p, enum colour c);
extern int counter;

#endif
