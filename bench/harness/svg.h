// A picture of panels with logarithmic axes, two lines each.
#ifndef SVG_H
#define SVG_H

enum { MOST_POINTS = 16 };

typedef struct {
    double x, product, twin;
} Point;

typedef struct {
    const char *title;
    int count;
    Point point[MOST_POINTS];
} Panel;

int write_svg(const char *path, const Panel *panel, int count); // 0 when written

#endif
