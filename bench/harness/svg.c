// Panels three in a row. The product's line is whole, plain C's is dashed; each decade has a grid line.
#include "svg.h"
#include <math.h>
#include <stdio.h>

enum { WIDTH = 300, HEIGHT = 220, LEFT = 52, RIGHT = 24, TOP = 28, BOTTOM = 30, COLUMNS = 3 };

typedef struct {
    double low_x, high_x, low_y, high_y;
} Frame;

static double place_x(const Frame *f, double x) { return LEFT + (WIDTH - LEFT - RIGHT) * (log10(x) - f->low_x) / (f->high_x - f->low_x); }
static double place_y(const Frame *f, double y) { return HEIGHT - BOTTOM - (HEIGHT - TOP - BOTTOM) * (log10(y) - f->low_y) / (f->high_y - f->low_y); }

static Frame frame(const Panel *p) {
    Frame f = {1e9, -1e9, 1e9, -1e9};
    for (int i = 0; i < p->count; i++) {
        const Point *q = &p->point[i];
        double low = q->product < q->twin ? q->product : q->twin, high = q->product < q->twin ? q->twin : q->product;
        if (log10(q->x) < f.low_x) f.low_x = log10(q->x);
        if (log10(q->x) > f.high_x) f.high_x = log10(q->x);
        if (log10(low) < f.low_y) f.low_y = log10(low);
        if (log10(high) > f.high_y) f.high_y = log10(high);
    }
    f.low_y = floor(f.low_y);
    f.high_y = ceil(f.high_y);
    if (f.high_x <= f.low_x) f.high_x = f.low_x + 1;
    if (f.high_y <= f.low_y) f.high_y = f.low_y + 1;
    return f;
}

static void label_time(FILE *out, double x, double y, double decade) {
    static const char *unit[] = {"ns", "&#181;s", "ms", "s"};
    int d = (int)decade, u = d / 3 > 3 ? 3 : d / 3;
    fprintf(out, "<text x='%.1f' y='%.1f' text-anchor='end'>%g %s</text>\n", x, y, pow(10, d - 3 * u), unit[u]);
}

static void line(FILE *out, const Panel *p, const Frame *f, int twin) {
    fprintf(out, "<polyline fill='none' stroke='%s' stroke-width='1.6'%s points='", twin ? "#888" : "#0b5394", twin ? " stroke-dasharray='4 3'" : "");
    for (int i = 0; i < p->count; i++) {
        const Point *q = &p->point[i];
        fprintf(out, "%.1f,%.1f ", place_x(f, q->x), place_y(f, twin ? q->twin : q->product));
    }
    fprintf(out, "'/>\n");
}

static void draw(FILE *out, const Panel *p, int i) {
    Frame f = frame(p);
    fprintf(out, "<g transform='translate(%d,%d)'>\n<text x='%d' y='16' font-weight='bold'>%s</text>\n", i % COLUMNS * WIDTH, i / COLUMNS * HEIGHT, LEFT, p->title);
    fprintf(out, "<rect x='%d' y='%d' width='%d' height='%d' fill='none' stroke='#444'/>\n", LEFT, TOP, WIDTH - LEFT - RIGHT, HEIGHT - TOP - BOTTOM);
    for (double d = f.low_y; d <= f.high_y; d++) {
        double y = place_y(&f, pow(10, d));
        fprintf(out, "<line x1='%d' x2='%d' y1='%.1f' y2='%.1f' stroke='#ddd'/>\n", LEFT, WIDTH - RIGHT, y, y);
        label_time(out, LEFT - 4, y + 4, d);
    }
    double last = -100;
    for (int q = 0; q < p->count; q++) {
        double x = place_x(&f, p->point[q].x);
        if (x - last < 34) continue; // no room for its number
        last = x;
        fprintf(out, "<text x='%.1f' y='%d' text-anchor='middle'>%.0f</text>\n", x, HEIGHT - BOTTOM + 14, p->point[q].x);
    }
    line(out, p, &f, 1);
    line(out, p, &f, 0);
    fprintf(out, "</g>\n");
}

int write_svg(const char *path, const Panel *panel, int count) {
    FILE *out = fopen(path, "w");
    if (!out) return 1;
    int rows = (count + COLUMNS - 1) / COLUMNS;
    fprintf(out, "<svg xmlns='http://www.w3.org/2000/svg' width='%d' height='%d' font-family='sans-serif' font-size='10'>\n", COLUMNS * WIDTH, rows * HEIGHT + 20);
    fprintf(out, "<rect width='100%%' height='100%%' fill='white'/>\n");
    for (int i = 0; i < count; i++) draw(out, &panel[i], i);
    fprintf(out, "<text x='%d' y='%d'>whole line: the product; dashed: the same in plain C; both axes logarithmic</text>\n</svg>\n", LEFT, rows * HEIGHT + 10);
    return fclose(out) != 0;
}
