/* Images, tensors and filters, with records and walking pointers. */
#include <string.h>
#define SQUARE(x) ((x) * (x))
#define TAPS 8
struct tensor { int rows, columns; float *data; };
struct image { int width, height, pitch; unsigned char *pixels; };
struct colour { float r, g, b; };
struct layer { struct tensor in, out; float *weights; int stride; };

void convolution(struct tensor *in, struct tensor *out, const float *kernel, int r)
{
    for (int y = 0; y < out->rows; y++)
        for (int x = 0; x < out->columns; x++) {
            float *o = out->data + y * out->columns + x;
            *o = 0;
            for (int dy = 0; dy < r; dy++)
                for (int dx = 0; dx < r; dx++)
                    *o += in->data[(y + dy) * in->columns + x + dx] * kernel[dy * r + dx];
        }
}

void layered(struct layer *l, int n)
{
    for (int i = 0; i < l->out.rows; i++)
        for (int j = 0; j < l->in.rows; j++)
            l->out.data[i] += l->weights[i * l->in.rows + j] * l->in.data[j];
}

void brighter(struct image *im, int by)
{
    unsigned char *row = im->pixels;
    for (int y = 0; y < im->height; y++) {
        for (int x = 0; x < im->width; x++)
            row[x] = row[x] + by;
        row += im->pitch;
    }
}

void grey(const struct colour *in, float *out, unsigned n)
{
    for (unsigned i = 0; i < n; ++i)
        out[i] = 0.3f * in[i].r + 0.6f * in[i].g + 0.1f * in[i].b;
}

void mirrored(int w, int h, const float *in, float *out)
{
    for (int i = 0; i < h; i++)
        for (int j = 0; j < w; j++)
            out[i * w + j] = in[i * w + (w - 1 - j)];
}

void above(int w, int h, float *a)
{
    for (int y = 1; y < h; y++)
        for (int x = 0; x < w; x++)
            a[y * w + x] += a[(y - 1) * w + x];
}

void fir(const double *x, double *y, int n, const double *c)
{
    for (long i = 0; i < n; i++) {
        double acc = 0;
        for (int k = 0; k < TAPS; k++)
            acc += x[i + k] * c[k];
        y[i] = acc;
    }
}

void norms(int n, int d, const double *p, double *out)
{
    for (int i = 0; i < n; i++) {
        double s = 0;
        for (int k = 0; k < d; k++)
            s += SQUARE(p[i * d + k]);
        out[i] = s;
    }
}

void halves(int n, const float *in, float *out)
{
    for (int i = 0; i < n / 2; i++)
        out[i] = (in[2 * i] + in[2 * i + 1]) / 2;
}

void by_two(int n, double *x)
{
    for (int i = 0; i < n; i += 2)
        x[i] = x[i] * 2;
}

void by_four_down(int n, double *x)
{
    for (int i = n - 1; i >= 0; i -= 4)
        x[i] += 1;
}

void shifted(int n, int off, const int *x, int *y)
{
    for (int i = 0; i < n; i++)
        y[i] = (x[i + off] >> 2) ^ (x[i + off + 1] & 15);
}

void planes(int c, int h, int w, const float *in, float *out)
{
    for (int k = 0; k < c; k++)
        for (int y = 0; y < h; y++)
            for (int x = 0; x < w; x++)
                out[(k * h + y) * w + x] += in[(k * h + y) * w + x];
}

void channels(int n, const float *in, float *out)
{
    for (int i = 0; i < n; i++)
        for (int c = 0; c < 3; c++)
            out[3 * i + c] = in[3 * i + c] * 2;
}

void copied(int h, int w, int pitch, const float *in, float *out)
{
    for (int y = 0; y < h; y++)
        memcpy(out + y * w, in + y * pitch, w * sizeof(float));
}

void cleared(int h, int w, double *out)
{
    for (int y = 0; y < h; y++)
        memset(&out[y * w], 0, sizeof(double) * w);
}

void flat(int h, int w, const float *in, float *out)
{
    int k = 0;
    for (int y = 0; y < h; y++)
        for (int x = 0; x < w; x++)
            out[k++] = in[x];
}

void tiled(int n, const double *a, double *b)
{
    for (int ii = 0; ii < n; ii += 4)
        for (int i = ii; i < (ii + 4 < n ? ii + 4 : n); i++)
            b[i] = a[i];
}
