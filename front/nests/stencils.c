/* Stencils, guards and everyday loops. */
#include <math.h>
#define N 20
double grid[N][N], other[N][N];

void swapping(int n, int steps, double *a, double *b)
{
    for (int t = 0; t < steps; t++) {
        for (int i = 1; i < n - 1; i++)
            b[i] = (a[i - 1] + a[i] + a[i + 1]) / 3;
        double *tmp = a;
        a = b;
        b = tmp;
    }
}

void fixed(int steps)
{
    for (int t = 0; t < steps; t++)
        for (int i = 1; i < N - 1; i++)
            for (int j = 1; j < N - 1; j++)
                other[i][j] = 0.25 * (grid[i - 1][j] + grid[i + 1][j] + grid[i][j - 1] + grid[i][j + 1]);
}

void borders(int n, const double *a, double *b)
{
    for (int i = 0; i < n; i++) {
        if (i == 0)
            b[i] = a[i];
        else if (i == n - 1)
            b[i] = a[i - 1];
        else
            b[i] = a[i - 1] + a[i + 1];
    }
}

void outside(int n, double *b)
{
    for (int i = 0; i < n; i++)
        if (i < 2 || i > n - 3)
            b[i] = 0;
}

void others(int n, double *b, const double *a)
{
    for (int i = 0; i < n; i++)
        for (int j = 0; j < n; j++)
            if (i != j)
                b[i] += a[j];
}

void skipped(int n, double *b, const double *a)
{
    for (int i = 0; i < n; i++)
        for (int j = 0; j < n; j++) {
            if (j == i)
                continue;
            b[i] -= a[j];
        }
}

void flagged(int n, int add, double *b, const double *a)
{
    for (int i = 0; i < n; i++) {
        if (add)
            b[i] += a[i];
        else
            b[i] = a[i];
    }
}

void unequal(int n, double *b)
{
    for (int i = 0; i != n; ++i)
        b[i] = i;
}

void turned(int n, double *b)
{
    for (int i = 0; n > i; i++)
        b[n - 1 - i] = i * 2.0;
}

void two_variables(int n, double *b, const double *a)
{
    int i, j;
    for (i = 0, j = n - 1; i < n; i++, j--)
        b[i] = a[j];
}

void chained(int n, double *a, double *b, double *c)
{
    for (int i = 0; i < n; i++)
        a[i] = b[i] = c[i] + 1;
}

void counted(int n, int *h, int *g)
{
    for (int i = 0; i < n; i++) {
        h[i]++;
        g[i] |= h[i];
    }
}

void calls(int n, double *a, const double *b)
{
    for (int i = 0; i < n; i++)
        a[i] = sqrt(fabs(b[i])) + pow(b[i + 1], 2.0);
}

void greatest(int n, const double *a, double *out)
{
    double m = a[0];
    for (int i = 1; i < n; i++)
        m = a[i] > m ? a[i] : m;
    *out = m;
}

void casts(int n, const short *a, double *out, int w)
{
    for (int i = 0; i < n; i++)
        out[i] = (double)a[i] * (double)w;
}

void temporaries(int n, int m, double *a, const double *b)
{
    for (int i = 0; i < n; i++) {
        int base = i * m;
        for (int j = 0; j < m; j++) {
            int at = base + j;
            a[at] = b[at];
        }
    }
}

void triangle(int n, double *a, const double *b)
{
    for (int i = 0; i < n; i++)
        for (int j = i; j < n; j++)
            a[j] += b[i];
}

void later_value(int n, double *a)
{
    int i;
    for (int r = 0; r < 3; r++) {
        for (i = 0; i < n; i++)
            a[i] += 1;
        a[i] = 0;
    }
}

void whole_data(int n, const int *a, int *sum)
{
    for (int i = 0; i < n; i++) {
        int x = a[i] * 2;
        sum[i] = x + i;
    }
}

void comma(int n, double *a, double *b)
{
    for (int i = 0; i < n; i++)
        a[i] = 0, b[i] = 1;
}

void nested_while(int n, int m, double *a)
{
    int i = 0;
    while (i < n) {
        int j = 0;
        while (j < m) {
            a[i * m + j] = 1;
            j++;
        }
        i++;
    }
}

void constant_rows(int n, double (*a)[N], const double *b)
{
    for (int i = 0; i < n; i++)
        for (int j = 0; j < N; j++)
            a[i][j] = b[j];
}

void variable_rows(int n, int m, double a[n][m], double b[m][n])
{
    for (int i = 0; i < n; i++)
        for (int j = 0; j < m; j++)
            a[i][j] = b[j][i];
}

void once(int n, double *a)
{
    for (int i = 0; i < n; i++)
        do {
            a[i] = 1;
        } while (0);
}

void rest_of_eight(int n, double *a)
{
    int m = n & ~7;
    for (int i = 0; i < m; i++)
        a[i] = 0;
    for (int i = m; i < n; i++)
        a[i] = 1;
}

void scop(int n, double *a, double *b)
{
#pragma scop
    for (int i = 0; i < n; i++)
        a[i] = 1;
    for (int i = 0; i < n; i++)
        b[i] = a[i];
#pragma endscop
}
