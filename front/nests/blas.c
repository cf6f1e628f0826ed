/* Dense linear algebra with leading dimensions, as libraries write it. */
#define MIN(a, b) ((a) < (b) ? (a) : (b))
#define MAX(a, b) ((a) > (b) ? (a) : (b))
#define A(i, j) a[(i) * lda + (j)]

void gemm(int m, int n, int k, double alpha, const double *a, int lda, const double *b, int ldb, double *c, int ldc)
{
    int i, j, l;
    for (j = 0; j < n; ++j)
        for (i = 0; i < m; ++i) {
            double t = 0;
            for (l = 0; l < k; ++l)
                t += A(i, l) * b[l * ldb + j];
            c[i * ldc + j] += alpha * t;
        }
}

void gemm_columns(int m, int n, int k, const double *a, int lda, const double *b, int ldb, double *c, int ldc)
{
    for (int j = 0; j < n; j++)
        for (int l = 0; l < k; l++) {
            double t = b[l + j * ldb];
            for (int i = 0; i < m; i++)
                c[i + j * ldc] += t * a[i + l * lda];
        }
}

void gemv_rows(int m, int n, const double *a, int lda, const double *x, double *y)
{
    for (int i = 0; i < m; i++) {
        const double *row = a + i * lda;
        double sum = 0.0;
        for (int j = 0; j < n; j++)
            sum += row[j] * x[j];
        y[i] = sum;
    }
}

void gemv_moving(int m, int n, const double *a, int lda, const double *x, double *y)
{
    for (int i = 0; i < m; i++) {
        y[i] = 0;
        for (int j = 0; j < n; j++)
            y[i] += a[j] * x[j];
        a += lda;
    }
}

void axpy_steps(int n, double alpha, const double *x, int incx, double *y)
{
    int ix = 0;
    for (int i = 0; i < n; i++) {
        y[i] += alpha * x[ix];
        ix += incx;
    }
}

void axpy_walk(int n, double alpha, const double *x, double *y)
{
    while (n--)
        *y++ += alpha * *x++;
}

void scal_down(int n, double alpha, double *x)
{
    for (int i = n; i-- > 0;)
        x[i] *= alpha;
}

void dot_pointers(int n, const double *x, const double *y, double *out)
{
    const double *end = x + n;
    double sum = 0;
    for (; x < end; x++)
        sum += *x * *y++;
    *out = sum;
}

void syrk(int n, int k, const double *a, int lda, double *c, int ldc)
{
    for (int i = 0; i < n; i++)
        for (int j = 0; j <= i; j++)
            for (int l = 0; l < k; l++)
                c[i * ldc + j] += A(i, l) * A(j, l);
}

void trsv(int n, const double *a, int lda, double *x)
{
    for (int i = 0; i < n; i++) {
        for (int j = 0; j < i; j++)
            x[i] -= A(i, j) * x[j];
        x[i] /= a[i * (lda + 1)];
    }
}

void lu(int n, double **a)
{
    for (int k = 0; k < n; k++) {
        for (int i = k + 1; i < n; i++)
            a[i][k] /= a[k][k];
        for (int i = k + 1; i < n; i++)
            for (int j = k + 1; j < n; j++)
                a[i][j] -= a[i][k] * a[k][j];
    }
}

void banded(int n, int w, const double *a, int lda, const double *x, double *y)
{
    for (int i = 0; i < n; i++)
        for (int j = MAX(0, i - w); j < MIN(n, i + w + 1); j++)
            y[i] += A(i, j) * x[j];
}

void fortran(int *n, double *a, int *lda, double *x)
{
    int i__1, a_dim1, a_offset, i__, j;
    a_dim1 = *lda;
    a_offset = 1 + a_dim1;
    a -= a_offset;
    --x;
    i__1 = *n;
    for (j = 1; j <= i__1; ++j)
        for (i__ = 1; i__ <= i__1; ++i__)
            a[i__ + j * a_dim1] += x[i__] * x[j];
}

static void axpy(int n, double t, const double *x, double *y)
{
    int i;
    for (i = 0; i < n; i++)
        y[i] += t * x[i];
}

void rank_one(int m, int n, const double *x, const double *y, double *a, int lda)
{
    for (int i = 0; i < m; i++)
        axpy(n, x[i], y, a + i * lda);
}

void swap_rows(int n, double *a, int lda, int p, int q)
{
    double *x = a, *y = a + lda;
    for (int j = 0; j < n && j < lda; j++) {
        double t = x[j];
        x[j] = y[j];
        y[j] = t;
    }
}

void transposed(int m, int n, const double *a, double *b)
{
    for (int i = 0; i < m; i++)
        for (int j = 0; j < n; j++)
            b[j * m + i] = a[i * n + j];
}
