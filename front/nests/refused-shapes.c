/* Each of these has to be refused, by these words. */
extern int rand(void);
extern void tell(int);
extern int printf(const char *, ...);
union both { int a; float b; };

// refused: a: strides that don't divide one another
void two_layouts(int n, int m, double *a)
{
    for (int i = 0; i < n; i++)
        for (int j = 0; j < m; j++)
            a[i * m + j] = a[j * n + i];
}

// refused: a loop whose condition depends on data
void random_size(double *a)
{
    for (int i = 0; i < rand(); i++)
        a[i] = 0;
}

// refused: a and b may be one array
void alias(int n, double *a, int twice)
{
    double *b = 0;
    if (twice)
        b = a;
    for (int i = 0; i < n; i++)
        b[i] = a[i + 1];
}

// refused: an address that isn't told by the loops
void moved_by_data(int n, double *a, const int *step)
{
    for (int i = 0; i < n; i++) {
        *a = 1;
        a += step[i];
    }
}

// refused: indirect subscript: data decide it
void indirect(int n, double *a, const int *at)
{
    for (int i = 0; i < n; i++)
        a[at[i]] = 1;
}

// refused: if on data
void on_data(int n, double *a)
{
    for (int i = 0; i < n; i++)
        if (a[i] > 0)
            a[i] = 0;
}

// refused: a call of tell as a statement
void calling(int n, double *a)
{
    for (int i = 0; i < n; i++) {
        a[i] = 0;
        tell(i);
    }
}

// refused: a loop whose condition depends on data
void rows_of_data(int n, const int *first, double *a)
{
    for (int i = 0; i < n; i++)
        for (int k = first[i]; k < first[i + 1]; k++)
            a[k] = 1;
}

// refused: a member of a union
void overlaid(int n, union both *u)
{
    for (int i = 0; i < n; i++)
        u[i].a = 1;
}

// refused: a break
void broken(int n, double *a)
{
    for (int i = 0; i < n; i++) {
        a[i] = 1;
        break;
    }
}

// refused: a: strides that don't divide one another
void two_strides(int n, int rs, int cs, double *a)
{
    for (int i = 0; i < n; i++)
        for (int j = 0; j < n; j++)
            a[i * rs + j * cs] = 0;
}

// refused: a: a subscript that leaves its row
void too_wide(int n, double *a)
{
    for (int i = 0; i < n; i++)
        for (int j = 0; j < n + 1; j++)
            a[i * n + j] = 0;
}

// refused: a cast from int * to float *; an address that isn't told by the loops
void other_type(int n, int *a)
{
    for (int i = 0; i < n; i++)
        ((float *)a)[i] = 0;
}

// refused: subscript by a value that the loops don't tell
void products(int n, double *a)
{
    int k = 1;
    for (int i = 0; i < n; i++) {
        a[k] = 0;
        k *= 2;
    }
}

// refused: a call of rand as a statement
void called_alone(int n, double *a)
{
    for (int i = 0; i < n; i++) {
        rand();
        a[i] = 0;
    }
}

// refused: no sizes meet what is assumed
void no_sizes(int n, double *a)
{
    for (int i = 0; i < n; i++)
        for (int j = 0; j < 2 * n; j++)
            a[i * n + j] = 0;
}

// refused: a pointer that may walk over the rows of g
void over_rows(int n, double g[20][20])
{
    double *p = &g[0][0];
    for (int i = 0; i < n; i++)
        p[i] = g[i][i];
}

// refused: if on data
void on_local_data(int n, double *a)
{
    for (int i = 0; i < n; i++) {
        double t = a[i];
        if (t > 0)
            a[i] = 0;
    }
}
