#pragma iolb param STEPS N
#pragma iolb assume STEPS >= 1 && N >= 3
void smooth(int STEPS, int N, double A[N], double B[N]) {
#pragma scop
    for (int t = 0; t < STEPS; t++) {
        for (int i = 1; i < N - 1; i++)
            B[i] = (A[i - 1] + A[i] + A[i + 1]) / 3.0;
        for (int i = 1; i < N - 1; i++)
            A[i] = B[i];
    }
#pragma endscop
}
