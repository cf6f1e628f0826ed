#pragma iolb assume N >= 2
#pragma scop
for (i = 1; i < N; i++)
  y[i] = a[0] * x[i] + a[1] * x[i-1] + b[0] * y[i-1];
#pragma endscop
