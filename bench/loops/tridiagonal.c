#pragma iolb assume N >= 3
#pragma scop
for (i = 1; i < N - 1; i++)
  y[i] = l[i] * x[i-1] + d[i] * x[i] + u[i] * x[i+1];
#pragma endscop
