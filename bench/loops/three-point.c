#pragma iolb assume N >= 3
#pragma scop
for (i = 1; i < N - 1; i++)
  y[i] = x[i-1] + 2*x[i] + x[i+1];
#pragma endscop
