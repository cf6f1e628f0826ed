#pragma iolb param T N
#pragma iolb assume T >= 1 && N >= 3
#pragma scop
for (t = 0; t < T; t++)
  for (i = 1; i < N - 1; i++)
    A[i] = A[i-1] + A[i] + A[i+1];
#pragma endscop
