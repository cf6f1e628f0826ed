#pragma scop
for (i = 0; i < N; i++) { A[i] = B[i]; C[0] = A[i] + C[0]; }
#pragma endscop
