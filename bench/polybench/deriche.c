#pragma scop
k = (1.0 - exp(-alpha)) * (1.0 - exp(-alpha)) / (1.0 + 2.0 * alpha * exp(-alpha) - exp(2.0 * alpha));
a1 = k;
a5 = k;
a2 = k * exp(-alpha) * (alpha - 1.0);
a6 = k * exp(-alpha) * (alpha - 1.0);
a3 = k * exp(-alpha) * (alpha + 1.0);
a7 = k * exp(-alpha) * (alpha + 1.0);
a4 = -k * exp(-2.0 * alpha);
a8 = -k * exp(-2.0 * alpha);
b1 = pow(2.0, -alpha);
b2 = -exp(-2.0 * alpha);
c1 = 1;
c2 = 1;
for (i = 0; i < W; i++) {
  ym1 = 0.0;
  ym2 = 0.0;
  xm1 = 0.0;
  for (j = 0; j < H; j++) {
    y1[i][j] = a1 * imgIn[i][j] + a2 * xm1 + b1 * ym1 + b2 * ym2;
    xm1 = imgIn[i][j];
    ym2 = ym1;
    ym1 = y1[i][j];
  }
}
for (i = 0; i < W; i++) {
  yp1 = 0.0;
  yp2 = 0.0;
  xp1 = 0.0;
  xp2 = 0.0;
  for (j = H - 1; j >= 0; j--) {
    y2[i][j] = a3 * xp1 + a4 * xp2 + b1 * yp1 + b2 * yp2;
    xp2 = xp1;
    xp1 = imgIn[i][j];
    yp2 = yp1;
    yp1 = y2[i][j];
  }
}
#pragma endscop
