// SPEC ACCEL 514.pomriq (Parboil mri-q): computeQ.c and main.c, whole numbers
#include <stdint.h>
#include <stdio.h>
#include <stdlib.h>

#define PIx2 6

#define MIN(X,Y) ((X) < (Y) ? (X) : (Y))
#define K_ELEMS_PER_GRID 2048

struct kValues {
  uint64_t Kx;
  uint64_t Ky;
  uint64_t Kz;
  uint64_t PhiMag;
};

void ComputePhiMagCPU(int numK, uint64_t* phiR, uint64_t* phiI, uint64_t* phiMag)
{
  int indexK = 0;
  #pragma omp target map(to: phiR[0:numK], phiI[0:numK]) map(from: phiMag[0:numK])
  #pragma omp teams distribute parallel for
  for (indexK = 0; indexK < numK; indexK++) {
    uint64_t real = phiR[indexK];
    uint64_t imag = phiI[indexK];
    phiMag[indexK] = real*real + imag*imag;
  }
}

void ComputeQCPU(int numK, int numX, struct kValues *kVals,
                 uint64_t* x, uint64_t* y, uint64_t* z, uint64_t *Qr, uint64_t *Qi)
{
  uint64_t expArg;
  uint64_t cosArg;
  uint64_t sinArg;
  int indexK, indexX;

  #pragma omp target map(to: kVals[0:numK], x[0:numX], y[0:numX], z[0:numX]) map(tofrom: Qr[0:numX], Qi[0:numX])
  #pragma omp teams distribute parallel for private(expArg, cosArg, sinArg, indexK)
  for (indexX = 0; indexX < numX; indexX++) {
    uint64_t QrSum = 0;
    uint64_t QiSum = 0;

    for (indexK = 0; indexK < numK; indexK++) {
      expArg = PIx2 * (kVals[indexK].Kx * x[indexX] +
                       kVals[indexK].Ky * y[indexX] +
                       kVals[indexK].Kz * z[indexX]);

      cosArg = expArg * expArg;
      sinArg = expArg + 1;

      uint64_t phi = kVals[indexK].PhiMag;
      QrSum += phi * cosArg;
      QiSum += phi * sinArg;
    }
    Qr[indexX] = QrSum;
    Qi[indexX] = QiSum;
  }
}

void createDataStructsCPU(int numK, int numX, uint64_t** phiMag, uint64_t** Qr, uint64_t** Qi)
{
  *phiMag = (uint64_t* ) calloc(numK, sizeof(uint64_t));
  *Qr = (uint64_t*) calloc(numX, sizeof (uint64_t));
  *Qi = (uint64_t*) calloc(numX, sizeof (uint64_t));
}

void inputData(int numK, int numX, uint64_t *kx, uint64_t *ky, uint64_t *kz,
               uint64_t *x, uint64_t *y, uint64_t *z, uint64_t *phiR, uint64_t *phiI)
{
  for (int i = 0; i < numK; i++) {
    kx[i] = i * 3 % 17;
    ky[i] = i * 5 % 19;
    kz[i] = i * 7 % 23;
    phiR[i] = i % 11;
    phiI[i] = i % 13;
  }
  for (int i = 0; i < numX; i++) {
    x[i] = i;
    y[i] = i + 1;
    z[i] = 2 * i;
  }
}

int main (int argc, char *argv[]) {
  int numX = 256, numK = 128;
  uint64_t *kx, *ky, *kz;
  uint64_t *x, *y, *z;
  uint64_t *phiR, *phiI;
  uint64_t *phiMag;
  uint64_t *Qr, *Qi;
  struct kValues* kVals;

  kx = (uint64_t *) malloc(numK * sizeof(uint64_t));
  ky = (uint64_t *) malloc(numK * sizeof(uint64_t));
  kz = (uint64_t *) malloc(numK * sizeof(uint64_t));
  x = (uint64_t *) malloc(numX * sizeof(uint64_t));
  y = (uint64_t *) malloc(numX * sizeof(uint64_t));
  z = (uint64_t *) malloc(numX * sizeof(uint64_t));
  phiR = (uint64_t *) malloc(numK * sizeof(uint64_t));
  phiI = (uint64_t *) malloc(numK * sizeof(uint64_t));
  inputData(numK, numX, kx, ky, kz, x, y, z, phiR, phiI);

  createDataStructsCPU(numK, numX, &phiMag, &Qr, &Qi);
  ComputePhiMagCPU(numK, phiR, phiI, phiMag);

  kVals = (struct kValues*)calloc(numK, sizeof (struct kValues));
  int k;
  for (k = 0; k < numK; k++) {
    kVals[k].Kx = kx[k];
    kVals[k].Ky = ky[k];
    kVals[k].Kz = kz[k];
    kVals[k].PhiMag = phiMag[k];
  }
  ComputeQCPU(numK, numX, kVals, x, y, z, Qr, Qi);

  uint64_t sumR = 0, sumI = 0;
  for (int i = 0; i < numX; i++) {
    sumR += Qr[i];
    sumI += Qi[i];
  }
  printf("%lu\n", sumR);
  printf("%lu\n", sumI);

  free(kx); free(ky); free(kz);
  free(x); free(y); free(z);
  free(phiR); free(phiI);
  free(phiMag);
  free(kVals);
  free(Qr);
  free(Qi);
  return 0;
}
