int main(void) {
#pragma omp target update
}
