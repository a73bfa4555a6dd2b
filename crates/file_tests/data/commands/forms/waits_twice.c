int main(void) {
#pragma omp target nowait nowait
{ }
}
