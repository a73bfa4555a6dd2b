int main(void) {
#pragma omp parallel for
{ }
}
