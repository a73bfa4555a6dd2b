int main(void) {

#pragma omp target distribute parallel for
{ }
}
