/*
Concurrent access on a counter with atomic. No data race.
*/
#include <stdio.h>
#define N 100000

int countervar = 0;

int count(){
    #pragma omp target map(tofrom:countervar) device(0)
    #pragma omp teams num_teams(1) thread_limit(1048)
    #pragma omp distribute parallel for
    for(int i=0; i<N; i++){
        #pragma omp atomic update
        countervar++;
    }
    return 0;
}

int main(){
    count();
    printf("%d\n", countervar);
    return 0;
}
