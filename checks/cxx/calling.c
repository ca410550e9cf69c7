// A function of C in the middle: it has a frame table (-fexceptions) and no personality.
int call_through(int (*function)(void *), void *given) {
    volatile int calls = 0;
    int answer = function(given);
    calls = calls + 1;
    return answer + calls;
}
