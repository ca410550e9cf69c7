/* Uses all that tables.s has, and tells whether it is what it should be. In one program, with -no-pie or -pie:

       ../build/as -o tables.o tables.s
       gcc -pie -pthread -o tables tables.c tables.o && ./tables

   Or as a library, and a program that calls it:

       gcc -shared -fPIC -pthread -DNO_MAIN -o libtables.so tables.c tables.o
       gcc -DONLY_MAIN -o tables tables.c ./libtables.so && ./tables
*/
#include <pthread.h>
#include <stdio.h>
#include <string.h>

int check_tables(void);

#ifndef ONLY_MAIN

/* What stands in tables.s has no alignment. */
typedef int (*function)(int, int) __attribute__((aligned(1)));
typedef const char *string __attribute__((aligned(1)));
typedef long *pointer __attribute__((aligned(1)));
typedef int number __attribute__((aligned(1)));

extern const function operations[3];
extern const string names[3];
extern const function hooks[2];
extern const pointer total_at;
extern const number jumps[4], how_many[2], greeting_from_here;
extern long totals[4];
extern __thread number own;
extern __thread char own_space[16];

/* What tables.s names. */
int add(int a, int b) { return a + b; }
int subtract(int a, int b) { return a - b; }
int square(int a, int b) { (void)b; return a * a; }
int present(int a, int b) { (void)b; return a + 1; }

static int failed;

static void expect(const char *what, long is, long due)
{
    printf("%s %s: %ld\n", is == due ? "ok  " : "FAIL", what, is);
    failed |= is != due;
}

static int jump(int index, int n)
{
    return ((function)((const char *)jumps + jumps[index]))(n, 0);
}

/* A thread of its own finds the values from tables.s, whatever the first one made of them. */
static void *other_thread(void *sum)
{
    *(long *)sum = own + own_space[15];
    return NULL;
}

int check_tables(void)
{
    expect("add", operations[0](3, 4), 7);
    expect("subtract", operations[1](3, 4), -1);
    expect("negate", operations[2](3, 4), -3);
    expect("names", strcmp(names[0], "add") || strcmp(names[1], "subtract") || strcmp(names[2], "tract"), 0);
    expect("a hook that is there", hooks[0](6, 0), 7);
    expect("a hook that is missing", (long)hooks[1], 0);
    totals[2] = 12;
    expect("the third total", *total_at, 12);
    expect("jump to the same", jump(0, 21), 21);
    expect("jump to twice", jump(1, 21), 42);
    expect("jump to square", jump(2, 21), 441);
    expect("jump to negate", jump(3, 21), -21);
    expect("how many operations", how_many[0], sizeof operations / sizeof operations[0]);
    expect("how much code", how_many[1], 7 + 8 + 9);
    expect("greeting", strcmp((const char *)&greeting_from_here + greeting_from_here, "hello"), 0);
    own += 1;
    own_space[15] = 5;
    expect("own of this thread", own + own_space[15], 46);
    pthread_t thread;
    long sum = -1;
    if (pthread_create(&thread, NULL, other_thread, &sum) == 0)
        pthread_join(thread, NULL);
    expect("own of another thread", sum, 40);
    return failed;
}

#endif
#ifndef NO_MAIN

int main(void)
{
    return check_tables();
}

#endif
