/* Data with two names. With READER it is read in a program, and else it stands in a shared library: where the reader is no position
   independent program, the linker copies it there, by the size of the name that the reader uses. */
#ifdef READER
#include <stdio.h>
extern char also[4];
int main(void) {
    puts(also);
    return 0;
}
#else
char text[4] = "abc";
extern char also[4] __attribute__((alias("text")));
#endif
