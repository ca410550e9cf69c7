#include <stdio.h>

int answer(void);
int sum_to_ten(void);
long double_of(long n);
unsigned greeting(void);

int main(void)
{
    printf("%d %d %ld %x\n", answer(), sum_to_ten(), double_of(21), greeting());
    return 0;
}
