/* Calls through three levels, with frames of several forms, and prints who called whom by the frame tables alone. */
#include <stdio.h>
#include <string.h>
#include <unwind.h>

int main(void);
int first(int depth);
int second(int depth, double x);
int third(char *text, int length);

static const struct { const char *name; void *begin; } functions[] = {
    { "main", main }, { "first", first }, { "second", second }, { "third", third },
};

static _Unwind_Reason_Code tell(struct _Unwind_Context *context, void *count)
{
    void *begin = _Unwind_FindEnclosingFunction((void *)_Unwind_GetIP(context));
    for (unsigned i = 0; i < sizeof functions / sizeof *functions; i++)
        if (functions[i].begin == begin)
            printf("%d %s\n", (*(int *)count)++, functions[i].name);
    return begin == (void *)main ? _URC_END_OF_STACK : _URC_NO_REASON;
}

__attribute__((noinline)) int third(char *text, int length)
{
    int count = 0;
    char room[length + 1];
    memcpy(room, text, length);
    room[length] = 0;
    puts(room);
    _Unwind_Backtrace(tell, &count);
    return count + room[0];
}

__attribute__((noinline)) int second(int depth, double x)
{
    char text[64];
    int length = snprintf(text, sizeof text, "%d %.3f", depth, x);
    int sum = third(text, length);
    return depth > 0 ? sum + second(depth - 1, x * 1.5) : sum;
}

__attribute__((noinline)) int first(int depth)
{
    int sum = 0;
    for (int i = 0; i < depth; i++)
        sum = sum * 31 + second(i, i / 3.0);
    return sum;
}

int main(void)
{
    printf("%d\n", first(3));
    return 0;
}
