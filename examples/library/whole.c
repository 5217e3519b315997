/* Reads a whole input and writes its replies, as `lispm replay` does: whole <INPUT */
#include <lispm.h>
#include <stdio.h>

int main(void)
{
    static char input[1 << 20], output[1 << 20];
    size_t length = fread(input, 1, sizeof input, stdin), needed;
    uint8_t status = lispm_main("replay", sizeof "replay", input, length, output, sizeof output, &needed);

    if (status != LISPM_SMALL)
        fwrite(output, 1, needed, stdout);
    return status;
}
