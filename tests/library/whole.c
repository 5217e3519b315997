/* whole PROGRAM ARGUMENT.. <INPUT  answers an input by lispm_main or lispm_inside (PROGRAM), with these arguments: first with
   no room, to learn how much is needed, and then with just that much. */
#include "inputs.h"

typedef uint8_t call(const void *arguments, size_t arguments_length, const void *input, size_t length, void *output,
                     size_t room, size_t *needed);

int main(int count, char **words)
{
    static char arguments[1 << 16];
    size_t size = 1 << 20, length = 0, part, needed, arguments_length;
    char *input = malloc(size), *output;
    call *run = strcmp(words[1], "inside") == 0 ? lispm_inside : lispm_main;
    uint8_t status;

    while (input != NULL && (part = fread(input + length, 1, size - length, stdin)) > 0)
        if ((length += part) == size)
            input = realloc(input, size *= 2);
    if (input == NULL
        || lispm_arguments(count - 2, (const char *const *)words + 2, arguments, sizeof arguments, &arguments_length) != LISPM_DONE)
        return 70;
    status = run(arguments, arguments_length, input, length, NULL, 0, &needed);
    output = malloc(needed + 1);
    if (output == NULL)
        return 70;
    CHECK(status == LISPM_SMALL || needed == 0);
    output[needed] = '!';
    status = run(arguments, arguments_length, input, length, output, needed, &needed);
    CHECK(output[needed] == '!');
    fwrite(output, 1, needed, stdout);
    free(output);
    free(input);
    return failures == 0 ? status : 99;
}
