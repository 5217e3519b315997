/* library session|main|file|pipe INPUT [PROGRAM]  runs an input in one of four ways, and prints the wall-clock seconds that its
   commands took. Each command must have a reply of one line.

   session   a session of the library, line by line
   main      one call of lispm_main; the opening of the world is included
   file      `PROGRAM replay` with the input as its standard input; its start and the opening of the world are included
   pipe      `PROGRAM replay` over two pipes: each line is sent after the reply to the line before */
#include <lispm.h>

#include <fcntl.h>
#include <stdio.h>
#include <stdlib.h>
#include <string.h>
#include <sys/wait.h>
#include <time.h>
#include <unistd.h>

static char *input, *output;
static size_t length, room;

static void fail(const char *what)
{
    perror(what);
    exit(70);
}

static double now(void)
{
    struct timespec time;

    clock_gettime(CLOCK_MONOTONIC, &time);
    return (double)time.tv_sec + 1e-9 * (double)time.tv_nsec;
}

static void read_input(const char *path)
{
    FILE *file = fopen(path, "rb");
    size_t part;

    if (file == NULL)
        fail(path);
    for (room = 1 << 20; (input = realloc(input, room)) != NULL; room *= 2) {
        while ((part = fread(input + length, 1, room - length, file)) > 0)
            length += part;
        if (length < room)
            break;
    }
    fclose(file);
    output = malloc(room = 2 * room);
    if (input == NULL || output == NULL)
        fail("memory");
}

/* The index of the byte after the line at this index. */
static size_t after_line(size_t at)
{
    char *feed = memchr(input + at, '\n', length - at);

    return (size_t)(feed - input) + 1;
}

/* The index of the first command. */
static size_t after_trace(void)
{
    return (size_t)(strstr(input, "\ntrace\n") - input) + 7;
}

static double by_session(void)
{
    lispm_seat seat = {0};
    size_t needed, at = 0, start = after_trace(), next;
    double begun = 0;

    if (lispm_open(&seat) != LISPM_DONE)
        fail("lispm_open");
    for (; at < length; at = next) {
        if (at == start)
            begun = now();
        next = after_line(at);
        if (lispm_line(&seat, input + at, next - 1 - at, output, room, &needed) != LISPM_DONE)
            fail("lispm_line");
    }
    begun = now() - begun;
    if (lispm_end(&seat, output, room, &needed) != LISPM_DONE)
        fail("lispm_end");
    lispm_close(&seat);
    return begun;
}

static double by_main(void)
{
    size_t needed;
    double begun = now();

    if (lispm_main("replay", sizeof "replay", input, length, output, room, &needed) != LISPM_DONE)
        fail("lispm_main");
    return now() - begun;
}

/* Starts `PROGRAM replay` with these descriptors as its standard input and output. */
static pid_t start(const char *program, int source, int sink)
{
    pid_t child = fork();

    if (child < 0)
        fail("fork");
    if (child > 0)
        return child;
    if (dup2(source, 0) < 0 || dup2(sink, 1) < 0)
        fail("dup2");
    execl(program, program, "replay", (char *)NULL);
    fail(program);
    return 0;
}

static void end(pid_t child)
{
    int status;

    if (waitpid(child, &status, 0) < 0 || status != 0) {
        fputs("library: the program ended with a status other than 0\n", stderr);
        exit(70);
    }
}

static double by_file(const char *program, const char *path)
{
    int source = open(path, O_RDONLY), sink = open("/dev/null", O_WRONLY);
    double begun = now();

    if (source < 0 || sink < 0)
        fail(path);
    end(start(program, source, sink));
    return now() - begun;
}

static void send(int to, size_t at, size_t next)
{
    if (write(to, input + at, next - at) != (ssize_t)(next - at))
        fail("write");
}

static double by_pipe(const char *program)
{
    int to[2], from[2];
    size_t at = after_trace(), next;
    double begun;
    pid_t child;

    if (pipe(to) != 0 || pipe(from) != 0 || fcntl(to[1], F_SETFD, FD_CLOEXEC) != 0 || fcntl(from[0], F_SETFD, FD_CLOEXEC) != 0)
        fail("pipe");
    child = start(program, to[0], from[1]);
    send(to[1], 0, at);
    begun = now();
    for (; (next = after_line(at)) < length; at = next) {
        send(to[1], at, next);
        if (read(from[0], output, 64) <= 0)
            fail("read");
    }
    begun = now() - begun;
    send(to[1], at, next);
    close(to[1]);
    end(child);
    return begun;
}

int main(int count, char **words)
{
    const char *way = count > 2 ? words[1] : "";
    double seconds = 0;

    if (count > 2)
        read_input(words[2]);
    if (strcmp(way, "session") == 0)
        seconds = by_session();
    else if (strcmp(way, "main") == 0)
        seconds = by_main();
    else if (strcmp(way, "file") == 0 && count == 4)
        seconds = by_file(words[3], words[2]);
    else if (strcmp(way, "pipe") == 0 && count == 4)
        seconds = by_pipe(words[3]);
    else
        return 2;
    printf("%.9f\n", seconds);
    return 0;
}
