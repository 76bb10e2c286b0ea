/* Sends one telegram after another to one running `etcs`: `coprocess PROGRAM < telegrams.hex`.
 *
 * Each line is a short telegram in hexadecimal digits. For each it writes the JSON, or the line with the refused bit. A refusal
 * ends `etcs`, which is then started again for the next telegram. */
#define _GNU_SOURCE
#include <fcntl.h>
#include <signal.h>
#include <stdio.h>
#include <string.h>
#include <sys/wait.h>
#include <unistd.h>

/* A running `etcs convert`: telegrams go to `in`, JSON comes from `out`. */
struct codec {
    pid_t process;
    FILE *in, *out, *faults;
};

/* Starts the program; returns whether it could be started. */
static int start(struct codec *codec, const char *program) {
    int in[2], out[2], faults[2];
    /* the ends that the program doesn't get are closed when it starts */
    if (pipe2(in, O_CLOEXEC) || pipe2(out, O_CLOEXEC) || pipe2(faults, O_CLOEXEC))
        return 0;
    codec->process = fork();
    if (codec->process == 0) {
        dup2(in[0], STDIN_FILENO);
        dup2(out[1], STDOUT_FILENO);
        dup2(faults[1], STDERR_FILENO);
        execl(program, program, "convert", "--kind", "short", "--to", "json", (char *)NULL);
        _exit(127);
    }
    close(in[0]);
    close(out[1]);
    close(faults[1]);
    codec->in = fdopen(in[1], "w");
    codec->out = fdopen(out[0], "r");
    codec->faults = fdopen(faults[0], "r");
    return codec->process > 0 && codec->in && codec->out && codec->faults;
}

static void stop(struct codec *codec) {
    fclose(codec->in);
    fclose(codec->out);
    fclose(codec->faults);
    waitpid(codec->process, NULL, 0);
    codec->process = 0;
}

/* Sends a line and reads the result into answer; returns whether the line is a telegram. */
static int ask(struct codec *codec, const char *line, char *answer, int size) {
    fputs(line, codec->in);
    fflush(codec->in);
    if (fgets(answer, size, codec->out))
        return 1;
    if (!fgets(answer, size, codec->faults))
        snprintf(answer, size, "no answer\n");
    stop(codec);
    return 0;
}

int main(int count, char **words) {
    struct codec codec = {0};
    char line[128], answer[4096];
    signal(SIGPIPE, SIG_IGN);
    while (count == 2 && fgets(line, sizeof line, stdin)) {
        if (strlen(line) != 55) { /* etcs would wait for the rest of a shorter telegram */
            printf("refused: %d characters\n", (int)strcspn(line, "\r\n"));
            continue;
        }
        if (codec.process == 0 && !start(&codec, words[1]))
            return 1;
        if (ask(&codec, line, answer, sizeof answer))
            printf("%s", answer);
        else
            printf("refused: %s", answer);
    }
    if (codec.process)
        stop(&codec);
    return count == 2 ? 0 : 2;
}
