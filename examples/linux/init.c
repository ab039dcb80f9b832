/* All of user space: a small shell on the console. Built with tools/include/nolibc of the kernel's source. */
#include "nolibc.h"

static char line[128];  /* what was typed */

static void show(const char *text)
{
    write(1, text, strlen(text));
}

static int echo(const char *text)
{
    show(text);
    show("\n");
    return 0;
}

static int cat(const char *name)
{
    char bytes[256];
    int file = open(name, O_RDONLY, 0), n;

    if (file < 0)
        return -1;
    while ((n = read(file, bytes, sizeof bytes)) > 0)
        write(1, bytes, n);
    close(file);
    return n;
}

static int ls(const char *name)
{
    char bytes[512];
    int file = open(*name ? name : "/", O_RDONLY | O_DIRECTORY, 0), n;

    if (file < 0)
        return -1;
    while ((n = getdents64(file, (void *)bytes, sizeof bytes)) > 0)
        for (int at = 0; at < n; at += ((struct linux_dirent64 *)(bytes + at))->d_reclen) {
            show(((struct linux_dirent64 *)(bytes + at))->d_name);
            show("  ");
        }
    show("\n");
    close(file);
    return n;
}

/* A child that says who it is, in pages that it shares with this process until it stores into them. */
static int fork_child(const char *text)
{
    int child = fork(), status;

    if (child == 0) {
        printf("child %d of %d says %s\n", getpid(), getppid(), text);
        exit(7);
    }
    if (child < 0 || waitpid(child, &status, 0) != child)
        return -1;
    printf("child %d ended with %d\n", child, status >> 8);
    return 0;
}

static int halt(const char *text)
{
    (void)text;
    return reboot(LINUX_REBOOT_CMD_HALT);
}

static const struct {
    const char *name;
    int (*run)(const char *rest);
} commands[] = { { "echo", echo }, { "cat", cat }, { "ls", ls }, { "fork", fork_child }, { "halt", halt } };

enum { COMMANDS = sizeof commands / sizeof *commands };

static void run(char *text)
{
    char *rest = strchr(text, ' ');

    if (rest)
        *rest++ = 0;
    else
        rest = text + strlen(text);
    for (int i = 0; i < COMMANDS; i++)
        if (!strcmp(text, commands[i].name)) {
            if (commands[i].run(rest) < 0)
                printf("%s failed\n", text);
            return;
        }
    if (*text) {
        printf("there is no %s; there are", text);
        for (int i = 0; i < COMMANDS; i++)
            printf(" %s", commands[i].name);
        show("\n");
    }
}

int main(void)
{
    mount("proc", "/proc", "proc", 0, 0);
    mount("sysfs", "/sys", "sysfs", 0, 0);
    show("\nHello from user space.\n");
    for (;;) {
        show("# ");
        int n = read(0, line, sizeof line - 1);
        if (n <= 0)
            continue;
        line[n - (line[n - 1] == '\n')] = 0;
        run(line);
    }
}
