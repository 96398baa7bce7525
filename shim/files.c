#define _XOPEN_SOURCE 700 /* fchmod, SIGXFSZ */
#include "files.h"

#include <errno.h>
#include <fcntl.h>
#include <signal.h>
#include <stdio.h>
#include <stdlib.h>
#include <string.h>
#include <sys/stat.h>
#include <unistd.h>

bool complain(const char *what, const char *why)
{
    fprintf(stderr, "%s: %s: %s\n", program, what, why);
    return false;
}

bool asks_for_help(int argc, char **argv)
{
    return argc == 2 && strcmp(argv[1], "--help") == 0;
}

int give_help(void)
{
    printf("%s%s", usage, statuses);
    return printed(DONE);
}

int printed(int status)
{
    bool lost = ferror(stdout);
    if (fclose(stdout) == 0 && !lost)
        return status;
    complain("standard output", "cannot be written");
    return FAILED;
}

bool allocate(struct buffer *buffer, size_t len)
{
    buffer->len = len;
    buffer->bytes = len > 0 ? malloc(len) : NULL;
    return len == 0 || buffer->bytes != NULL || complain("memory", "ran out");
}

/* By way of scratch, as a file tells its length only when it has been read. A folder can be opened, but not read. */
static bool read_through(struct buffer *scratch, FILE *in, const char *path, struct buffer *file)
{
    size_t len = fread(scratch->bytes, 1, scratch->len, in);
    if (ferror(in))
        return complain(path, strerror(errno));
    if (!allocate(file, len))
        return false;
    if (len > 0) /* memcpy takes no null */
        memcpy(file->bytes, scratch->bytes, len);
    return true;
}

bool read_file(const char *path, size_t most, struct buffer *file)
{
    FILE *in = fopen(path, "rb");
    if (in == NULL)
        return complain(path, strerror(errno));
    struct buffer scratch;
    bool done = allocate(&scratch, most) && read_through(&scratch, in, path, file);
    free(scratch.bytes);
    fclose(in);
    return done;
}

static bool write_all(int file, const struct buffer *buffer)
{
    size_t done = 0;
    while (done < buffer->len) {
        ssize_t more = write(file, buffer->bytes + done, buffer->len - done);
        if (more <= 0)
            return false;
        done += (size_t)more;
    }
    return true;
}

bool write_new_file(const char *path, const struct buffer *buffer)
{
    signal(SIGXFSZ, SIG_IGN); /* over the limit of a file's size a write is to fail, as on a full disk: the signal would leave a part */
    int file = open(path, O_WRONLY | O_CREAT | O_EXCL, S_IRUSR | S_IWUSR);
    if (file < 0)
        return complain(path, strerror(errno));
    bool written = fchmod(file, S_IRUSR | S_IWUSR) == 0 && write_all(file, buffer); /* the umask may have taken from its owner too */
    if (close(file) == 0 && written)
        return true;
    unlink(path); /* a part of it would pass for the whole */
    return complain(path, "cannot be written");
}
