/* Reads of standard input and writes of standard output that move at most READ_MOST and WRITE_MOST bytes, and fail once READ_LEFT and WRITE_LEFT bytes
   have gone through. What the environment doesn't set is not limited. */
#include <errno.h>
#include <stdlib.h>
#include <sys/syscall.h>
#include <unistd.h>

struct stream { size_t most, left; int error, known; };

static struct stream in = {.error = EIO}, out = {.error = ENOSPC};

static size_t limit(const char *name)
{
    const char *text = getenv(name);
    return text ? strtoull(text, NULL, 10) : (size_t)-1;
}

/* How many of so many bytes may go through now. */
static size_t allowed(struct stream *s, const char *most, const char *left, size_t count)
{
    if (!s->known) {
        s->most = limit(most);
        s->left = limit(left);
        s->known = 1;
    }
    count = count < s->most ? count : s->most;
    return count < s->left ? count : s->left;
}

static ssize_t moved(struct stream *s, ssize_t count)
{
    if (count > 0 && s->left != (size_t)-1)
        s->left -= (size_t)count;
    return count;
}

static ssize_t failed(const struct stream *s)
{
    errno = s->error;
    return -1;
}

ssize_t read(int file, void *bytes, size_t count)
{
    if (file != 0)
        return syscall(SYS_read, file, bytes, count);
    size_t now = allowed(&in, "READ_MOST", "READ_LEFT", count);
    return now ? moved(&in, syscall(SYS_read, file, bytes, now)) : failed(&in);
}

ssize_t write(int file, const void *bytes, size_t count)
{
    if (file != 1)
        return syscall(SYS_write, file, bytes, count);
    size_t now = allowed(&out, "WRITE_MOST", "WRITE_LEFT", count);
    return now ? moved(&out, syscall(SYS_write, file, bytes, now)) : failed(&out);
}
