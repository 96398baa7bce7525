/* Preloaded by shim/test: every close that a program makes itself fails, as one can on a file system of another machine. */
int close(int file);

int close(int file)
{
    (void)file;
    return -1;
}
