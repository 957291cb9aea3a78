/* on FILE PROGRAM: runs the program with this file as its input, which hyperfine without a shell gives to none. */
#include <fcntl.h>
#include <unistd.h>

int main(int count, char **words)
{
    if (count != 3 || dup2(open(words[1], O_RDONLY), 0) != 0)
        return 1;
    execv(words[2], &words[2]);
    return 1;
}
