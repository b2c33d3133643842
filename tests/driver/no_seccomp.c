/* no_seccomp PROGRAM WORD ..: runs a program as on a kernel without seccomp: what asks for a filter
 * fails, and so does what asks whether there are any. */
#include <errno.h>
#include <linux/filter.h>
#include <linux/seccomp.h>
#include <stddef.h>
#include <stdio.h>
#include <sys/prctl.h>
#include <sys/syscall.h>
#include <unistd.h>

#define LOAD(field) BPF_STMT(BPF_LD | BPF_W | BPF_ABS, offsetof(struct seccomp_data, field))
#define IF(value, yes, no) BPF_JUMP(BPF_JMP | BPF_JEQ | BPF_K, value, yes, no)
#define END(action) BPF_STMT(BPF_RET | BPF_K, action)

int main(int words, char **word)
{
    struct sock_filter steps[] = {
        LOAD(nr),
        IF(SYS_seccomp, 0, 1),
        END(SECCOMP_RET_ERRNO | ENOSYS),
        IF(SYS_prctl, 0, 3),
        LOAD(args[0]),
        IF(PR_SET_SECCOMP, 0, 1),
        END(SECCOMP_RET_ERRNO | EINVAL),
        END(SECCOMP_RET_ALLOW),
    };
    struct sock_fprog filter = {sizeof steps / sizeof *steps, steps};
    if (words < 2 || prctl(PR_SET_NO_NEW_PRIVS, 1, 0, 0, 0) != 0 ||
        prctl(PR_SET_SECCOMP, SECCOMP_MODE_FILTER, &filter) != 0) {
        perror("no_seccomp");
        return 125;
    }
    execv(word[1], word + 1);
    perror(word[1]);
    return 126;
}
