/* Preloaded into the viewer or the page maker: a codec that somebody else has taken over.  The first
 * call of jbigkit or libpng in a decoder's process does the deed that the environment names:
 *
 *   DEED=stray-below, stray-above, stray-all   writes beyond its own samples, or over every mapping
 *        that the program ever made, and aborts
 *   DEED=exit:N, leave:N    ends by _exit(N) or exit(N) without having decoded anything
 *   DEED=forge              reports to the pipe with octets 0 and ends with the right status
 *   DEED=flood              writes to the pipe for ever
 *   DEED=spin               never ends
 *   DEED=memory             writes over the layers that the viewer holds, through /proc, and decodes on
 *   DEED=eat:N              takes N MiB of memory, or ends
 *   DEED=calls:N            asks the system for call N, then N + 1 and so on, one in each process
 *   DEED=other:NAME         what needs arguments: see the table below
 *   DEED=keep               leaves a grandchild that holds all memory, and decodes on
 *
 * A deed that is let do its work goes on and decodes, so that the layer is read. */
#include <dlfcn.h>
#include <errno.h>
#include <fcntl.h>
#include <netinet/in.h>
#include <signal.h>
#include <stdint.h>
#include <stdio.h>
#include <stdlib.h>
#include <string.h>
#include <sys/mman.h>
#include <sys/ptrace.h>
#include <sys/resource.h>
#include <sys/socket.h>
#include <sys/syscall.h>
#include <sys/uio.h>
#include <sys/wait.h>
#include <unistd.h>

enum { MOST_MAPPINGS = 64, RIGHT_STATUS = 113, LETTER = 280, STRAY = 4096 };

/* Every mapping that was made, in the order of making: decoders inherit the list. */
static struct {
    uint8_t *at;
    size_t octets;
} mappings[MOST_MAPPINGS];
static int mapping_count;

static volatile int *count; /* of the decoders' processes, in memory that all share */
static pid_t viewer;
static int done;
static uint8_t *own; /* the samples of the layer that is decoded, and how many octets they have */
static size_t own_octets;

__attribute__((constructor)) static void begin(void)
{
    count = mmap(NULL, sizeof *count, PROT_READ | PROT_WRITE, MAP_SHARED | MAP_ANONYMOUS, -1, 0);
    mapping_count = 0;
    viewer = getpid();
}

void *mmap(void *at, size_t octets, int rights, int kind, int file, off_t from)
{
    void *made = (void *)syscall(SYS_mmap, at, octets, rights, kind, file, from);
    if (made != MAP_FAILED && mapping_count < MOST_MAPPINGS) {
        mappings[mapping_count].at = made;
        mappings[mapping_count++].octets = octets;
    }
    return made;
}

/* Beyond the last sample there may be the rest of a page, which is nobody's. */
static void stray(const char *where)
{
    if (strcmp(where, "below") == 0) {
        memset(own - STRAY, 0, STRAY);
    } else if (strcmp(where, "above") == 0) {
        memset(own + own_octets, 0, 2 * STRAY);
    } else {
        for (int k = 0; k < mapping_count; k++) {
            memset(mappings[k].at, 0, mappings[k].octets);
        }
    }
    abort();
}

static void make_call(long number)
{
    static const long allowed[] = {SYS_brk,     SYS_munmap,     SYS_mremap, SYS_madvise,
                                   SYS_sysinfo, SYS_exit_group, SYS_write,  SYS_mmap};
    for (size_t k = 0; k < sizeof allowed / sizeof *allowed; k++) {
        if (number == allowed[k]) {
            raise(SIGSYS);
        }
    }
    syscall(number, 0, 0, 0, 0, 0, 0);
}

static const char *path(void)
{
    return getenv("TAKEN_FILE");
}

/* ---- what needs arguments ---- */

static void write_file(void)
{
    close(open(path(), O_WRONLY | O_CREAT, 0666));
}
static void read_file(void)
{
    close(open("/etc/passwd", O_RDONLY));
}
static void open_socket(void)
{
    close(socket(AF_INET, SOCK_STREAM, 0));
}
static void open_raw_socket(void)
{
    close(socket(AF_UNIX, SOCK_DGRAM, 0));
}
static void make_memory_file(void)
{
    close(memfd_create("mine", 0));
}
static void stop_viewer(void)
{
    kill(viewer, SIGSTOP);
}
static void read_input(void)
{
    char octet;
    if (read(0, &octet, 1) < 0)
        abort();
}
static void speak(void)
{
    if (write(1, "all seen\n", 9) < 0)
        abort();
}
static void shout(void)
{
    if (write(2, "all seen\n", 9) < 0)
        abort();
}
static void become_dumpable(void)
{
    syscall(SYS_prctl, 4, 1, 0, 0, 0);
}
static void run_program(void)
{
    execl("/bin/true", "true", (char *)NULL);
}

static void leave_grandchild(void)
{
    if (fork() == 0) {
        setsid();
        sleep(1);
        write_file();
        _exit(0);
    }
}

static void hold_viewer(void)
{
    if (ptrace(PTRACE_ATTACH, viewer, 0, 0) == 0) {
        for (;;) {
            pause();
        }
    }
}

static void write_viewer(void)
{
    uint8_t octets[16] = {0};
    for (int k = 0; k < mapping_count; k++) {
        struct iovec from = {octets, sizeof octets}, to = {mappings[k].at, sizeof octets};
        process_vm_writev(viewer, &from, 1, &to, 1, 0);
    }
}

static void make_code(void)
{
    void *page = mmap(NULL, 4096, PROT_READ | PROT_WRITE | PROT_EXEC, MAP_PRIVATE | MAP_ANONYMOUS,
                      -1, 0);
    munmap(page, 4096);
}

static void turn_to_code(void)
{
    void *page = mmap(NULL, 4096, PROT_READ | PROT_WRITE, MAP_PRIVATE | MAP_ANONYMOUS, -1, 0);
    mprotect(page, 4096, PROT_READ | PROT_EXEC);
}

/* Of no octets: where it is let through, nothing is harmed. */
static void poison_memory(void)
{
    madvise(NULL, 0, MADV_HWPOISON);
}

static void offline_memory(void)
{
    madvise(NULL, 0, MADV_HWPOISON + 1);
}

static void raise_limits(void)
{
    struct rlimit all = {RLIM_INFINITY, RLIM_INFINITY};
    setrlimit(RLIMIT_CPU, &all);
}

/* Calls by the numbers of other machines that the kernel also knows. */
static void call_as_32_bits(void)
{
#ifdef __x86_64__
    long number = 20;
    __asm__ volatile("int $0x80" : "+a"(number) : : "memory");
#else
    getppid();
#endif
}

static void call_as_x32(void)
{
    syscall(0x40000000 + 39, 0);
}

static const struct {
    const char *name;
    void (*deed)(void);
} others[] = {{"write-file", write_file},
              {"read-file", read_file},
              {"socket", open_socket},
              {"unix-socket", open_raw_socket},
              {"memory-file", make_memory_file},
              {"stop-viewer", stop_viewer},
              {"read-input", read_input},
              {"speak", speak},
              {"shout", shout},
              {"dumpable", become_dumpable},
              {"program", run_program},
              {"grandchild", leave_grandchild},
              {"hold-viewer", hold_viewer},
              {"write-viewer", write_viewer},
              {"code", make_code},
              {"turn-to-code", turn_to_code},
              {"poison", poison_memory},
              {"offline", offline_memory},
              {"limits", raise_limits},
              {"32-bits", call_as_32_bits},
              {"x32", call_as_x32}};

static void do_other(const char *name)
{
    for (size_t k = 0; k < sizeof others / sizeof *others; k++) {
        if (strcmp(others[k].name, name) == 0) {
            others[k].deed();
            return;
        }
    }
    fprintf(stderr, "no such deed: %s\n", name);
    abort();
}

static void write_layers(void)
{
    char name[64], line[512];
    uint8_t octets[64];
    memset(octets, 1, sizeof octets);
    snprintf(name, sizeof name, "/proc/%d/maps", viewer);
    FILE *maps = fopen(name, "r");
    snprintf(name, sizeof name, "/proc/%d/mem", viewer);
    int memory = open(name, O_RDWR);
    while (maps != NULL && fgets(line, sizeof line, maps) != NULL) {
        if (strstr(line, "samples") != NULL &&
            pwrite(memory, octets, sizeof octets, (off_t)strtoull(line, NULL, 16)) < 0) {
            errno = 0;
        }
    }
}

static void flood(size_t octets)
{
    static const uint8_t zeros[LETTER];
    do {
        if (write(3, zeros, sizeof zeros) < 0) {
            abort();
        }
    } while (octets == 0);
}

static const char *behind(const char *deed, const char *start)
{
    size_t length = strlen(start);
    return strncmp(deed, start, length) == 0 ? deed + length : NULL;
}

static void do_deed(void)
{
    const char *deed = getenv("DEED"), *rest;
    if (deed == NULL || done++ > 0) {
        return;
    }
    if ((rest = behind(deed, "stray-")) != NULL) {
        stray(rest);
    } else if ((rest = behind(deed, "exit:")) != NULL) {
        _exit(atoi(rest));
    } else if ((rest = behind(deed, "leave:")) != NULL) {
        exit(atoi(rest));
    } else if (strcmp(deed, "forge") == 0) {
        flood(1);
        _exit(RIGHT_STATUS);
    } else if (strcmp(deed, "flood") == 0) {
        flood(0);
    } else if (strcmp(deed, "spin") == 0) {
        for (;;) {
        }
    } else if (strcmp(deed, "memory") == 0) {
        write_layers();
    } else if ((rest = behind(deed, "eat:")) != NULL) {
        size_t octets = (size_t)atoi(rest) << 20;
        if (mmap(NULL, octets, PROT_READ | PROT_WRITE, MAP_PRIVATE | MAP_ANONYMOUS, -1, 0) ==
            MAP_FAILED) {
            _exit(1);
        }
    } else if ((rest = behind(deed, "calls:")) != NULL) {
        make_call(atoi(rest) + (*count)++);
    } else if ((rest = behind(deed, "other:")) != NULL) {
        do_other(rest);
    } else if (strcmp(deed, "keep") == 0 && fork() == 0) {
        sleep(5);
        _exit(0);
    }
}

/* ---- the codecs' calls ---- */

void jbg85_dec_init(void *state, unsigned char *memory, size_t octets,
                    int (*out)(const void *, unsigned char *, size_t, unsigned long, void *),
                    void *file);
void jbg85_dec_init(void *state, unsigned char *memory, size_t octets,
                    int (*out)(const void *, unsigned char *, size_t, unsigned long, void *),
                    void *file)
{
    void (*real)(void *, unsigned char *, size_t,
                 int (*)(const void *, unsigned char *, size_t, unsigned long, void *), void *);
    *(void **)&real = dlsym(RTLD_NEXT, "jbg85_dec_init");
    /* as host/view/decode_t85.c has them: the layer, its samples; of the layer coder and sides */
    const uint32_t *layer = *(const uint32_t **)file;
    own = ((uint8_t **)file)[1];
    own_octets = (size_t)layer[1] * layer[2];
    do_deed();
    real(state, memory, octets, out, file);
}

void *png_create_read_struct(const char *version, void *about, void *on_error, void *on_warning);
void *png_create_read_struct(const char *version, void *about, void *on_error, void *on_warning)
{
    void *(*real)(const char *, void *, void *, void *);
    *(void **)&real = dlsym(RTLD_NEXT, "png_create_read_struct");
    do_deed();
    return real(version, about, on_error, on_warning);
}
