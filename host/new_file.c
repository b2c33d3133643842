#include "new_file.h"

#include <errno.h>
#include <fcntl.h>
#include <signal.h>
#include <stdlib.h>
#include <string.h>
#include <sys/random.h>
#include <sys/stat.h>
#include <sys/xattr.h>
#include <unistd.h>

#include "lines.h"
#include "turns.h"

/* What a signal has to take away, where it has a name; null while it is free. */
static new_file *volatile being_written[MOST_NEW_FILES];

/* Whether a signal ends a program that does not know it; SIGKILL ends any. */
static bool is_ending(int number)
{
    switch (number) {
    case SIGKILL:
    case SIGSTOP:
    case SIGTSTP:
    case SIGTTIN:
    case SIGTTOU:
    case SIGCONT:
    case SIGCHLD:
    case SIGURG:
    case SIGWINCH: return false;
    default: return true;
    }
}

static void take_away(int number)
{
    for (int k = 0; k < MOST_NEW_FILES; k++) {
        if (being_written[k] != NULL && being_written[k]->beside[0] != 0) {
            unlinkat(being_written[k]->folder, being_written[k]->beside, 0);
        }
    }
    signal(number, SIG_DFL);
    raise(number);
}

static void watch_signals(void)
{
    for (int number = 1; number < NSIG; number++) {
        struct sigaction now = {.sa_handler = take_away}, before;
        if (is_ending(number) && sigaction(number, NULL, &before) == 0 &&
            before.sa_handler == SIG_DFL) {
            sigaction(number, &now, NULL);
        }
    }
}

/* While a file has a name that a signal would leave behind, or files change places. */
static void hold_signals(sigset_t *before)
{
    sigset_t held;
    sigemptyset(&held);
    for (int number = 1; number < NSIG; number++) {
        if (is_ending(number)) {
            sigaddset(&held, number);
        }
    }
    sigprocmask(SIG_BLOCK, &held, before);
}

static void release_signals(const sigset_t *before)
{
    sigprocmask(SIG_SETMASK, before, NULL);
}

static bool remember(new_file *file)
{
    for (int k = 0; k < MOST_NEW_FILES; k++) {
        if (being_written[k] == NULL) {
            being_written[k] = file;
            return true;
        }
    }
    errno = EMFILE;
    return false;
}

/* Closes it, and takes away the name that it has of its own. */
static void forget(new_file *file)
{
    for (int k = 0; k < MOST_NEW_FILES; k++) {
        if (being_written[k] == file) {
            being_written[k] = NULL;
        }
    }
    if (file->beside[0] != 0) {
        unlinkat(file->folder, file->beside, 0);
    }
    if (file->file != NULL) {
        fclose(file->file);
    }
    if (file->folder >= 0) {
        close(file->folder);
    }
    free(file->path);
    *file = (new_file){.folder = -1};
}

/* Nothing else has this name, for nobody can guess it. */
static bool draw_name(char *name)
{
    static const char letters[] = "abcdefghijklmnopqrstuvwxyz234567";
    unsigned char drawn[16];
    if (getrandom(drawn, sizeof drawn, 0) != (ssize_t)sizeof drawn) {
        return false;
    }
    int at = snprintf(name, OWN_NAME_ROOM, ".spirerook-");
    for (size_t k = 0; k < sizeof drawn; k++) {
        name[at++] = letters[drawn[k] % 32];
    }
    name[at] = 0;
    return true;
}

/* Gives a file without a name this one; nothing may have it. */
static bool give_name(const new_file *file, const char *name)
{
    char own[32];
    snprintf(own, sizeof own, "/proc/self/fd/%d", fileno(file->file));
    return linkat(AT_FDCWD, own, file->folder, name, AT_SYMLINK_FOLLOW) == 0;
}

/* The access list of the old file, which its mode only sums up; or none, though the folder gives
 * its new files one. */
static bool take_access_list(int made, const char *old_name)
{
    static const char list[] = "system.posix_acl_access";
    char octets[4096];
    ssize_t size = getxattr(old_name, list, octets, sizeof octets);
    if (size > 0) {
        return fsetxattr(made, list, octets, (size_t)size, 0) == 0;
    }
    return errno == ENOTSUP ||
           (errno == ENODATA && (fremovexattr(made, list) == 0 || errno == ENODATA));
}

/* The owner, group and rights of the file that is replaced.  Where the group or the list cannot be
 * had, the group gets what all others do; and none runs in the name of another owner. */
static bool take_rights(int made, const char *old_name, const struct stat *old)
{
    struct stat now;
    mode_t mode = old->st_mode & 07777;
    bool group = fchown(made, old->st_uid, old->st_gid) == 0 ||
                 fchown(made, (uid_t)-1, old->st_gid) == 0;
    if (!take_access_list(made, old_name) || !group) {
        mode = (mode & ~(mode_t)S_IRWXG) | (mode & S_IRWXO) << 3;
    }
    if (fstat(made, &now) != 0) {
        return false;
    }
    if (now.st_uid != old->st_uid || now.st_gid != old->st_gid) {
        mode &= ~(mode_t)(S_ISUID | S_ISGID);
    }
    return fchmod(made, mode) == 0;
}

/* Without a name where that can be, and where it can be given one later. */
static int make_nameless(int folder, mode_t mode)
{
    char own[32];
    int made = openat(folder, ".", O_TMPFILE | O_WRONLY | O_CLOEXEC, mode);
    snprintf(own, sizeof own, "/proc/self/fd/%d", made);
    if (made >= 0 && access(own, F_OK) != 0) {
        close(made);
        made = -1;
    }
    return made;
}

static int make_named(new_file *file, mode_t mode)
{
    if (!draw_name(file->beside)) {
        return -1;
    }
    watch_signals();
    int made = openat(file->folder, file->beside, O_CREAT | O_EXCL | O_WRONLY | O_CLOEXEC, mode);
    if (made < 0) {
        file->beside[0] = 0;
    }
    return made;
}

/* A file where none stood has the rights that any file made there has. */
static bool make_file(new_file *file, const struct stat *old)
{
    mode_t mode = old == NULL ? 0666 : S_IRUSR | S_IWUSR;
    int made = make_nameless(file->folder, mode);
    if (made < 0) {
        made = make_named(file, mode);
    }
    if (made < 0) {
        return false;
    }
    file->file = old == NULL || take_rights(made, file->path, old) ? fdopen(made, "wb") : NULL;
    if (file->file == NULL) {
        close(made);
    }
    return file->file != NULL;
}

/* The folder of the place and the name in it; of a link to a file, those of the file. */
static bool find_place(const char *name, bool is_link, new_file *file)
{
    file->path = is_link ? realpath(name, NULL) : strdup(name);
    if (file->path == NULL) {
        return false;
    }
    char *slash = strrchr(file->path, '/');
    file->last = slash == NULL ? file->path : slash + 1;
    char *folder = slash == NULL         ? strdup(".")
                   : slash == file->path ? strdup("/")
                                         : strndup(file->path, (size_t)(slash - file->path));
    if (folder != NULL) {
        file->folder = open(folder, O_PATH | O_DIRECTORY | O_CLOEXEC);
    }
    free(folder);
    if (file->folder >= 0 && file->last[0] == 0) {
        errno = ENOENT;
        return false;
    }
    return file->folder >= 0;
}

const char *open_beside(const char *name, new_file *file)
{
    struct stat there, itself;
    sigset_t before;
    bool exists = stat(name, &there) == 0;
    bool is_link = lstat(name, &itself) == 0 && S_ISLNK(itself.st_mode);
    *file = (new_file){.folder = -1};
    if (is_link && !exists) {
        return "a link that leads nowhere stands there";
    }
    if (exists && !S_ISREG(there.st_mode)) {
        return "something that is no file stands there";
    }
    if (exists && access(name, W_OK) != 0) {
        return strerror(errno);
    }
    hold_signals(&before);
    bool made = find_place(name, is_link, file) && make_file(file, exists ? &there : NULL) &&
                remember(file);
    const char *why = made ? NULL : strerror(errno);
    if (!made) {
        forget(file);
    }
    release_signals(&before);
    return why;
}

const char *complete_file(new_file *file)
{
    errno = EIO;
    bool done = !ferror(file->file) && fflush(file->file) == 0 && fsync(fileno(file->file)) == 0;
    return done ? NULL : strerror(errno);
}

/* Gives what stands in the place, if anything does, a name of its own: at best it and the new file
 * change places at once, so that the place is never empty. */
static bool move_old(new_file *file)
{
    int folder = file->folder;
    struct stat there;
    if (fstatat(folder, file->last, &there, AT_SYMLINK_NOFOLLOW) != 0) {
        return errno == ENOENT;
    }
    if (S_ISDIR(there.st_mode)) {
        errno = EISDIR;
        return false;
    }
    if (renameat2(folder, file->beside, folder, file->last, RENAME_EXCHANGE) == 0) {
        memcpy(file->old, file->beside, sizeof file->old);
        file->beside[0] = 0;
        return true;
    }
    if ((errno != EINVAL && errno != ENOSYS) || !draw_name(file->old)) {
        return false;
    }
    bool moved = renameat(folder, file->last, folder, file->old) == 0;
    if (!moved) {
        file->old[0] = 0;
    }
    return moved;
}

/* What the last one replaces never has to go back, so it needs no name. */
static bool take_place(new_file *file, bool is_last)
{
    if (file->beside[0] == 0) {
        file->placed = give_name(file, file->last);
        if (file->placed || errno != EEXIST || !draw_name(file->beside)) {
            return file->placed;
        }
        if (!give_name(file, file->beside)) {
            file->beside[0] = 0;
            return false;
        }
    }
    if (!is_last && !move_old(file)) {
        return false;
    }
    if (file->beside[0] != 0) {
        if (renameat(file->folder, file->beside, file->folder, file->last) != 0) {
            return false;
        }
        file->beside[0] = 0;
    }
    file->placed = true;
    return true;
}

/* The place has again what stood there. */
static void give_back(const new_file *file)
{
    if (file->old[0] == 0) {
        if (file->placed) {
            unlinkat(file->folder, file->last, 0);
        }
    } else if (renameat(file->folder, file->old, file->folder, file->last) != 0) {
        complain("%s: what stood there has the name %s now: %s", file->path, file->old,
                 strerror(errno));
    }
}

/* The names reach the disk too, where the folder lets itself be told; the old file goes. */
static void settle(const new_file *file)
{
    int folder = openat(file->folder, ".", O_RDONLY | O_DIRECTORY | O_CLOEXEC);
    if (folder >= 0) {
        fsync(folder);
        close(folder);
    }
    if (file->old[0] != 0) {
        unlinkat(file->folder, file->old, 0);
    }
}

/* One file takes its place at once, and needs no turn. */
static const char *await_turn(new_file *const *files, unsigned count, turn *taken)
{
    int folders[MOST_NEW_FILES];
    taken->count = 0;
    for (unsigned k = 0; k < count; k++) {
        folders[k] = files[k]->folder;
    }
    return count > 1 ? take_turn(folders, count, taken) : NULL;
}

const char *keep_files(new_file *const *files, unsigned count, unsigned *failed)
{
    const char *why = NULL;
    sigset_t before;
    turn taken = {.count = 0};
    for (unsigned k = 0; why == NULL && k < count; k++) {
        why = complete_file(files[k]);
        *failed = k;
    }
    if (why == NULL) {
        why = await_turn(files, count, &taken);
    }
    hold_signals(&before);
    for (unsigned k = 0; why == NULL && k < count; k++) {
        why = take_place(files[k], k + 1 == count) ? NULL : strerror(errno);
        *failed = k;
    }
    for (unsigned k = 0; k < count; k++) {
        if (why == NULL) {
            settle(files[k]);
        } else {
            give_back(files[k]);
        }
        forget(files[k]);
    }
    end_turn(&taken);
    release_signals(&before);
    return why;
}

const char *keep_file(new_file *file)
{
    unsigned failed;
    return keep_files(&file, 1, &failed);
}

void drop_file(new_file *file)
{
    sigset_t before;
    if (file->file != NULL) {
        hold_signals(&before);
        forget(file);
        release_signals(&before);
    }
}
