/* inroot-fs: acts on paths below a directory. This file reads the command line and prints errors. */
#define _GNU_SOURCE
#include "inroot-fs.h"
#include "error_name.h"
#include "inroot.h"

#include <errno.h>
#include <fcntl.h>
#include <getopt.h>
#include <stdio.h>
#include <stdlib.h>
#include <string.h>
#include <unistd.h>

static const char help[] =
    "usage: inroot-fs ROOT COMMAND [OPTION..] ARGUMENT..\n"
    "\n"
    "Acts on paths below the directory ROOT. Each path stays there: an absolute path or link\n"
    "begins at ROOT, and `..` at ROOT is ROOT, whoever renames directories meanwhile.\n"
    "\n"
    "Commands:\n"
    "  resolve PATH         tell what PATH means: `opened KIND PLACE` or `fault ERROR`\n"
    "  realpath PATH        print that PLACE alone\n"
    "  cat PATH..           print the contents of files\n"
    "  ls [PATH]            print the names in a directory, sorted\n"
    "  readlink PATH        print the text of a link\n"
    "  stat PATH            print kind, mode, owner, size and times\n"
    "  write PATH           write standard input to a file, which is made or replaced\n"
    "  mkdir PATH           make a directory\n"
    "  mknod PATH KIND [MAJOR MINOR]\n"
    "                       make a file (f), a FIFO (p), a socket (s) or a device (c, b)\n"
    "  chmod MODE PATH      change the mode of anything but a link, in octal\n"
    "  chown OWNER PATH     change the owner: UID, UID:GID or :GID, in numbers\n"
    "  rm PATH              remove a non-directory\n"
    "  rmdir PATH           remove an empty directory\n"
    "  mv FROM TO           rename an entry\n"
    "  ln EXISTING PATH     give what EXISTING means a second name\n"
    "  ln -s TEXT PATH      make a link with that text\n"
    "\n"
    "Options of every command:\n"
    "  -b, --beneath        refuse what would lead out of ROOT (RESOLVE_BENEATH)\n"
    "  -L, --no-links       refuse every symbolic link on the way (RESOLVE_NO_SYMLINKS)\n"
    "  -D, --no-xdev        refuse what is mounted below ROOT (RESOLVE_NO_XDEV)\n"
    "  -e, --exact          walk by single steps, and ask at which names the object stands\n"
    "\n"
    "Options of some:\n"
    "  -P, --nofollow       resolve, realpath, stat, chown: of a link at the end, take the link itself\n"
    "  -l, --long           ls: with kind and mode, links, owner, group, size and date\n"
    "  -z, --zero           ls, readlink, realpath: print bytes as they are, and end each with a NUL\n"
    "  -m, --mode MODE      write, mkdir, mknod: of what is made, in octal, less the umask\n"
    "  -a, --append         write: at the end of the file\n"
    "  -x, --exclusive      write: refuse a file that is there already\n"
    "  -p, --parents        mkdir: make what is missing on the way, too\n"
    "  -r, --recursive      rm: with all that is below it, and print how many entries went; that\n"
    "                       nothing was there is no error\n"
    "  -n, --no-replace     mv: refuse where TO is there already\n"
    "  -X, --exchange       mv: exchange the two entries\n"
    "  -s, --symbolic       ln: a symbolic link\n"
    "\n"
    "  -h, --help, -V, --version\n"
    "\n"
    "Statuses: 0 it is done; 1 it failed, and standard error says why; 2 a wrong command line; 4 any\n"
    "other fault.\n"
    "\n"
    "Example:\n"
    "  inroot-fs /srv/box cat etc/passwd\n";

static const struct option long_options[] = {
    {"beneath", no_argument, NULL, 'b'},      {"no-links", no_argument, NULL, 'L'},
    {"no-xdev", no_argument, NULL, 'D'},      {"exact", no_argument, NULL, 'e'},
    {"nofollow", no_argument, NULL, 'P'},     {"zero", no_argument, NULL, 'z'},
    {"mode", required_argument, NULL, 'm'},   {"append", no_argument, NULL, 'a'},
    {"exclusive", no_argument, NULL, 'x'},    {"parents", no_argument, NULL, 'p'},
    {"recursive", no_argument, NULL, 'r'},    {"no-replace", no_argument, NULL, 'n'},
    {"exchange", no_argument, NULL, 'X'},     {"symbolic", no_argument, NULL, 's'},
    {"long", no_argument, NULL, 'l'},
    {"help", no_argument, NULL, 'h'},         {NULL, 0, NULL, 0},
};

/* Each command: how many arguments it takes, and which options beside those of every command. */
struct command {
    const char *name;
    int least, most;
    const char *options;
    enum fs_status (*run)(const struct fs_call *call);
};

enum { ANY_NUMBER = 1 << 20 };

static const struct command commands[] = {
    {"resolve", 1, 1, "P", fs_resolve},
    {"realpath", 1, 1, "Pz", fs_realpath},
    {"cat", 1, ANY_NUMBER, "", fs_cat},
    {"ls", 0, 1, "lz", fs_ls},
    {"readlink", 1, 1, "z", fs_readlink},
    {"stat", 1, 1, "P", fs_stat},
    {"write", 1, 1, "max", fs_write},
    {"mkdir", 1, 1, "pm", fs_mkdir},
    {"mknod", 2, 4, "m", fs_mknod},
    {"chmod", 2, 2, "", fs_chmod},
    {"chown", 2, 2, "P", fs_chown},
    {"rm", 1, 1, "r", fs_rm},
    {"rmdir", 1, 1, "", fs_rmdir},
    {"mv", 2, 2, "nX", fs_mv},
    {"ln", 2, 2, "s", fs_ln},
};

void fs_print(const char *bytes, size_t length)
{
    for (size_t at = 0; at < length; at++) {
        unsigned char byte = (unsigned char)bytes[at];
        if (byte < 0x21 || byte > 0x7e || byte == '\\')
            printf("\\x%02x", byte);
        else
            putchar(byte);
    }
}

void fs_print_line(const struct fs_call *call, const char *bytes, size_t length)
{
    if (call->zero)
        fwrite(bytes, 1, length, stdout);
    else
        fs_print(bytes, length);
    putchar(call->zero ? '\0' : '\n');
}

/* Tells what the user gave without letting its bytes at the terminal. */
static void tell_text(const char *text)
{
    for (; *text != '\0'; text++) {
        unsigned char byte = (unsigned char)*text;
        fprintf(stderr, byte < 0x20 || byte > 0x7e || byte == '\\' ? "\\x%02x" : "%c", byte);
    }
}

enum fs_status fs_refused(const struct fs_call *call, const char *path, int error)
{
    struct inroot_error why;
    char sentence[2048];
    const bool is_last = inroot_last_error(&why) == 0 && why.error == error;
    fprintf(stderr, "inroot-fs: %s '", call->command);
    tell_text(path);
    if (is_last && inroot_last_error_text(sentence, sizeof sentence) > 0)
        fprintf(stderr, "': %s\n", sentence);
    else
        fprintf(stderr, "': %s (%s)\n", strerror(error), error_name(error));
    return FS_REFUSED;
}

enum fs_status fs_invalid(const struct fs_call *call, const char *path, const char *why)
{
    fprintf(stderr, "inroot-fs: %s '", call->command);
    tell_text(path);
    fprintf(stderr, "': %s (EINVAL)\n", why);
    return FS_REFUSED;
}

enum fs_status fs_fault(const struct fs_call *call, const char *what, int error)
{
    fprintf(stderr, "inroot-fs: %s: ", call->command);
    tell_text(what);
    fprintf(stderr, ": %s (%s)\n", strerror(error), error_name(error));
    return FS_FAULT;
}

enum fs_status fs_wrong_call(const char *what, const char *word)
{
    fprintf(stderr, "inroot-fs: %s", what);
    if (word != NULL) {
        fputs(" '", stderr);
        tell_text(word);
        fputc('\'', stderr);
    }
    fputs("\ntry 'inroot-fs --help'\n", stderr);
    return FS_WRONG_CALL;
}

bool fs_read_mode(const char *text, mode_t *mode)
{
    char *end;
    if (*text < '0' || *text > '7')
        return false;
    unsigned long number = strtoul(text, &end, 8);
    *mode = (mode_t)number;
    return *end == '\0' && number <= 07777;
}

static void take_option(struct fs_call *call, int option)
{
    switch (option) {
    case 'b': call->flags |= INROOT_BENEATH; break;
    case 'L': call->flags |= INROOT_NO_LINKS; break;
    case 'D': call->flags |= INROOT_NO_XDEV; break;
    case 'e': call->flags |= INROOT_EXACT; break;
    case 'P': call->flags |= INROOT_NOFOLLOW; break;
    case 'z': call->zero = true; break;
    case 'a': call->append = true; break;
    case 'x': call->exclusive = true; break;
    case 'p': call->parents = true; break;
    case 'r': call->recursive = true; break;
    case 's': call->symbolic = true; break;
    case 'l': call->in_full = true; break;
    case 'n': call->mode_of_rename = INROOT_NOREPLACE; break;
    case 'X': call->mode_of_rename = INROOT_EXCHANGE; break;
    }
}

/* Closes standard output, whose last bytes may fail to be written only then. */
static enum fs_status finish(enum fs_status status)
{
    if (ferror(stdout) || fclose(stdout) != 0) {
        fputs("inroot-fs: write failed\n", stderr);
        return FS_FAULT;
    }
    return status;
}

static enum fs_status print_help(void)
{
    fputs(help, stdout);
    return finish(FS_DONE);
}

/* The options of a command, which stand before its arguments. */
static enum fs_status read_options(const struct command *command, int count, char **words, struct fs_call *call)
{
    int option, earlier = 0;
    opterr = 0;
    for (optind = 1; (option = getopt_long(count, words, "+:bLDePzm:axprnXslh", long_options, NULL)) != -1;) {
        if (option == ':')
            return fs_wrong_call("no value stands after", words[optind - 1]);
        if (option == '?')
            return fs_wrong_call("there is no option",
                              optopt != 0 ? (char[]){'-', (char)optopt, '\0'} : words[optind - 1]);
        if (option == 'h')
            exit((int)print_help());
        if (strchr("bLDe", option) == NULL && strchr(command->options, option) == NULL) {
            fprintf(stderr, "inroot-fs: %s has no option -%c\ntry 'inroot-fs --help'\n", command->name, option);
            return FS_WRONG_CALL;
        }
        if (option == 'm' && !fs_read_mode(optarg, &call->mode))
            return fs_wrong_call("a mode is octal digits, at most 7777, and not", optarg);
        if ((option == 'n' || option == 'X') && earlier != 0 && earlier != option)
            return fs_wrong_call("--no-replace and --exchange exclude each other", NULL);
        call->has_mode = call->has_mode || option == 'm';
        earlier = option == 'n' || option == 'X' ? option : earlier;
        take_option(call, option);
    }
    call->words = words + optind;
    return FS_DONE;
}

static const struct command *find_command(const char *name)
{
    for (size_t at = 0; at < sizeof commands / sizeof *commands; at++)
        if (strcmp(commands[at].name, name) == 0)
            return &commands[at];
    return NULL;
}

/* There are too many words: one that looks like an option stands too far behind, or else the last is too many. */
static enum fs_status too_many(char *const *words, int given, int most)
{
    for (int at = 0; at < given; at++)
        if (words[at][0] == '-' && words[at][1] != '\0')
            return fs_wrong_call("options stand before the other arguments:", words[at]);
    return fs_wrong_call("there is an argument too many:", words[most]);
}

static enum fs_status run(int count, char **words)
{
    const struct command *command = find_command(words[2]);
    if (command == NULL)
        return fs_wrong_call("there is no command", words[2]);
    struct fs_call call = {.command = command->name};
    enum fs_status status = read_options(command, count - 2, words + 2, &call);
    if (status != FS_DONE)
        return status;
    int given = (int)(words + count - call.words);
    if (given < command->least)
        return fs_wrong_call("an argument is missing to", command->name);
    if (given > command->most)
        return too_many(call.words, given, command->most);
    call.root = open(words[1], O_PATH | O_DIRECTORY | O_CLOEXEC);
    if (call.root < 0)
        return fs_fault(&(struct fs_call){.command = "the root can't be opened"}, words[1], errno);
    status = command->run(&call);
    close(call.root);
    return finish(status);
}

static enum fs_status run_line(int count, char **words)
{
    if (count >= 2 && (strcmp(words[1], "--help") == 0 || strcmp(words[1], "-h") == 0))
        return print_help();
    if (count >= 2 && (strcmp(words[1], "--version") == 0 || strcmp(words[1], "-V") == 0)) {
        printf("inroot-fs %s\n", inroot_version());
        return finish(FS_DONE);
    }
    if (count >= 2 && words[1][0] == '-')
        return fs_wrong_call("there is no option", words[1]);
    if (count < 3)
        return fs_wrong_call(count < 2 ? "ROOT and COMMAND are missing" : "COMMAND is missing", NULL);
    return run(count, words);
}

/* The number of a standard file that is closed is no other file's: an error message would be written there. */
static bool hold_standard_files(void)
{
    for (int fd = 0; fd <= STDERR_FILENO; fd++)
        if (fcntl(fd, F_GETFD) < 0 && open("/", O_PATH | O_DIRECTORY | O_CLOEXEC) != fd)
            return false;
    return true;
}

int main(int count, char **words)
{
    return hold_standard_files() ? (int)run_line(count, words) : FS_FAULT;
}
