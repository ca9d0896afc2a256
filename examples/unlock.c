/* unlock BOOK.xlsx [PASSWORD-FILE]: opens a locked workbook beside itself, as BOOK.opened.xlsx. Without a file the password is asked
 * for on the terminal. The package is taken to be in ECB, as Office locks it; one that was chained takes ROPESHADOW_CHAINED below,
 * since nothing in the workbook tells the two apart. The exit status is 0 for an opened workbook, 1 for a refusal, 2 where something
 * could not be read or written.
 *
 *     cc -Iinclude $(pkg-config --cflags libgsf-1) -o unlock examples/unlock.c target/lib/libropeshadow.a $(pkg-config --libs libgsf-1)
 */
#include <gsf/gsf.h>
#include <ropeshadow.h>
#include <stdio.h>
#include <stdlib.h>
#include <string.h>
#include <termios.h>

static void stop(const char *what, const char *why) {
    fprintf(stderr, "unlock: %s: %s\n", what, why);
    exit(2);
}

static const char *words(unsigned answer) {
    switch (answer) {
    case ROPESHADOW_DONE: return "opened";
    case ROPESHADOW_VERSION: return "not locked by Standard encryption";
    case ROPESHADOW_PASSWORD_LONG: return "the password has more than 255 units";
    case ROPESHADOW_PASSWORD_WRONG: return "wrong password";
    case ROPESHADOW_STREAM_SIZE: return "the package is larger than 256 MiB";
    case ROPESHADOW_STREAM_SHORT:
    case ROPESHADOW_STREAM_LENGTH: return "EncryptedPackage does not have the length that it states";
    default: return "EncryptionInfo is damaged, or describes another kind of lock";
    }
}

/* A stream of the compound file, in memory that is never null. */
static guint8 *read_stream(GsfInfile *book, const char *name, gsize *size) {
    GsfInput *in = gsf_infile_child_by_name(book, name);
    if (in == NULL) stop(name, "no such stream");
    *size = (gsize)gsf_input_size(in);
    guint8 *bytes = g_try_malloc(*size + 1);
    if (bytes == NULL || (*size != 0 && gsf_input_read(in, *size, bytes) == NULL)) stop(name, "cannot be read");
    g_object_unref(in);
    return bytes;
}

/* A line typed with the echo off; the interrupt key is off too, so that the echo always comes back. */
static char *ask(void) {
    struct termios before, quiet;
    char *line = NULL;
    size_t room = 0;
    if (tcgetattr(0, &before) != 0) stop("password", "no terminal to ask on; name a file");
    quiet = before;
    quiet.c_lflag &= ~(tcflag_t)(ECHO | ISIG);
    if (tcsetattr(0, TCSAFLUSH, &quiet) != 0) stop("password", "the echo cannot be turned off");
    fputs("Password: ", stderr);
    ssize_t read = getline(&line, &room, stdin);
    if (tcsetattr(0, TCSAFLUSH, &before) != 0 || read < 0) stop("password", "cannot be read");
    fputc('\n', stderr);
    return line;
}

int main(int count, char **argv) {
    GError *error = NULL;
    if (count != 2 && count != 3) stop("use", "unlock BOOK.xlsx [PASSWORD-FILE]");
    gsf_init();
    GsfInput *file = gsf_input_stdio_new(argv[1], &error);
    GsfInfile *book = file == NULL ? NULL : gsf_infile_msole_new(file, &error);
    if (book == NULL) stop(argv[1], error != NULL ? error->message : "no compound file");
    gsize info_size, stream_size;
    guint8 *info = read_stream(book, "EncryptionInfo", &info_size), *stream = read_stream(book, "EncryptedPackage", &stream_size);

    char *typed;
    if (count == 2) typed = ask();
    else if (!g_file_get_contents(argv[2], &typed, NULL, &error)) stop(argv[2], error->message);
    typed[strcspn(typed, "\r\n")] = '\0';
    glong units;
    gunichar2 *password = g_utf8_to_utf16(typed, -1, NULL, &units, &error);
    if (password == NULL) stop("password", error->message);

    guint8 *out = g_try_malloc(stream_size + 1);
    if (out == NULL) stop("EncryptedPackage", "too large for the memory");
    uint64_t word = ropeshadow_open(info, info_size, password, (size_t)units, ROPESHADOW_ECB, stream, stream_size, out, stream_size);
    unsigned answer = ROPESHADOW_ANSWER(word);
    if (answer != ROPESHADOW_DONE) {
        fprintf(stderr, "unlock: %s: %s (answer %u)\n", argv[1], words(answer), answer);
        return 1;
    }
    size_t stem = strlen(argv[1]) - (g_str_has_suffix(argv[1], ".xlsx") ? 5 : 0);
    char *name = g_strdup_printf("%.*s.opened.xlsx", (int)stem, argv[1]);
    /* written under another name, then renamed: there is never a half workbook */
    if (!g_file_set_contents_full(name, (char *)out, (gssize)ROPESHADOW_SIZE(word), G_FILE_SET_CONTENTS_CONSISTENT, 0600, &error))
        stop(name, error->message);
    return printf("%s: %s, %zu bytes\n", name, words(answer), ROPESHADOW_SIZE(word)) < 0 || fflush(stdout) != 0 ? 2 : 0;
}
