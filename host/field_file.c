#define _POSIX_C_SOURCE 200809L

#include "field_file.h"

#include <errno.h>
#include <fcntl.h>
#include <stdio.h>
#include <stdlib.h>
#include <string.h>
#include <unistd.h>

/* The text with an ending; to be freed. */
static char *with_ending(const char *text, const char *ending)
{
    size_t size = strlen(text) + strlen(ending) + 1;
    char *joined = malloc(size);

    if (joined != NULL)
        snprintf(joined, size, "%s%s", text, ending);
    return joined;
}

/* Closes a file after something failed, so that the reason of the failure stays in errno. */
static int close_failed(int file)
{
    int reason = errno;

    close(file);
    errno = reason;
    return -1;
}

enum field_file_outcome field_file_load(const char *path, uint8_t bytes[FIELD_FILE_MOST_BYTES], size_t *length)
{
    ssize_t got = 1;
    int file = open(path, O_RDONLY);

    *length = 0;
    if (file < 0)
        return errno == ENOENT ? FIELD_FILE_ABSENT : FIELD_FILE_FAILED;
    while (got != 0 && *length < FIELD_FILE_MOST_BYTES) {
        got = read(file, bytes + *length, FIELD_FILE_MOST_BYTES - *length);
        if (got > 0)
            *length += (size_t)got;
        else if (got < 0 && errno != EINTR) {
            close_failed(file);
            return FIELD_FILE_FAILED;
        }
    }
    close(file);
    return FIELD_FILE_READ;
}

static int write_synced(const char *path, const uint8_t *image, size_t length)
{
    size_t written = 0;
    int file = open(path, O_WRONLY | O_CREAT | O_TRUNC, 0666);

    if (file < 0)
        return -1;
    while (written < length) {
        ssize_t put = write(file, image + written, length - written);

        if (put >= 0)
            written += (size_t)put;
        else if (errno != EINTR)
            return close_failed(file);
    }
    if (fsync(file) != 0)
        return close_failed(file);
    return close(file);
}

/* A new name is on the disk only when the folder that holds it is. */
static int sync_folder_of(const char *path)
{
    char *folder = with_ending(path, "");
    char *slash;
    int file;

    if (folder == NULL)
        return -1;
    slash = strrchr(folder, '/');
    if (slash != NULL)
        slash[slash == folder ? 1 : 0] = '\0';
    file = open(slash != NULL ? folder : ".", O_RDONLY | O_DIRECTORY);
    free(folder);
    if (file < 0)
        return -1;
    if (fsync(file) != 0)
        return close_failed(file);
    return close(file);
}

int field_file_save(const char *path, const uint8_t *image, size_t length)
{
    char *beside = with_ending(path, ".new");
    int status, reason;

    if (beside == NULL)
        return -1;
    status = write_synced(beside, image, length);
    if (status == 0)
        status = rename(beside, path);
    if (status != 0) {
        reason = errno;
        unlink(beside);
        errno = reason;
    } else {
        status = sync_folder_of(path);
    }
    free(beside);
    return status;
}
