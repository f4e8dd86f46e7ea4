/*
 * An image kept in a file, so that a crash or a power cut at any moment leaves either the old image or the new one, whole.
 */
#ifndef FIELD_FILE_H
#define FIELD_FILE_H

#include "etzvanul.h"

/*
 * What is read of a file at most. An image is over within the largest image or wrong within one record more, and no record is longer
 * than 20 bytes; so reading on would not change what etzvanul_check says.
 */
#define FIELD_FILE_MOST_BYTES (ETZVANUL_LARGEST_BYTES + 20)

enum field_file_outcome { FIELD_FILE_READ, FIELD_FILE_ABSENT, FIELD_FILE_FAILED };

/* Reads a file's bytes as they are, good or not. FIELD_FILE_FAILED leaves the reason in errno. */
enum field_file_outcome field_file_load(const char *path, uint8_t bytes[FIELD_FILE_MOST_BYTES], size_t *length);

/*
 * Puts an image in the place of the file: writes it beside the file under the name PATH.new, makes sure that it is on the disk, and
 * gives it the file's name. 0 if the new image is safe. -1 otherwise, with the reason in errno; then the file is the old one, or the new
 * one if only the last step, the folder's own way to the disk, failed.
 */
int field_file_save(const char *path, const uint8_t *image, size_t length);

#endif
