// Files that a crash leaves whole. Where the system fails, the program ends with a message.
#pragma once
#include <stddef.h>
#include <stdint.h>

// Opens a folder.
int open_folder(const char *path);

// Opens a file of a folder for reading, and for writing at its end.
int open_appended(int folder, const char *name);

// Cuts a file to so many bytes. It must have them.
void cut_file(int file, const char *name, size_t length);

// Writes at the end of a file, and has the bytes on the disk before it returns.
void append(int file, const char *name, const void *bytes, size_t count);

// Puts a file into the place of another at once: written under another name, brought to the disk, renamed, and the folder brought to the disk.
void replace_file(int folder, const char *name, const void *bytes, size_t count);

// Reads a file that is no longer than the room. Gives its length, 0 where there is none.
size_t read_file(int folder, const char *name, uint8_t *bytes, size_t room);
