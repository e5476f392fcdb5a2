/* What each of the three says of a word: its text in its own way of writing, in place until the next call; "" if it refuses the word. */
#ifndef TEXTS_H
#define TEXTS_H

#include <stdint.h>

enum { TEXT_BYTES = 128 };

/* The proved decoder and its text, as they stand in the page's module. A target is shown as if the word lay at address 0. */
void ours_begin(void);
const char *ours_text(uint32_t word);

/* GNU's libopcodes; OBJECT is an object file whose attributes say which extensions there are. */
void gnu_begin(const char *object);
void gnu_keep_opcode(uint32_t low);
const char *gnu_text(uint32_t word);

/* LLVM. */
void llvm_begin(void);
const char *llvm_text(uint32_t word);

#endif
