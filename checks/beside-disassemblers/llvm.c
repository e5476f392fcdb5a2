/* LLVM's text of a word, without aliases. A target is shown as a distance. */
#include <llvm-c/Disassembler.h>
#include <llvm-c/Support.h>
#include <llvm-c/Target.h>

#include <stdio.h>
#include <stdlib.h>
#include <string.h>

#include "texts.h"

static LLVMDisasmContextRef disassembler;
static char text[TEXT_BYTES];

void llvm_begin(void)
{
    LLVMInitializeRISCVTargetInfo();
    LLVMInitializeRISCVTargetMC();
    LLVMInitializeRISCVDisassembler();
    const char *words[] = {"compare", "-riscv-no-aliases"};
    LLVMParseCommandLineOptions(2, words, NULL);
    disassembler = LLVMCreateDisasmCPUFeatures("riscv64-unknown-elf", "generic-rv64", "", NULL, 0, NULL, NULL);
    if (!disassembler) {
        fprintf(stderr, "this LLVM has no disassembler of RISC-V\n");
        exit(2);
    }
}

/* LLVM begins each line with a tab, and ends one without operands with another. */
const char *llvm_text(uint32_t word)
{
    if (LLVMDisasmInstruction(disassembler, (uint8_t *)&word, sizeof word, 0, text, sizeof text) != 4)
        return "";
    char *end = text + strlen(text);
    if (end > text + 1 && end[-1] == '\t')
        end[-1] = 0;
    return text + (text[0] == '\t');
}
