// Decodes at each offset of a file, so many times, by Zydis; with the word `operands` also the operands. Prints how many
// offsets begin an instruction, and nanoseconds per offset.
#include <Zydis/Zydis.h>
#include <stdio.h>
#include <stdlib.h>
#include <string.h>
#include <time.h>

enum { LONGEST = 15 };
static unsigned char bytes[1 << 25];

int main(int count, char **words) {
    if (count < 3) return 2;
    FILE *file = fopen(words[1], "rb");
    if (!file) return 2;
    size_t length = fread(bytes, 1, sizeof bytes, file), begun = 0;
    int times = atoi(words[2]), operands = count > 3 && strcmp(words[3], "operands") == 0;
    ZydisDecoder decoder;
    ZydisDecoderInit(&decoder, ZYDIS_MACHINE_MODE_LEGACY_32, ZYDIS_STACK_WIDTH_32);
    ZydisDecodedInstruction insn;
    ZydisDecodedOperand found[ZYDIS_MAX_OPERAND_COUNT];
    struct timespec from, to;
    clock_gettime(CLOCK_MONOTONIC, &from);
    for (int i = 0; i < times; i++)
        for (size_t at = 0; at < length; at++) {
            size_t left = length - at < LONGEST ? length - at : LONGEST;
            begun += ZYAN_SUCCESS(operands ? ZydisDecoderDecodeFull(&decoder, bytes + at, left, &insn, found)
                                           : ZydisDecoderDecodeInstruction(&decoder, NULL, bytes + at, left, &insn));
        }
    clock_gettime(CLOCK_MONOTONIC, &to);
    double taken = (to.tv_sec - from.tv_sec) * 1e9 + (to.tv_nsec - from.tv_nsec);
    printf("%zu %.1f\n", begun / times, taken / times / length);
    return fclose(file);
}
