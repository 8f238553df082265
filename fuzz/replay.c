/* Runs a target on the files of the inputs that are named, without libFuzzer. */
#include "common.h"

static void run_on(const char *name) {
    FILE *file = fopen(name, "rb");
    DEMAND(file != NULL && fseek(file, 0, SEEK_END) == 0);
    size_t size = (size_t)ftell(file);
    rewind(file);
    uint8_t *input = malloc(size + 1);
    DEMAND(input != NULL && fread(input, 1, size, file) == size);
    fclose(file);
    LLVMFuzzerTestOneInput(input, size);
    free(input);
}

int main(int words, char **word) {
    for (int k = 1; k < words; k++) run_on(word[k]);
    printf("%d inputs\n", words - 1);
    return words < 2;
}
