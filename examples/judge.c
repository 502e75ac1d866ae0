#include <stdio.h>
#include "lorvisk.h"

int main(void) {
    static uint8_t file[1 << 20];
    size_t length = fread(file, 1, sizeof file, stdin);
    if (!feof(stdin)) return 3; /* not read to its end: no verdict */
    lorvisk_word word = lorvisk_judge_file(file, length);
    printf("%u %u %u %u\n", lorvisk_code(word), lorvisk_event(word), lorvisk_partner(word), lorvisk_peak(word));
    return lorvisk_is_accepted(word) ? 0 : 1;
}
