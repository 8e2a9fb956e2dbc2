/* pmem_read_mark on any text: each text stands in a block of exactly its length, so that AddressSanitizer sees a read behind it. Prints what
 * was read. No library is linked: the call is inline. */
#include "pmem.h"
#include <stdio.h>
#include <stdlib.h>

int main(void) {
    static const char *const texts[] = {
        "seal 5\n", "seal\n", "seal \n", "seal 5 \n", "seal 5 0\n", "seal 5 0.\n", "seal 5 .1\n", "seal 5 0.1\n", "seal 5 0.1 \n",
        "seal 5 0.1 00\n", "seal 5 0.1 0000000000000000000000000000005g\n", "seal 5 0.1 000000000000000000000000000000511\n",
        "seal 5 0.1 00000000000000000000000000000051", "seal x 0.1 00000000000000000000000000000051\n",
        "seal 5 0.1 00000000000000000000000000000051\n", "seal 1023 18446744073709551615.127 0f0f0f0f0f0f0f0f0f0f0f0f0f0f0f0F\nok 7\n",
        "begin\n", "begin \n", "begin x\n", "begin 3", "begin 3\n", "begin 15\nseal 5\n", "ok 7\n", "\n", "sea", "",
    };
    for (size_t i = 0; i < sizeof texts / sizeof texts[0]; i++) {
        size_t len = strlen(texts[i]), taken;
        uint8_t *text = (uint8_t *)malloc(len + (len == 0));
        pmem_mark mark;
        if (text == NULL) return 1;
        memcpy(text, texts[i], len);
        memset(&mark, 0xee, sizeof mark);
        taken = pmem_read_mark(text, len, &mark);
        printf("%zu %d %u %llu.%u %02x%02x\n", taken, mark.is_begin, mark.at, (unsigned long long)mark.major, mark.minor, mark.tag[0], mark.tag[15]);
        free(text);
    }
    /* Every prefix of a mark, and every text of up to three words of these. */
    static const char whole[] = "seal 5 0.1 00000000000000000000000000000051\n";
    for (size_t len = 0; len <= sizeof whole - 1; len++) {
        uint8_t *text = (uint8_t *)malloc(len + 1);
        pmem_mark mark;
        if (text == NULL) return 1;
        memcpy(text, whole, len);
        text[len] = '\n';
        if ((pmem_read_mark(text, len + 1, &mark) != 0) != (len >= sizeof whole - 2)) return 2;
        free(text);
    }
    return 0;
}
