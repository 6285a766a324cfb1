/* Reads texts from standard input, each behind its length in four bytes, low byte first,
   and prints for each the number and place of its fault (0 and 0 for a right text) and how many tags it gives. */
#include <stdint.h>
#include <stdio.h>
#include <stdlib.h>

uint32_t markup_number(const uint8_t *text, size_t length);
size_t markup_place(const uint8_t *text, size_t length);
uint64_t markup_tags(const uint8_t *text, size_t length);

int main(void) {
  uint8_t head[4];
  while (fread(head, 1, 4, stdin) == 4) {
    size_t length = head[0] | (size_t)head[1] << 8 | (size_t)head[2] << 16 | (size_t)head[3] << 24;
    uint8_t *text = malloc(length + 1);
    if (!text || fread(text, 1, length, stdin) != length) return 1;
    printf("%u %zu %llu\n", markup_number(text, length), markup_place(text, length), (unsigned long long)markup_tags(text, length));
    free(text);
  }
  return 0;
}
