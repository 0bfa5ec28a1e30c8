// stdio FILE LINES: writes so many lines by C's stdio, and calls `system` after each hundred, whose process has the file open, too, and ends.
#include <stdio.h>
#include <stdlib.h>

int main(int count, char **words) {
  FILE *file = count == 3 ? fopen(words[1], "w") : NULL;
  if (!file)
    return 2;
  for (int number = 0; number < atoi(words[2]); number++) {
    if (fprintf(file, "n=%d\n", number) < 0)
      return 3;
    if (number % 100 == 99 && system(":"))
      return 4;
  }
  return fclose(file) ? 5 : 0;
}
