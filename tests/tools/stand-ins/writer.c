#include <stdio.h>
int main(int count, char **words) {
    FILE *log = count > 4 ? fopen(words[3], "w") : NULL;
    for (int row = 0; log && row <= ROWS; row++) fputs("row\n", log);
    return log && fclose(log) ? 1 : 0;
}
