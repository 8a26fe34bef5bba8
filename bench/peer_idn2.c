/* Each line's name to its ASCII form, by libidn2. */
#include <idn2.h>
#include <stdio.h>
#include <stdlib.h>
#include <string.h>

int main(void) {
    char line[4096];
    while (fgets(line, sizeof line, stdin)) {
        char *out = NULL;
        line[strcspn(line, "\n")] = 0;
        int failed = idn2_to_ascii_8z(line, &out, IDN2_NFC_INPUT | IDN2_NONTRANSITIONAL);
        puts(failed ? "-" : out);
        free(out);
    }
    return 0;
}
