/* Each line's name to its ASCII form, by ICU. */
#include <stdio.h>
#include <string.h>
#include <unicode/uidna.h>

int main(void) {
    UErrorCode status = U_ZERO_ERROR;
    UIDNA *idna = uidna_openUTS46(UIDNA_CHECK_BIDI | UIDNA_CHECK_CONTEXTJ | UIDNA_NONTRANSITIONAL_TO_ASCII, &status);
    char line[4096], out[512];
    while (fgets(line, sizeof line, stdin)) {
        UIDNAInfo info = UIDNA_INFO_INITIALIZER;
        status = U_ZERO_ERROR;
        line[strcspn(line, "\n")] = 0;
        int32_t n = uidna_nameToASCII_UTF8(idna, line, -1, out, sizeof out, &info, &status);
        printf("%.*s\n", U_SUCCESS(status) && !info.errors ? n : 1, U_SUCCESS(status) && !info.errors ? out : "-");
    }
    uidna_close(idna);
    return 0;
}
