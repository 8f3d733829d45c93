/* Uses the installed headers and the installed library, and prints the library's version. */
#include <sarvoltig_intake.h>
#include <sarvoltig_text.h>
#include <stdio.h>

int main(void)
{
    static uint8_t image[SARVOLTIG_SIZE_BLOCK];
    static uint64_t map[SARVOLTIG_SIZE_MAP(SARVOLTIG_SIZE_BLOCK)];
    struct sarvoltig_intake intake = {0, image, sizeof image, map, 1, {0}};
    uint32_t version = sarvoltig_version();
    uint32_t opened = sarvoltig_intake_open(&intake, sizeof image);
    uint32_t beats = sarvoltig_beats(image, sizeof image, intake.result, SARVOLTIG_SIZE_RESULT);

    printf("%u.%u.%u\n", version >> 16, version >> 8 & 255, version & 255);
    if (version != SARVOLTIG_VERSION || opened != SARVOLTIG_CODE_DONE || beats != SARVOLTIG_REFUSED_ANLZ_HEADER) {
        fprintf(stderr, "program: %s, %s\n", sarvoltig_refusal_text(opened), sarvoltig_refusal_text(beats));
        return 1;
    }
    return 0;
}
