#include <pcm.h>
#include <stdio.h>

int main(void)
{
    struct pcm_module pcm = PCM_MODULE_CLOSED_ONE;
    struct pcm_module_options options = PCM_MODULE_DEFAULTS;
    struct pcm_module_outcome outcome;
    uint8_t line[64] = "a line";
    if (pcm_module_open(&pcm, &options) != PCM_MODULE_OK)
        return 1;
    pcm_module_write(&pcm, 0, 7, line, sizeof line);
    pcm_module_read(&pcm, 100, 7);
    pcm_module_finish(&pcm);
    while (pcm_module_next(&pcm, &outcome) == PCM_MODULE_OK)
        printf("row %u: tick %llu, %.6s\n", outcome.row, (unsigned long long)outcome.tick, outcome.size ? (const char *)outcome.bytes : "stored");
    pcm_module_close(&pcm);
    return 0;
}
