/* Drops the answer of every call. It is compiled alone and never run: a compiler with the attribute has to warn of each line below. */
#include "mirror.h"

void drop_all(const struct mirror_volume *v, uint8_t *b, uint32_t *list, uint64_t *words);

void drop_all(const struct mirror_volume *v, uint8_t *b, uint32_t *list, uint64_t *words)
{
    mirror_seal(b, 0, 0, 0, b, 0, b, 0, b, 0, b, 0);
    mirror_judge(b, 0, 0, 0, b, 0, b, 0, b, 0, b, 0);
    mirror_open(b, 0, 0, 0, 0, b, 0, b, 0, b, 0);
    mirror_rebuild(b, 0, 0, 0, 0, b, 0, b, 0, b, 0);
    mirror_combine(b, 0, b, 0, b, 0);
    mirror_start_map(0, words, 0);
    mirror_count_suspects(0, words, 0, words);
    mirror_blank(b, 0, 0, 0, 0, 0, b, 0, b, 0, b, 0, words, 0);
    mirror_first_stage(b, 0, 0, 0, 0, 0, b, 0, b, 0, b, 0, b, 0, words, 0);
    mirror_second_stage(b, 0, 0, 0, 0, 0, b, 0, b, 0, b, 0, b, 0, words, 0);
    mirror_third_stage(b, 0, 0, 0, 0, 0, b, 0, b, 0, b, 0, b, 0, words, 0);
    mirror_read(b, 0, 0, 0, 0, 0, b, 0, b, 0, b, 0, words, 0, b, 0);
    mirror_mend(b, 0, 0, 0, 0, 0, b, 0, b, 0, b, 0, words, 0);
    mirror_write(b, 0, 0, 0, 0, 0, b, 0, b, 0, b, 0, b, 0, words, 0);
    mirror_survey(b, 0, 0, 0, 0, b, 0, b, 0, b, 0, words, 0, list, 0, words);
    mirror_volume_start_map(v);
    mirror_volume_count_suspects(v, words);
    mirror_volume_blank(v, 0);
    mirror_volume_first_stage(v, 0, b, 0);
    mirror_volume_second_stage(v, 0, b, 0);
    mirror_volume_third_stage(v, 0, b, 0);
    mirror_volume_read(v, 0, b, 0);
    mirror_volume_mend(v, 0);
    mirror_volume_write(v, 0, b, 0);
    mirror_volume_survey(v, list, 0, words);
}
