/* One archive of the library, called as its own header declares: a record goes in and comes back as its four numbers, so that archives
   whose records are laid out otherwise can be called alike. */
#include <stddef.h>
#include <stdint.h>

struct numbers { uint64_t width, last, blocks, stage; };

struct side {
    uint32_t (*receiver_setup)(uint32_t width, const uint8_t *roots, size_t roots_len, const uint8_t *base_pads, size_t base_pads_len,
                               uint8_t *message, size_t message_len);
    uint32_t (*sender_setup)(uint32_t width, const uint8_t *delta, size_t delta_len, const uint8_t *base_pads, size_t base_pads_len,
                             const uint8_t *message, size_t message_len, uint8_t *siblings, size_t siblings_len);
    uint32_t (*open)(struct numbers *record, uint32_t width);
    uint32_t (*receiver_start)(struct numbers *record, const uint8_t *roots, size_t roots_len, uint64_t batch, uint32_t blocks,
                               uint8_t *choices, size_t choices_len, uint8_t *table, size_t table_len, uint8_t *correction,
                               size_t correction_len);
    uint32_t (*sender_correct)(struct numbers *record, const uint8_t *siblings, size_t siblings_len, const uint8_t *delta,
                               size_t delta_len, uint64_t batch, uint32_t blocks, const uint8_t *correction, size_t correction_len,
                               uint8_t *table, size_t table_len);
    uint32_t (*receiver_answer)(struct numbers *record, uint64_t key, const uint8_t *choices, size_t choices_len, const uint8_t *table,
                                size_t table_len, uint8_t *message, size_t message_len, uint8_t *pads, size_t pads_len);
    uint32_t (*sender_verify)(struct numbers *record, uint64_t key, const uint8_t *table, size_t table_len, const uint8_t *delta,
                              size_t delta_len, const uint8_t *message, size_t message_len, uint8_t *pads, size_t pads_len);
};

extern const struct side before_side, after_side;
