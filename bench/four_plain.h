// What four.h has by SSE2, in plain C: included by it alone.
typedef struct {
    uint32_t w[4];
} four;

typedef struct {
    uint8_t o[16];
} sixteen;

static inline four four_of(uint32_t w)
{
    return (four){{w, w, w, w}};
}

static inline four four_at(const uint8_t *p)
{
    four v;
    memcpy(&v, p, sizeof v);
    return v;
}

static inline void put_four(uint8_t *p, four v)
{
    memcpy(p, &v, sizeof v);
}

static inline four four_of_threes(const uint8_t *p)
{
    return (four){
        {word_of_three(p), word_of_three(p + 3), word_of_three(p + 6), word_of_three(p + 9)}};
}

static inline four four_of_greys(const uint8_t *p)
{
    return (four){{word_of_grey(p), word_of_grey(p + 1), word_of_grey(p + 2), word_of_grey(p + 3)}};
}

static inline void sixteen_of_greys(const uint8_t *p, four up[4])
{
    for (int i = 0; i < 4; i++)
        up[i] = four_of_greys(p + 4 * i);
}

#define CHOSEN(v, a, b, c, d) ((four){{(v).w[a], (v).w[b], (v).w[c], (v).w[d]}})

static inline four four_picked(four low, four up, four keep)
{
    for (int i = 0; i < 4; i++)
        low.w[i] = (low.w[i] & keep.w[i]) | (up.w[i] & ~keep.w[i]);
    return low;
}

static inline four four_agreed(four low, four up, four unseen)
{
    for (int i = 0; i < 4; i++)
        low.w[i] = low.w[i] == up.w[i] ? low.w[i] : unseen.w[i];
    return low;
}

static inline sixteen zeros_at(const uint8_t *mask)
{
    sixteen z;
    for (int i = 0; i < 16; i++)
        z.o[i] = mask[i] == 0 ? 255 : 0;
    return z;
}

static inline unsigned zero_bits(sixteen zeros)
{
    unsigned bits = 0;
    for (int i = 0; i < 16; i++)
        bits |= (unsigned)(zeros.o[i] & 1) << i;
    return bits;
}

static inline int all_zero(const uint8_t *mask, int blocks)
{
    uint64_t any = 0, eight;
    for (int i = 0; i < 16 * blocks; i += 8) {
        memcpy(&eight, mask + i, 8);
        any |= eight;
    }
    return any == 0;
}

static inline void put_keeps(sixteen zeros, four keep[4])
{
    for (int i = 0; i < 16; i++)
        keep[i / 4].w[i % 4] = zeros.o[i] == 0 ? 0 : UINT32_MAX;
}

static inline four keep_at(const uint8_t *mask)
{
    four v;
    for (int i = 0; i < 4; i++)
        v.w[i] = mask[i] == 0 ? UINT32_MAX : 0;
    return v;
}
