/* A plan: which pictures become which layers of a page, and of a pencil file. */
#ifndef PLAN_H
#define PLAN_H

#include <spirerook.h>
#include <stdbool.h>
#include <stdint.h>

#include "plan_words.h"
#include "trouble.h"

/* Whether an image has colours: as its picture has them, if the plan says nothing. */
typedef enum { LIKE_PICTURE, GREY, COLOURED } image_kind;

typedef struct {
    unsigned line; /* of the plan; 0 where it says nothing of the layer */
    /* of the picture: as the plan has it, and from where the program runs; null where there is none */
    char *name, *path;
    uint32_t coder; /* of a mask */
    uint32_t resolution, x, y;
    uint8_t base[3];
    bool is_srgb; /* the plan gives the base colour in sRGB, and this is it */
    uint8_t srgb[3];
    int quality;
    bool progressive, half;
    image_kind kind;
} plan_layer;

typedef struct {
    unsigned line, height_line;
    uint32_t height;      /* 0 where it is not given */
    unsigned layer_count; /* 3, and 2 for each pair of pencil layers */
    plan_layer layers[SPIREROOK_LAYERS];
} plan_stripe;

typedef struct {
    const char *file; /* the plan's own */
    unsigned width_line;
    uint32_t resolution, coder; /* 0 while not given */
    uint32_t width;             /* 0 where it is not given */
    unsigned stripe_count;
    plan_stripe stripes[SPIREROOK_STRIPES];
} plan;

/* The plan is free_plan's to free, also where it fails; it keeps the name. */
bool read_plan(const char *name, plan **made, trouble *what);

void free_plan(plan *made);

bool has_pencil(const plan *made);

/* ---- Between the files that read a plan ---- */

/* The words of a layer's line behind its key: the picture or none, and the options. */
bool take_layer(const plan *made, plan_line *line, unsigned layer_number, plan_layer *layer);

#endif
