/* The layers of a plan, coded, with the fields of their records. */
#ifndef LAYERS_H
#define LAYERS_H

#include <spirerook.h>

#include "octets.h"
#include "plan.h"
#include "trouble.h"

typedef struct {
    spirerook_record records[SPIREROOK_STRIPES][SPIREROOK_LAYERS];
    octet_list page_data,
        pencil_data; /* that the starts of layers 1 to 3, and of the higher ones, point into */
} coded_layers;

/* The layers are free_layers' to free, also where it fails. */
bool code_layers(const plan *from, coded_layers **made, trouble *what);

void free_layers(coded_layers *made);

/* Of a coded record, for people. */
const char *coder_name(const spirerook_record *record);

#endif
