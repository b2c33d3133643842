/* Sheets of coded layers, and the page that the library writes of them. */
#ifndef SHEETS_H
#define SHEETS_H

#include <spirerook.h>

#include "layers.h"
#include "octets.h"
#include "plan.h"
#include "trouble.h"

/* The page, and its own sheet as spirerook_read tells it. */
typedef struct {
    octet_list page;
    uint8_t sheet[SPIREROOK_PAGE_SHEET_OCTETS];
} made_page;

/* Writes the page and reads it back. */
bool make_page(const plan *from, const coded_layers *layers, made_page *made, trouble *what);

/* The records of the page, and of the layers above 3 with starts in the pencil data; every layer's
 * data is found. */
bool make_pencil_sheet(const plan *from, const coded_layers *layers, const made_page *made,
                       octet_list *sheet, trouble *what);

#endif
