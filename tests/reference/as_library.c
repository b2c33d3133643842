/* The reference behind the library's header, so that one driver serves both. */
#include "band.h"
#include "data.h"
#include "line.h"
#include "page.h"
#include "sheet.h"
#include "spirerook.h"
#include "write.h"

spirerook_answer spirerook_read(const uint8_t *page, size_t page_len, uint8_t *sheet,
                                size_t sheet_len)
{
    struct reference_answer answer = reference_read(page, page_len, sheet, sheet_len);
    spirerook_answer same = {answer.number, answer.place, answer.count};
    return same;
}

spirerook_answer spirerook_write(const uint8_t *sheet, size_t sheet_len, const uint8_t *data,
                                 size_t data_len, uint8_t *page, size_t page_len)
{
    struct reference_answer written = reference_write(sheet, sheet_len, data, data_len, page,
                                                      page_len);
    spirerook_answer told = {written.number, written.place, written.count};
    return told;
}

static spirerook_answer compose(const struct reference_line_call *call, uint8_t *out,
                                size_t out_len)
{
    struct reference_answer composed = reference_line(call, out, out_len);
    spirerook_answer line = {composed.number, composed.place, composed.count};
    return line;
}

/* "The default colour of an unseen pixel becomes 128 128 96" */
spirerook_answer spirerook_line(const uint8_t *sheet, size_t sheet_len, const uint8_t *planes,
                                size_t planes_len, const uint8_t *samples, size_t samples_len,
                                uint32_t stripe, uint32_t line, uint8_t *out, size_t out_len)
{
    const struct reference_line_call call = {sheet,       sheet_len, planes, planes_len,    samples,
                                             samples_len, stripe,    line,   {128, 128, 96}};
    spirerook_answer shown = compose(&call, out, out_len);
    return shown;
}

/* "a sibling call takes the unseen colour as three octets" */
spirerook_answer spirerook_line_unseen(const uint8_t *sheet, size_t sheet_len,
                                       const uint8_t *planes, size_t planes_len,
                                       const uint8_t *samples, size_t samples_len, uint32_t stripe,
                                       uint32_t line, uint8_t u0, uint8_t u1, uint8_t u2,
                                       uint8_t *out, size_t out_len)
{
    const struct reference_line_call call = {sheet,       sheet_len, planes, planes_len,  samples,
                                             samples_len, stripe,    line,   {u0, u1, u2}};
    spirerook_answer given = compose(&call, out, out_len);
    return given;
}

/* "a stripe painted layer by layer into a band buffer" */
spirerook_answer spirerook_band(const uint8_t *sheet, size_t sheet_len, const uint8_t *planes,
                                size_t planes_len, const uint8_t *samples, size_t samples_len,
                                uint32_t stripe, uint8_t u0, uint8_t u1, uint8_t u2, uint8_t *out,
                                size_t out_len)
{
    const struct reference_band_call call = {sheet,   sheet_len,   planes, planes_len,
                                             samples, samples_len, stripe, {u0, u1, u2}};
    struct reference_answer band = reference_band(&call, out, out_len);
    spirerook_answer painted = {band.number, band.place, band.count};
    return painted;
}

/* "Done has place 0 and returns the records"; "a refusal returns 0 of them". */
spirerook_answer spirerook_judge(const uint8_t *sheet, size_t sheet_len)
{
    struct verdict verdict = sheet_judge(sheet, sheet_len);
    spirerook_answer judged = {verdict.number, (uint32_t)verdict.place, verdict.records};
    return judged;
}

/* Only the lengths of the page and of the pencil file matter to the paper. */
spirerook_part spirerook_data(const uint8_t *sheet, size_t sheet_len, const uint8_t *page,
                              size_t page_len, const uint8_t *pencil, size_t pencil_len,
                              uint32_t stripe, uint32_t layer)
{
    (void)page;
    (void)pencil;
    const struct reference_data_call call = {sheet, sheet_len, page_len, pencil_len, stripe, layer};
    struct reference_part found = reference_data(&call);
    spirerook_part handed = {found.answer.number, found.answer.place, found.answer.count,
                             found.source, found.start};
    return handed;
}
