/* T.42: the default range of codes, under D50; sRGB stands under D65, and the matrix adapts from one
 * to the other (Bradford).  The way back is in spirerook_colour.h. */
#include "colour.h"

#include <math.h>
#include <string.h>

static const double white[3] = {0.96422, 1.0, 0.82521};
static const double lightest = 255.0;

/* CIE 15: the cube root, with a straight line near black. */
static const double edge = 6.0 / 29.0;

static double root(double t)
{
    return t > edge * edge * edge ? cbrt(t) : t / (3 * edge * edge) + 4.0 / 29.0;
}

/* IEC 61966-2-1 */
static double from_screen(double value)
{
    return value <= 0.04045 ? value / 12.92 : pow((value + 0.055) / 1.055, 2.4);
}

static uint8_t nearest(double value)
{
    return value <= 0 ? 0 : value >= lightest ? 255 : (uint8_t)lround(value);
}

static int digit_of(char octet)
{
    static const char digits[] = "0123456789ABCDEFabcdef";
    const char *found = octet == '\0' ? NULL : strchr(digits, octet);
    int value = found == NULL ? -1 : (int)(found - digits);
    return value > 15 ? value - 6 : value;
}

bool srgb_of_digits(const char *text, uint8_t srgb[3])
{
    bool known = strlen(text) == 6;
    for (size_t k = 0; known && k < 6; k++) {
        int digit = digit_of(text[k]);
        known = digit >= 0;
        srgb[k / 2] = (uint8_t)((k % 2 == 0 ? 0 : srgb[k / 2] * 16) + digit);
    }
    return known;
}

void lab_of_srgb(const uint8_t srgb[3], uint8_t lab[3])
{
    static const double matrix[3][3] = {{0.4360747, 0.3850649, 0.1430804},
                                        {0.2225045, 0.7168786, 0.0606169},
                                        {0.0139322, 0.0971045, 0.7141733}};
    double linear[3], light[3];
    for (int k = 0; k < 3; k++) {
        linear[k] = from_screen(srgb[k] / lightest);
    }
    for (int k = 0; k < 3; k++) {
        light[k] = root(
            (matrix[k][0] * linear[0] + matrix[k][1] * linear[1] + matrix[k][2] * linear[2]) /
            white[k]);
    }
    lab[0] = nearest((116 * light[1] - 16) * lightest / 100);
    lab[1] = nearest(128 + 500 * (light[0] - light[1]) * lightest / 170);
    lab[2] = nearest(96 + 200 * (light[1] - light[2]) * lightest / 200);
}
