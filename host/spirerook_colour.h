/* Colours of a page for a screen.  What the codes are: spirerook.h, "Colours".  Nothing has to be
 * linked but the C library's own arithmetic (-lm). */
#ifndef SPIREROOK_COLOUR_H
#define SPIREROOK_COLOUR_H

#include <math.h>
#include <stdint.h>

#ifdef __cplusplus
extern "C" {
#endif

/* CIE 15: the cube, with a straight line near black. */
static inline double spirerook_lab_cube(double t)
{
    const double edge = 6.0 / 29.0;
    return t > edge ? t * t * t : 3 * edge * edge * (t - 4.0 / 29.0);
}

/* The sRGB octets nearest to three codes; colours that a screen cannot show are clipped.  White,
 * 255 128 96, comes out as 255 255 255 and black, 0 128 96, as 0 0 0.  The codes stand under D50
 * and sRGB under D65: the matrix adapts (Bradford), the curve is that of IEC 61966-2-1.  Both may
 * be the same three octets. */
static inline void spirerook_lab_to_srgb(const uint8_t lab[3], uint8_t srgb[3])
{
    static const double matrix[3][3] = {{3.1338561, -1.6168667, -0.4906146},
                                        {-0.9787684, 1.9161415, 0.0334540},
                                        {0.0719453, -0.2289914, 1.4052427}};
    double y = (lab[0] * 100 / 255.0 + 16) / 116;
    double x = spirerook_lab_cube(y + (lab[1] - 128) * 170 / 255.0 / 500);
    double z = spirerook_lab_cube(y - (lab[2] - 96) * 200 / 255.0 / 200);
    y = spirerook_lab_cube(y);
    for (int k = 0; k < 3; k++) {
        double light = matrix[k][0] * (0.96422 * x) + matrix[k][1] * y +
                       matrix[k][2] * (0.82521 * z);
        light = light < 0 ? 0 : light > 1 ? 1 : light;
        light = light <= 0.0031308 ? 12.92 * light : 1.055 * pow(light, 1 / 2.4) - 0.055;
        srgb[k] = (uint8_t)lround(255 * light);
    }
}

#ifdef __cplusplus
}
#endif

#endif
