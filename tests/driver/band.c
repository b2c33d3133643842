/* Paints bands (bands.h) by spirerook_band. */
#include "bands.h"

int main(int arguments, char **words)
{
    struct driver driver = driver_of_bands();
    driver.name = "band";
    return drive(&driver, arguments, words);
}
