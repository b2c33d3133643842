// What pages and layers are filled with, so that they are long.
#ifndef BENCH_FILLERS_H
#define BENCH_FILLERS_H

#include <stddef.h>
#include <stdint.h>

// Puts octets from `at` on, up to `size` and at most MOST_PAST more; answers where they end.
typedef size_t filler(uint8_t *octets, size_t at, size_t size);
#define MOST_PAST 64

filler nothing, zero_octets;

// Scan data: any octets; FF 00 only.
filler random_scan, stuffed_scan;

// Fill (T.81, B.1.1.2): FF only, for the marker that comes behind; and scan data with runs of two to
// seven FF before each restart marker, of 6 to 20 octets between two of them, or of 150 to 250.
filler fill_octets, dense_restarts, sparse_restarts;

// Segments of a layer, and scans, one every so many octets.
filler segments_of_4, segments_of_32, segments_of_64, scans_of_4, scans_of_32, scans_of_64;

// Tables of a layer, and segments of a page that a reader skips.
filler tables_of_9, optional_segments;

#endif
