"""Faults of the unseen colour, and of the calls that compose lines and paint bands: for
tests/faults_line.py and tests/faults_band.py, and most of them for tests/faults_boundary.py: (call,
what goes wrong, the file, its text, the text in its place).

A fault stands in the call that it names and in no other, so that only cases of that call can find
it. The wrong programs of request 2026-01 are among them.
"""

# in tests/reference/as_library.c: the answer of each call before it gives it, and the unseen colour
ANSWERS = {"line": "shown", "line_unseen": "given", "band": "painted"}
COLOURS = {"line": ("128", "128", "96"), "line_unseen": ("u0", "u1", "u2"),
           "band": ("u0", "u1", "u2")}
TOLD = {"line": "line,   {%s}", "line_unseen": "line,   {%s}", "band": "samples_len, stripe, {%s}"}
LINES = ("line", "line_unseen")
EACH = "for (size_t k = 0; !ANSWER.number && k < ANSWER.count; k += 4) "
IS_UNSEEN = "out[k] == U0 && out[k + 1] == U1 && out[k + 2] == U2"
PAINT = "{ out[k] = U0; out[k + 1] = U1; out[k + 2] = U2; }"


def before(call, what, code):
    """Code before a call gives its answer, in which ANSWER and U0 to U2 are the call's own."""
    answer = "    return %s;" % ANSWERS[call]
    code = code.replace("ANSWER", ANSWERS[call])
    for k, octet in enumerate(COLOURS[call]):
        code = code.replace("U%d" % k, octet)
    return call, what, "as_library.c", answer, "    %s\n%s" % (code, answer)


def colour(call, what, octets):
    """Another unseen colour than the one that is due."""
    return (call, what, "as_library.c", TOLD[call] % ", ".join(COLOURS[call]),
            TOLD[call] % octets)


# what is lent to each call, and its answer
LENT = [
    ("a refusal changes an octet", "if (ANSWER.number != 0 && out_len > 0) out[0] ^= 1;"),
    ("NoRoom changes an octet", "if (ANSWER.number == 13 && out_len > 0) out[0] ^= 1;"),
    ("an octet past the result changed",
     "if (ANSWER.number == 0 && out_len > ANSWER.count) out[ANSWER.count] ^= 1;"),
    ("all octets past the result 0",
     "for (size_t k = ANSWER.count; k < out_len && !ANSWER.number; k++) out[k] = 0;"),
    ("an octet behind the buffer changed", "if (out_len > 0) out[out_len] ^= 1;"),
    ("an octet before the buffer changed", "if (out_len > 0) out[-1] ^= 1;"),
    ("an octet behind the samples read",
     "if (samples_len > 0) *(volatile const uint8_t *)(samples + samples_len);"),
    ("an octet behind the plane list read",
     "if (planes_len > 0) *(volatile const uint8_t *)(planes + planes_len);"),
    ("an octet behind the sheet read",
     "if (sheet_len > 0) *(volatile const uint8_t *)(sheet + sheet_len);"),
    ("the samples changed", "if (samples_len > 0) ((uint8_t *)samples)[samples_len - 1] ^= 1;"),
    ("the plane list changed", "if (planes_len > 0) ((uint8_t *)planes)[0] ^= 1;"),
    ("a place with Done", "ANSWER.place += !ANSWER.number;"),
    ("a null pointer refused",
     "if (planes == NULL || samples == NULL) ANSWER.number = 15, ANSWER.count = 0;"),
    ("only aligned buffers taken", "if ((uintptr_t)samples % 2 == 1 && samples_len > 4) "
     "{ ANSWER.number = 15; ANSWER.count = 0; }"),
]

# pixels of each call
PIXELS = [
    ("the unseen colour over seen pixels", EACH + PAINT),
    ("the unseen colour over seen pixels beside unseen ones",
     EACH + "if (k >= 4 && out[k - 1] == 0 && out[k + 3] == 1) " + PAINT),
    ("mark 1 on unseen pixels", EACH + "out[k + 3] = 1;"),
    ("a seen pixel of the unseen colour marked 0", EACH + "if (" + IS_UNSEEN + ") out[k + 3] = 0;"),
    ("seen pixels of 0 0 0 given the unseen colour",
     EACH + "if (!out[k] && !out[k + 1] && !out[k + 2]) " + PAINT),
    ("unseen pixels of 0 0 0 0", EACH + "if (!out[k + 3]) out[k] = out[k + 1] = out[k + 2] = 0;"),
]

# what a call may do where the line call refuses
REFUSED = [
    ("another number where there is no room", "if (ANSWER.number == 13) ANSWER.number = 15;"),
    ("another number where the line is none", "if (ANSWER.number == 17) ANSWER.number = 14;"),
    ("another number where a plane is bad", "if (ANSWER.number == 15) ANSWER.number = 13, "
     "ANSWER.place = 0;"),
    ("another number where the sheet is bad", "if (ANSWER.number == 14) ANSWER.number = 17, "
     "ANSWER.place = 0;"),
    ("no place where the sheet is bad", "if (ANSWER.number == 14) ANSWER.place = 0;"),
    ("no place where a plane is bad", "if (ANSWER.number == 15) ANSWER.place = 0;"),
    ("a count where there is no room", "if (ANSWER.number == 13) ANSWER.count = 4;"),
    ("u written where there is no room",
     "if (ANSWER.number == 13 && out_len > 2) { size_t k = 0; " + PAINT + " }"),
    ("u written where the sheet is bad",
     "if (ANSWER.number == 14 && out_len > 2) { size_t k = 0; " + PAINT + " }"),
    ("u written behind the line",
     "if (!ANSWER.number && out_len > ANSWER.count + 2) { size_t k = ANSWER.count; " + PAINT
     + " }"),
    ("a line that is none, of one unseen pixel",
     "if (ANSWER.number == 17 && out_len > 3) { size_t k = 0; " + PAINT
     + " out[3] = 0; ANSWER.number = 0; ANSWER.count = 4; }"),
    ("three octets of room a pixel",
     "if (ANSWER.number == 13 && out_len >= (size_t)(sheet[36] * 256 + sheet[37]) * 3) "
     "ANSWER.number = 0, ANSWER.count = out_len / 4 * 4;"),
    ("a colour that is refused", "if (u0 == 1) ANSWER.number = 15, ANSWER.count = 0;"),
]

# in what both calls share: (file, what goes wrong, the text of the file, the text in its place)
SHARED = [
    ("line.c", "the unseen colour over seen pixels", "uint32_t shown = seen ? colour : unseen;",
     "uint32_t shown = unseen;"),
    ("line.c", "unseen pixels of 0 0 0", "uint32_t shown = seen ? colour : unseen;",
     "uint32_t shown = seen ? colour : 0;"),
    ("line.c", "mark 1 on unseen pixels", "octets[3] = seen ? 1 : 0;", "octets[3] = 1;"),
    ("line.c", "unseen decided by colour", "octets[3] = seen ? 1 : 0;",
     "octets[3] = shown != unseen;"),
    ("line.c", "what is not known kept as the unseen colour",
     "        bool seen = is_seen(&pixel, &colour);",
     "        for (uint32_t layer = 1; layer <= pixel.layers; layer += 2) "
     "if (pixel.unread[layer]) pixel.unread[layer] = false, pixel.value[layer] = unseen;\n"
     "        bool seen = is_seen(&pixel, &colour) && colour != unseen;"),
    ("as_library.c", "a count with a refusal", "composed.count}",
     "composed.number + composed.count}"),
]

OTHER_COLOURS = [colour("line", what, octets) for what, octets in (
    ("unseen as it was", "0, 0, 0"), ("128 96 128", "128, 96, 128"), ("96 128 128", "96, 128, 128"),
    ("128 128 128", "128, 128, 128"), ("127 128 96", "127, 128, 96"))]
# of a call that is told the unseen colour
U_OTHERWISE = [
    ("u ignored, grey", "128, 128, 96"), ("u ignored, as it was", "0, 0, 0"),
    ("u0 and u1 exchanged", "u1, u0, u2"), ("u1 and u2 exchanged", "u0, u2, u1"),
    ("u0 and u2 exchanged", "u2, u1, u0"), ("u0 thrice", "u0, u0, u0"), ("u2 thrice", "u2, u2, u2"),
    ("seven bits of each octet", "u0 % 128, u1 % 128, u2 % 128"),
    ("grey for 0 0 0", "u0 | u1 | u2 ? u0 : 128, u0 | u1 | u2 ? u1 : 128, u0 | u1 | u2 ? u2 : 96")]
OTHER_COLOURS += [colour("line_unseen", *fault) for fault in U_OTHERWISE]
# as a sibling would that goes over the other call's line and looks at its colours
BY_COLOUR = before("line_unseen", "u over the seen pixels that are grey",
                   EACH + "if (out[k] == 128 && out[k + 1] == 128 && out[k + 2] == 96) " + PAINT)

OF_COLOUR = [*OTHER_COLOURS, BY_COLOUR,
             *(before(call, *fault) for call in LINES for fault in PIXELS),
             *(before("line_unseen", *fault) for fault in REFUSED)]
OF_LENT = [before(call, *fault) for call in LINES for fault in LENT]

OF_BAND = [*(colour("band", *fault) for fault in U_OTHERWISE),
           *(before("band", *fault) for fault in PIXELS + REFUSED)]
OF_BAND_LENT = [before("band", *fault) for fault in LENT]
