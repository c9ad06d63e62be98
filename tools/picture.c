/*
 * Draws a damaged and a repaired record by track and position, as SVG on standard output.
 *
 *     picture BLOCKS FLAGS IMAGE
 *
 * A dark cell is 1. In the upper picture cells that the repair changes are red, and lost ones yellow; in the lower one the
 * changed cells are green.
 */
#include <axp.h>

#include <stdio.h>
#include <stdlib.h>

enum { SIDE = 6, LEFT = 40, TOP = 30 };

static uint8_t image[AXP_MAX_IMAGE_SIZE + 1], out[AXP_MAX_IMAGE_SIZE];

/* The cells of one kind, as one path: 0 dark cells, 1 changed cells that are 1, 2 changed cells that are 0, 3 lost cells. */
static void path(const uint8_t *cells, size_t l, unsigned top, int kind, const char *style)
{
    unsigned g;
    size_t m;
    printf("<path %s d=\"", style);
    for (g = 0; g < AXP_TRACKS; g++) {
        unsigned y = top + g * (SIDE + 2) + (g >= 9 ? 8 : 0);
        for (m = 0; m < l; m++) {
            size_t i = g * l + m;
            int differs = image[i] != out[i];
            if (kind == (cells[i] == AXP_LOST ? 3 : differs ? 2 - cells[i] : cells[i] ? 0 : -1))
                printf("M%lu %uh%dv%dh-%dz", (unsigned long)(LEFT + m * SIDE), y, SIDE - 1, SIDE, SIDE - 1);
        }
    }
    printf("\"/>\n");
}

static void draw(const uint8_t *cells, size_t l, uint32_t flags, unsigned top, const char *title, const char *changed)
{
    char style[64];
    unsigned g;
    printf("<text x=\"%d\" y=\"%u\">%s</text>\n", LEFT, top - 10, title);
    for (g = 0; g < AXP_TRACKS; g++) {
        unsigned y = top + g * (SIDE + 2) + (g >= 9 ? 8 : 0);
        printf("<text x=\"%d\" y=\"%u\" text-anchor=\"end\" fill=\"%s\">%c%u</text>", LEFT - 6, y + SIDE,
               flags >> g & 1 ? "#b00020" : "#333333", g < 9 ? 'A' : 'B', g % 9);
        printf("<rect x=\"%d\" y=\"%u\" width=\"%lu\" height=\"%d\" fill=\"#e6ebf0\"/>\n", LEFT, y, (unsigned long)(l * SIDE), SIDE);
    }
    path(cells, l, top, 0, "fill=\"#223344\"");
    sprintf(style, "fill=\"%s\"", changed);
    path(cells, l, top, 1, style);
    sprintf(style, "fill=\"#ffffff\" stroke=\"%s\"", changed);
    path(cells, l, top, 2, style);
    path(cells, l, top, 3, "fill=\"#ffc300\"");
}

int main(int argc, char **argv)
{
    uint32_t blocks, flags;
    size_t length, l;
    axp_result r;
    FILE *f;
    unsigned height = AXP_TRACKS * (SIDE + 2) + 8;
    if (argc != 4 || !(f = fopen(argv[3], "rb"))) {
        fprintf(stderr, "usage: picture BLOCKS FLAGS IMAGE\n");
        return 2;
    }
    length = fread(image, 1, sizeof image, f);
    fclose(f);
    blocks = (uint32_t)strtoul(argv[1], NULL, 10);
    flags = (uint32_t)strtoul(argv[2], NULL, 10);
    r = axp_trace(blocks, flags, image, length, out, sizeof out);
    if (r.answer != AXP_OK) {
        fprintf(stderr, "picture: %s\n", axp_strerror(r.answer));
        return 1;
    }
    l = AXP_TRACK_LENGTH(blocks);
    printf("<svg xmlns=\"http://www.w3.org/2000/svg\" width=\"%lu\" height=\"%u\" font-family=\"sans-serif\" font-size=\"9\">\n",
           (unsigned long)(LEFT + l * SIDE + 10), 2 * height + 2 * TOP + 20);
    printf("<rect width=\"100%%\" height=\"100%%\" fill=\"#ffffff\"/>\n");
    draw(image, l, flags, TOP, "what was read (red: cells that the repair changes; yellow: lost cells; red names: flagged tracks)", "#d62839");
    draw(out, l, flags, TOP + height + TOP + 10, "the one good record in reach (green: the cells that were changed)", "#2a9d4a");
    printf("</svg>\n");
    return 0;
}
