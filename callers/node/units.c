/* Texts between UTF-8 and the units of 16 bits that JavaScript has. They stand by themselves,
   because the compiler makes slow code of them inside of others. */
#include "addon.h"

/* Puts the units of UTF-8 that is known to be such, each of which is a byte, and returns how many
 * there are. Eight bytes are looked at at once, by processors that put the low byte first. */
size_t put_latin1(const uint8_t *restrict text, size_t length, uint8_t *restrict units) {
    size_t at = 0, count = 0;
    while (at < length) {
        uint64_t eight = 0x80;
        if (length - at >= sizeof eight) {
            memcpy(&eight, text + at, sizeof eight);
            memcpy(units + count, &eight, sizeof eight);
            eight &= 0x8080808080808080;
            size_t plain = eight ? (size_t)__builtin_ctzll(eight) / 8 : sizeof eight;
            at += plain;
            count += plain;
        }
        if (!eight) continue;
        uint8_t lead = text[at++];
        units[count++] = lead < 0x80 ? lead : (uint8_t)(lead << 6 | (text[at++] & 0x3f));
    }
    return count;
}

/* As put_latin1, for any units. */
size_t put_units(const uint8_t *text, size_t length, uint16_t *units) {
    size_t count = 0;
    for (size_t at = 0; at < length;) {
        uint32_t unit = text[at++];
        if (unit >= 0xf0) {
            uint32_t three = (unit & 7) << 12 | (text[at] & 0x3f) << 6 | (text[at + 1] & 0x3f);
            unit = (three << 6 | (text[at + 2] & 0x3f)) - 0x10000;
            units[count++] = (uint16_t)(0xd800 | unit >> 10);
            unit = 0xdc00 | (unit & 0x3ff);
            at += 3;
        } else if (unit >= 0xe0) {
            unit = (unit & 0xf) << 12 | (text[at] & 0x3f) << 6 | (text[at + 1] & 0x3f);
            at += 2;
        } else if (unit >= 0x80) {
            unit = (unit & 0x1f) << 6 | (text[at++] & 0x3f);
        }
        units[count++] = (uint16_t)unit;
    }
    return count;
}

/* True if each of its units is a byte. */
bool is_latin1(const uint8_t *text, size_t length) {
    uint8_t most = 0;
    for (size_t i = 0; i < length; i++) most = text[i] > most ? text[i] : most;
    return most < 0xc4;
}

/* Puts UTF-8, of at most three bytes for a unit, and returns its end; NULL if a surrogate is alone.
 * One more byte may be written. */
uint8_t *put_utf8(const uint16_t *units, size_t count, uint8_t *out) {
    for (size_t i = 0; i < count; i++) {
        uint32_t unit = units[i];
        if (unit < 0x80) {
            *out++ = (uint8_t)unit;
        } else if (unit < 0x800) {
            *out++ = (uint8_t)(0xc0 | unit >> 6);
            *out++ = 0x80 | (unit & 0x3f);
        } else if ((unit & 0xf800) != 0xd800) {
            uint32_t three = 0x8080e0 | unit >> 12 | (unit & 0xfc0) << 2 | (unit & 0x3f) << 16;
            memcpy(out, &three, sizeof three); /* of processors that put the low byte first */
            out += 3;
        } else {
            if (unit >= 0xdc00 || i + 1 == count || (units[i + 1] & 0xfc00) != 0xdc00) return NULL;
            unit = 0x10000 + ((unit & 0x3ff) << 10 | (units[++i] & 0x3ff));
            *out++ = (uint8_t)(0xf0 | unit >> 18);
            *out++ = 0x80 | (unit >> 12 & 0x3f);
            *out++ = 0x80 | (unit >> 6 & 0x3f);
            *out++ = 0x80 | (unit & 0x3f);
        }
    }
    return out;
}
