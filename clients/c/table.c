/* Made by make_table.py from clients/verbs.json. */
#include "table.h"

#include <stddef.h>

const char *cca_rule(int rule)
{
    switch (rule) {
    case 1:
        return "the line has at most 9,216 bytes and is no request";
    case 2:
        return "the line has more than 9,216 bytes";
    case 3:
        return "the role isn't defined";
    case 4:
        return "the role lacks an access control point that the request needs";
    case 5:
        return "the request needs a current master key, and the current register is empty";
    case 6:
        return "the text isn't a label";
    case 7:
        return "the label doesn't exist";
    case 8:
        return "the label's record is null: it has no key";
    case 9:
        return "byte 0 of the token isn't the kind that is asked for";
    case 10:
        return "bytes 60 to 63 aren't the token validation value";
    case 11:
        return "byte 4 isn't 00";
    case 12:
        return "byte 6 isn't C0, nor 80 with a control vector of zeros";
    case 13:
        return "one of bytes 1 to 3, 5, 7, 48 to 59 isn't zero, or in an external token one of bytes 8 to 15";
    case 14:
        return "a byte of the control vector has an odd number of ones";
    case 15:
        return "a half of the control vector that isn't all zero has bit 30 on or bit 38 off";
    case 16:
        return "the key form isn't that of a single-length key, of a double-length key or of a key with guaranteed unique halves; or the vector of the right half doesn't belong to that of the left half; or the right half of a single-length key isn't zero";
    case 17:
        return "the control vector says that the key is a key part";
    case 18:
        return "the internal token's master key verification pattern (MKVP) is neither that of the current nor that of the old master key";
    case 19:
        return "the key's class isn't one that the verb takes";
    case 20:
        return "the control vector doesn't permit the use";
    case 21:
        return "CSNBKEX, and the control vector isn't all zero and forbids export";
    case 22:
        return "a transport key is of single length";
    case 23:
        return "the data has a length that the verb doesn't take";
    case 24:
        return "the two key types aren't a pair";
    case 25:
        return "the new register isn't in the required state: empty for FIRST; partly full for MIDDLE and LAST; full for SET, RTNMK and AHEAD";
    case 26:
        return "SET, and the current register is full and has the same verification pattern as the new one; AHEAD, and the new register has the verification pattern of the current one or of a full old one";
    case 27:
        return "SET or AHEAD, and a label is under the old master key";
    case 28:
        return "CSNBKRC, and there are 1,024 labels";
    case 29:
        return "CSNBKRC, and the label exists";
    case 30:
        return "DEFINE of a new name, and there are 32 roles; REMOVE of a role that isn't defined";
    case 31:
        return "CSNBDEC with X9.23, and the last clear byte isn't 1 to 8";
    case 32:
        return "X9.9-1 with a double-length key, or X9.19OPT with a single-length one; or CSNBKGN, and one of its types doesn't have the length: 8, 16 or DOUBLE-O; or CSNBKPI FIRST, and the type doesn't have the part's length; MIDDLE or LAST, and the part hasn't the key's length";
    case 33:
        return "CLEAR, and a label is staged";
    case 34:
        return "CSNBKGN with DOUBLE-O, and each of eight right halves equals the left half, apart from low-order bits";
    case 35:
        return "CSNBKPI MIDDLE or LAST, and the key is complete";
    case 36:
        return "MIDDLE or LAST segment, and byte 8 of the chaining value is above 7, or a byte after the carried ones isn't zero";
    }
    return NULL;
}

const struct cca_type cca_types[] = {
    {"DATA", {0x00, 0x00, 0x7d, 0x00, 0x03, 0x00, 0x00, 0x00}, {0x00, 0x00, 0x7d, 0x00, 0x03, 0x41, 0x00, 0x00}},
    {"DATAC", {0x00, 0x00, 0x00, 0x00, 0x00, 0x00, 0x00, 0x00}, {0x00, 0x00, 0x71, 0x00, 0x03, 0x41, 0x00, 0x00}},
    {"DATAM", {0x00, 0x00, 0x00, 0x00, 0x00, 0x00, 0x00, 0x00}, {0x00, 0x00, 0x4d, 0x00, 0x03, 0x41, 0x00, 0x00}},
    {"DATAMV", {0x00, 0x00, 0x00, 0x00, 0x00, 0x00, 0x00, 0x00}, {0x00, 0x00, 0x44, 0x00, 0x03, 0x41, 0x00, 0x00}},
    {"CIPHER", {0x00, 0x03, 0x71, 0x00, 0x03, 0x00, 0x00, 0x00}, {0x00, 0x00, 0x00, 0x00, 0x00, 0x00, 0x00, 0x00}},
    {"ENCIPHER", {0x00, 0x03, 0x60, 0x00, 0x03, 0x00, 0x00, 0x00}, {0x00, 0x00, 0x00, 0x00, 0x00, 0x00, 0x00, 0x00}},
    {"DECIPHER", {0x00, 0x03, 0x50, 0x00, 0x03, 0x00, 0x00, 0x00}, {0x00, 0x00, 0x00, 0x00, 0x00, 0x00, 0x00, 0x00}},
    {"MAC", {0x00, 0x05, 0x4d, 0x00, 0x03, 0x00, 0x00, 0x00}, {0x00, 0x05, 0x4d, 0x00, 0x03, 0x41, 0x00, 0x00}},
    {"MACVER", {0x00, 0x05, 0x44, 0x00, 0x03, 0x00, 0x00, 0x00}, {0x00, 0x05, 0x44, 0x00, 0x03, 0x41, 0x00, 0x00}},
    {"EXPORTER", {0x00, 0x00, 0x00, 0x00, 0x00, 0x00, 0x00, 0x00}, {0x00, 0x41, 0x7d, 0x00, 0x03, 0x41, 0x00, 0x00}},
    {"IMPORTER", {0x00, 0x00, 0x00, 0x00, 0x00, 0x00, 0x00, 0x00}, {0x00, 0x42, 0x7d, 0x00, 0x03, 0x41, 0x00, 0x00}},
    {"OKEYXLAT", {0x00, 0x00, 0x00, 0x00, 0x00, 0x00, 0x00, 0x00}, {0x00, 0x41, 0x42, 0x00, 0x03, 0x41, 0x00, 0x00}},
    {"IKEYXLAT", {0x00, 0x00, 0x00, 0x00, 0x00, 0x00, 0x00, 0x00}, {0x00, 0x42, 0x42, 0x00, 0x03, 0x41, 0x00, 0x00}},
    {NULL, {0x00, 0x00, 0x00, 0x00, 0x00, 0x00, 0x00, 0x00}, {0x00, 0x00, 0x00, 0x00, 0x00, 0x00, 0x00, 0x00}},
};
