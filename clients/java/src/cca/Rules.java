package cca;

/* Made by clients/java/make_requests.py from clients/verbs.json: a change belongs there. */

/** The rules as sentences. */
final class Rules {
    private Rules() {
    }

    /** The sentence of a rule, which may be another one for another field. */
    static String sentence(int rule, String field) {
        return switch ("%02d ".formatted(rule) + field) {
            case "01 -" -> "the line has at most 9,216 bytes and is no request";
            case "02 -" -> "the line has more than 9,216 bytes";
            case "03 -" -> "the role isn't defined";
            case "04 -" -> "the role lacks an access control point that the request needs";
            case "05 -" -> "the request needs a current master key, and the current register is empty";
            case "21 key" -> "CSNBKEX, and the control vector isn't all zero and forbids export";
            case "23 text" -> "the data has a length that the verb doesn't take";
            case "24 type2" -> "the two key types aren't a pair";
            case "25 -" -> "the new register isn't in the required state: empty for FIRST; partly full for MIDDLE and LAST; full for SET, RTNMK and AHEAD";
            case "26 -" -> "SET, and the current register is full and has the same verification pattern as the new one; AHEAD, and the new register has the verification pattern of the current one or of a full old one";
            case "27 -" -> "SET or AHEAD, and a label is under the old master key";
            case "28 label" -> "CSNBKRC, and there are 1,024 labels";
            case "29 label" -> "CSNBKRC, and the label exists";
            case "30 name" -> "DEFINE of a new name, and there are 32 roles; REMOVE of a role that isn't defined";
            case "31 text" -> "CSNBDEC with X9.23, and the last clear byte isn't 1 to 8";
            case "32 key" -> "X9.9-1 with a double-length key, or X9.19OPT with a single-length one";
            case "32 length" -> "CSNBKGN, and one of its types doesn't have the length: 8, 16 or DOUBLE-O";
            case "32 part" -> "CSNBKPI FIRST, and the type doesn't have the part's length; MIDDLE or LAST, and the part hasn't the key's length";
            case "33 -" -> "CLEAR, and a label is staged";
            case "34 length" -> "CSNBKGN with DOUBLE-O, and each of eight right halves equals the left half, apart from low-order bits";
            case "35 key" -> "CSNBKPI MIDDLE or LAST, and the key is complete";
            case "36 chain" -> "MIDDLE or LAST segment, and byte 8 of the chaining value is above 7, or a byte after the carried ones isn't zero";
            default -> sentence(rule);
        };
    }

    private static String sentence(int rule) {
        return switch (rule) {
            case 6 -> "the text isn't a label";
            case 7 -> "the label doesn't exist";
            case 8 -> "the label's record is null: it has no key";
            case 9 -> "byte 0 of the token isn't the kind that is asked for";
            case 10 -> "bytes 60 to 63 aren't the token validation value";
            case 11 -> "byte 4 isn't 00";
            case 12 -> "byte 6 isn't C0, nor 80 with a control vector of zeros";
            case 13 -> "one of bytes 1 to 3, 5, 7, 48 to 59 isn't zero, or in an external token one of bytes 8 to 15";
            case 14 -> "a byte of the control vector has an odd number of ones";
            case 15 -> "a half of the control vector that isn't all zero has bit 30 on or bit 38 off";
            case 16 -> "the key form isn't that of a single-length key, of a double-length key or of a key with guaranteed unique halves; or the vector of the right half doesn't belong to that of the left half; or the right half of a single-length key isn't zero";
            case 17 -> "the control vector says that the key is a key part";
            case 18 -> "the internal token's master key verification pattern (MKVP) is neither that of the current nor that of the old master key";
            case 19 -> "the key's class isn't one that the verb takes";
            case 20 -> "the control vector doesn't permit the use";
            case 22 -> "a transport key is of single length";
            default -> "a rule that this version doesn't know";
        };
    }
}
