package cca;

/* Made by clients/java/make_requests.py from clients/verbs.json: a change belongs there. */

import java.util.List;

/** The key types, each with its control vector for a key of 8 bytes, and the left half of that for 16, in hexadecimal digits; or none. */
final class Types {
    private Types() {
    }

    record Type(String name, String single, String left) {
    }

    static final List<Type> ALL = List.of(
            new Type("DATA", "00007d0003000000", "00007d0003410000"),
            new Type("DATAC", "", "0000710003410000"),
            new Type("DATAM", "", "00004d0003410000"),
            new Type("DATAMV", "", "0000440003410000"),
            new Type("CIPHER", "0003710003000000", ""),
            new Type("ENCIPHER", "0003600003000000", ""),
            new Type("DECIPHER", "0003500003000000", ""),
            new Type("MAC", "00054d0003000000", "00054d0003410000"),
            new Type("MACVER", "0005440003000000", "0005440003410000"),
            new Type("EXPORTER", "", "00417d0003410000"),
            new Type("IMPORTER", "", "00427d0003410000"),
            new Type("OKEYXLAT", "", "0041420003410000"),
            new Type("IKEYXLAT", "", "0042420003410000"));
}
