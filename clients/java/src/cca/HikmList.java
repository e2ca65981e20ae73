package cca;

import java.io.IOException;
import java.nio.file.Files;
import java.nio.file.Path;
import java.util.List;

/** The file of labels that CSNBKRL writes. */
final class HikmList {
    private HikmList() {
    }

    /** Writes labels, one a line, into a new file of a folder, which this user alone may read: its path, of 64 characters at most. */
    static String write(HikmCall call, String folder, List<Label> labels) {
        try {
            Path path = Files.createTempFile(Path.of(folder), "KYRLT", "");
            Files.write(path, labels.stream().map(Label::name).toList());
            if (path.toString().length() <= Token.SIZE) {
                return path.toString();
            }
            Files.delete(path);
        } catch (IOException e) {
            // told as a list that can't be written
        }
        call.fault(HikmCall.LIST);
        return "";
    }
}
