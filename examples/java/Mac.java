import cca.Coprocessor;
import cca.Ended;
import cca.Label;
import cca.Refused;
import java.nio.charset.StandardCharsets;
import java.nio.file.Path;
import java.util.HexFormat;

/** Computes a MAC over a message, at the socket of a front: Mac SOCKET LABEL MESSAGE. */
final class Mac {
    public static void main(String[] words) {
        byte[] message = words[2].getBytes(StandardCharsets.UTF_8);
        try (Coprocessor cca = new Coprocessor(Path.of(words[0]))) {
            byte[] mac = cca.macGenerate(new Label(words[1]), message, "X9.9-1", 8).bytes();
            System.out.println("MAC " + HexFormat.of().formatHex(mac));
        } catch (Refused e) {
            System.out.println("refused by " + e.getMessage());
        } catch (Ended e) {
            System.out.println(e.isInDoubt() ? "ask what became of it: " + e.getMessage() : "ask again: " + e.getMessage());
        }
    }
}
