import cca.Coprocessor;
import cca.Hikm;
import cca.hikmNativeLong;
import java.lang.reflect.InvocationTargetException;
import java.lang.reflect.Method;
import java.nio.charset.StandardCharsets;
import java.nio.file.Path;
import java.util.Arrays;
import java.util.HexFormat;
import java.util.Scanner;

/**
 * Calls methods of Hikm by their names: {@code Hikms SOCKET}, and a call a line, as {@code CSNBRNGJ RANDOM _8}, without the first four
 * parameters. A number is {@code #N}, bytes are {@code =HEX}, or {@code +HEX} where they are told afterwards, {@code _N} is room for N
 * bytes, null is {@code null}, and anything else a text, whose words have 8 bytes where {@code ,} divides them, and 64 with {@code @}
 * before it. Each gets a line: return code, reason, and what the numbers, rooms and bytes to be told are then.
 */
public final class Hikms {
    private static final HexFormat HEX = HexFormat.of();

    public static void main(String[] words) throws ReflectiveOperationException {
        try (Coprocessor cca = new Coprocessor(Path.of(words[0])); Scanner lines = new Scanner(System.in)) {
            Hikm hikm = new Hikm(cca);
            while (lines.hasNextLine()) {
                System.out.println(called(hikm, lines.nextLine().split(" ")));
            }
        }
    }

    private static String called(Hikm hikm, String[] call) throws ReflectiveOperationException {
        Method method = Arrays.stream(Hikm.class.getMethods()).filter(it -> it.getName().equals(call[0])).findFirst().orElseThrow();
        Object[] values = new Object[call.length + 3];
        Arrays.setAll(values, at -> at < 2 ? new hikmNativeLong(-1) : at == 2 ? new hikmNativeLong(0) : at == 3 ? null : value(call[at - 3]));
        try {
            method.invoke(hikm, values);
        } catch (InvocationTargetException e) {
            return e.getCause().toString();
        }
        StringBuilder told = new StringBuilder();
        for (int at = 0; at < values.length; at++) {
            if (at < 2 || (at > 3 && "_#+".indexOf(call[at - 3].charAt(0)) >= 0)) {
                told.append(at == 0 ? "" : " ").append(values[at] instanceof byte[] it ? HEX.formatHex(it) : ((hikmNativeLong) values[at]).getValue());
            }
        }
        return told.toString();
    }

    private static Object value(String word) {
        if (word.equals("null")) {
            return null;
        }
        if (word.startsWith("#")) {
            return new hikmNativeLong(Integer.parseInt(word.substring(1)));
        }
        if (word.startsWith("=") || word.startsWith("+")) {
            return HEX.parseHex(word.substring(1));
        }
        if (word.startsWith("_")) {
            return new byte[Integer.parseInt(word.substring(1))];
        }
        int size = word.startsWith("@") ? 64 : 8;
        StringBuilder text = new StringBuilder();
        for (String it : word.substring(size == 64 ? 1 : 0).split(",")) {
            text.append(String.format("%-" + size + "s", it));
        }
        return text.toString().getBytes(StandardCharsets.ISO_8859_1);
    }
}
