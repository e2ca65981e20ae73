import cca.Coprocessor;
import cca.Data;
import cca.Ended;
import cca.Key;
import cca.Label;
import cca.Refused;
import cca.Reply;
import cca.Token;
import java.io.BufferedReader;
import java.io.IOException;
import java.io.InputStreamReader;
import java.lang.reflect.InvocationTargetException;
import java.lang.reflect.Method;
import java.lang.reflect.Parameter;
import java.nio.file.Path;
import java.time.Duration;
import java.util.Arrays;
import java.util.HexFormat;
import java.util.List;
import java.util.Objects;
import java.util.stream.Collectors;
import java.util.stream.IntStream;

/**
 * Calls methods of Coprocessor by their names: {@code Asks SOCKET MILLISECONDS}, and a call a line, as {@code keyTest L:PAY}. Each
 * gets a line with what came. {@code threads N REQUEST} asks a request from N threads, each time with a number of its own behind
 * it, and {@code interrupted REQUEST} interrupts the thread that asks.
 */
public final class Asks {
    private static final HexFormat HEX = HexFormat.of();

    public static void main(String[] words) throws IOException, InterruptedException {
        BufferedReader lines = new BufferedReader(new InputStreamReader(System.in));
        try (Coprocessor cca = new Coprocessor(Path.of(words[0]), Duration.ofMillis(Long.parseLong(words[1])))) {
            for (String line = lines.readLine(); line != null; line = lines.readLine()) {
                System.out.println(answer(cca, line));
            }
        }
    }

    private static String answer(Coprocessor cca, String line) throws InterruptedException {
        String[] call = line.split(" ");
        return switch (call[0]) {
            case "threads" -> threads(cca, Integer.parseInt(call[1]), line.split(" ", 3)[2]);
            case "interrupted" -> interrupted(cca, line.split(" ", 2)[1]);
            case "ask" -> told(() -> cca.ask(line.split(" ", 2)[1]));
            case "newline" -> told(() -> cca.ask(line + "\n" + line));
            default -> told(() -> called(cca, call));
        };
    }

    private interface Call {
        Object come() throws Exception;
    }

    /** What comes of a call, as a line. */
    private static String told(Call call) {
        try {
            return shown(call.come());
        } catch (InvocationTargetException e) {
            return thrown(e.getCause());
        } catch (Exception e) {
            return thrown(e);
        }
    }

    private static String thrown(Throwable e) {
        if (e instanceof Refused it) {
            return "Refused " + it.rule() + " " + it.field() + " " + it.text();
        }
        if (e instanceof Ended it) {
            return "Ended " + it.isInDoubt() + " " + it.getMessage();
        }
        return e.getClass().getSimpleName() + " " + e.getMessage();
    }

    private static String shown(Object came) {
        if (came instanceof Reply reply) {
            String fields = reply.names().stream().map(it -> " " + it + "=" + reply.text(it)).collect(Collectors.joining());
            return "Reply" + fields + (reply.usedOldKey() ? " old" : "");
        }
        if (came instanceof Data data) {
            return "Data " + HEX.formatHex(data.bytes()) + (data.usedOldKey() ? " old" : "");
        }
        if (came instanceof Token token) {
            return "Token " + HEX.formatHex(token.bytes());
        }
        return Objects.toString(came);
    }

    private static Object called(Coprocessor cca, String[] call) throws ReflectiveOperationException {
        Method method = Arrays.stream(Coprocessor.class.getMethods()).filter(it -> it.getName().equals(call[0])).findFirst().orElseThrow();
        Parameter[] parameters = method.getParameters();
        Object[] values = IntStream.range(0, parameters.length).mapToObj(it -> value(parameters[it].getType(), call[it + 1])).toArray();
        return method.invoke(cca, values);
    }

    /** A value of a parameter: {@code .} stands for no byte or no character, and {@code null} for null. */
    private static Object value(Class<?> type, String word) {
        String text = word.equals(".") ? "" : word;
        if (word.equals("null")) {
            return null;
        }
        if (type == int.class) {
            return Integer.parseInt(text);
        }
        if (type == byte[].class) {
            return HEX.parseHex(text);
        }
        if (type == Token.class) {
            return new Token(HEX.parseHex(text));
        }
        if (type == Key.class) {
            return text.startsWith("L:") ? new Label(text.substring(2)) : new Token(HEX.parseHex(text.substring(2)));
        }
        return text;
    }

    private static String threads(Coprocessor cca, int count, String request) throws InterruptedException {
        boolean[] isOwn = new boolean[count];
        List<Thread> threads = IntStream.range(0, count).mapToObj(number -> new Thread(() -> {
            isOwn[number] = IntStream.range(0, 100).allMatch(it -> {
                String name = "K" + number + "." + it;
                return cca.ask(request + " " + name).equals("OK value=" + name);
            });
        })).toList();
        threads.forEach(Thread::start);
        for (Thread thread : threads) {
            thread.join();
        }
        return "own " + IntStream.range(0, count).filter(it -> isOwn[it]).count();
    }

    private static String interrupted(Coprocessor cca, String request) throws InterruptedException {
        String[] came = new String[1];
        Thread thread = new Thread(() -> came[0] = told(() -> cca.ask(request)) + " " + Thread.currentThread().isInterrupted());
        thread.start();
        while (thread.getState() == Thread.State.NEW || !isWaiting(thread)) {
            Thread.onSpinWait();
        }
        thread.interrupt();
        thread.join();
        return came[0];
    }

    /** Whether it waits for a reply. */
    private static boolean isWaiting(Thread thread) {
        return Arrays.stream(thread.getStackTrace()).anyMatch(it -> it.getMethodName().equals("received"));
    }
}
