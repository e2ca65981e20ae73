package cca;

/**
 * A key under a label. Whether the text is a label is for cca to say, by rule 06.
 *
 * @param name one or more characters from X'21' to X'7E'
 */
public record Label(String name) implements Key {
    public Label {
        RequestLine.checkLabel(name);
    }

    @Override
    public String toString() {
        return name;
    }
}
