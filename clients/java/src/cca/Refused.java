package cca;

/** The request was refused, and nothing was changed. */
public final class Refused extends CcaException {
    private static final long serialVersionUID = 1;

    private final int rule;
    private final String field;

    Refused(int rule, String field) {
        super("rule %02d%s: %s".formatted(rule, field.equals("-") ? "" : ", field " + field, Rules.sentence(rule, field)));
        this.rule = rule;
        this.field = field;
    }

    /** The number of the first rule that the request breaks, 1 to 36. */
    public int rule() {
        return rule;
    }

    /** The field that breaks it, or {@code -}. */
    public String field() {
        return field;
    }

    /** The rule as a sentence. */
    public String text() {
        return Rules.sentence(rule, field);
    }
}
