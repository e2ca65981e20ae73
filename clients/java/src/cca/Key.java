package cca;

/** A key that a request names: a {@link Label}, or a {@link Token}. */
public sealed interface Key permits Label, Token {
}
