package cca;

/* Made by clients/java/make_requests.py from clients/verbs.json: a change belongs there. */

/**
 * Each form of a request, by the name of its row in clients/verbs.json. A key that is made goes under the label {@code to}, or with
 * null into the reply. {@link Refused} is thrown where cca refuses a request, {@link Ended} where it gets no reply, and
 * IllegalArgumentException where the arguments can't be sent.
 */
public abstract class Requests {
    Requests() {
    }

    /** Asks a request whose reply has these fields. */
    abstract Reply ask(RequestLine request, String... wanted);

    /** CSNBENC (Encipher). The reply has text. */
    public final Reply csnbenc(Key key, byte[] iv, String pad, byte[] text) {
        return ask(new RequestLine("CSNBENC")
                .key("key", key)
                .bytes("iv", iv, 8)
                .word("pad", pad, "NONE", "X9.23")
                .bytes("text", text), "text");
    }

    /** CSNBENC FIRST (Encipher). The reply has text, chain. */
    public final Reply csnbencFirst(Key key, byte[] iv, byte[] text) {
        return ask(new RequestLine("CSNBENC")
                .key("key", key)
                .word("segment", "FIRST", "FIRST")
                .bytes("iv", iv, 8)
                .bytes("text", text), "text", "chain");
    }

    /** CSNBENC MIDDLE (Encipher). The reply has text, chain. */
    public final Reply csnbencMiddle(Key key, byte[] chain, byte[] text) {
        return ask(new RequestLine("CSNBENC")
                .key("key", key)
                .word("segment", "MIDDLE", "MIDDLE")
                .bytes("chain", chain, 16)
                .bytes("text", text), "text", "chain");
    }

    /** CSNBENC LAST (Encipher). The reply has text. */
    public final Reply csnbencLast(Key key, byte[] chain, String pad, byte[] text) {
        return ask(new RequestLine("CSNBENC")
                .key("key", key)
                .word("segment", "LAST", "LAST")
                .bytes("chain", chain, 16)
                .word("pad", pad, "NONE", "X9.23")
                .bytes("text", text), "text");
    }

    /** CSNBDEC (Decipher). The reply has text. */
    public final Reply csnbdec(Key key, byte[] iv, String pad, byte[] text) {
        return ask(new RequestLine("CSNBDEC")
                .key("key", key)
                .bytes("iv", iv, 8)
                .word("pad", pad, "NONE", "X9.23")
                .bytes("text", text), "text");
    }

    /** CSNBDEC FIRST (Decipher). The reply has text, chain. */
    public final Reply csnbdecFirst(Key key, byte[] iv, byte[] text) {
        return ask(new RequestLine("CSNBDEC")
                .key("key", key)
                .word("segment", "FIRST", "FIRST")
                .bytes("iv", iv, 8)
                .bytes("text", text), "text", "chain");
    }

    /** CSNBDEC MIDDLE (Decipher). The reply has text, chain. */
    public final Reply csnbdecMiddle(Key key, byte[] chain, byte[] text) {
        return ask(new RequestLine("CSNBDEC")
                .key("key", key)
                .word("segment", "MIDDLE", "MIDDLE")
                .bytes("chain", chain, 16)
                .bytes("text", text), "text", "chain");
    }

    /** CSNBDEC LAST (Decipher). The reply has text. */
    public final Reply csnbdecLast(Key key, byte[] chain, String pad, byte[] text) {
        return ask(new RequestLine("CSNBDEC")
                .key("key", key)
                .word("segment", "LAST", "LAST")
                .bytes("chain", chain, 16)
                .word("pad", pad, "NONE", "X9.23")
                .bytes("text", text), "text");
    }

    /** CSNBMGN (MAC_Generate). The reply has mac. */
    public final Reply csnbmgn(Key key, String rule, String length, byte[] text) {
        return ask(new RequestLine("CSNBMGN")
                .key("key", key)
                .word("rule", rule, "X9.9-1", "X9.19OPT")
                .word("length", length, "4", "6", "8")
                .bytes("text", text), "mac");
    }

    /** CSNBMGN FIRST (MAC_Generate). The reply has chain. */
    public final Reply csnbmgnFirst(Key key, String rule, byte[] text) {
        return ask(new RequestLine("CSNBMGN")
                .key("key", key)
                .word("rule", rule, "X9.9-1", "X9.19OPT")
                .word("segment", "FIRST", "FIRST")
                .bytes("text", text), "chain");
    }

    /** CSNBMGN MIDDLE (MAC_Generate). The reply has chain. */
    public final Reply csnbmgnMiddle(Key key, String rule, byte[] chain, byte[] text) {
        return ask(new RequestLine("CSNBMGN")
                .key("key", key)
                .word("rule", rule, "X9.9-1", "X9.19OPT")
                .word("segment", "MIDDLE", "MIDDLE")
                .bytes("chain", chain, 16)
                .bytes("text", text), "chain");
    }

    /** CSNBMGN LAST (MAC_Generate). The reply has mac. */
    public final Reply csnbmgnLast(Key key, String rule, String length, byte[] chain, byte[] text) {
        return ask(new RequestLine("CSNBMGN")
                .key("key", key)
                .word("rule", rule, "X9.9-1", "X9.19OPT")
                .word("segment", "LAST", "LAST")
                .word("length", length, "4", "6", "8")
                .bytes("chain", chain, 16)
                .bytes("text", text), "mac");
    }

    /** CSNBMVR (MAC_Verify). The reply has match. */
    public final Reply csnbmvr(Key key, String rule, byte[] mac, byte[] text) {
        return ask(new RequestLine("CSNBMVR")
                .key("key", key)
                .word("rule", rule, "X9.9-1", "X9.19OPT")
                .bytes("mac", mac, 4, 6, 8)
                .bytes("text", text), "match");
    }

    /** CSNBMVR FIRST (MAC_Verify). The reply has chain. */
    public final Reply csnbmvrFirst(Key key, String rule, byte[] text) {
        return ask(new RequestLine("CSNBMVR")
                .key("key", key)
                .word("rule", rule, "X9.9-1", "X9.19OPT")
                .word("segment", "FIRST", "FIRST")
                .bytes("text", text), "chain");
    }

    /** CSNBMVR MIDDLE (MAC_Verify). The reply has chain. */
    public final Reply csnbmvrMiddle(Key key, String rule, byte[] chain, byte[] text) {
        return ask(new RequestLine("CSNBMVR")
                .key("key", key)
                .word("rule", rule, "X9.9-1", "X9.19OPT")
                .word("segment", "MIDDLE", "MIDDLE")
                .bytes("chain", chain, 16)
                .bytes("text", text), "chain");
    }

    /** CSNBMVR LAST (MAC_Verify). The reply has match. */
    public final Reply csnbmvrLast(Key key, String rule, byte[] mac, byte[] chain, byte[] text) {
        return ask(new RequestLine("CSNBMVR")
                .key("key", key)
                .word("rule", rule, "X9.9-1", "X9.19OPT")
                .word("segment", "LAST", "LAST")
                .bytes("mac", mac, 4, 6, 8)
                .bytes("chain", chain, 16)
                .bytes("text", text), "match");
    }

    /** CSNBKTP (Key_Token_Parse). The reply has kind, class, length, vector, pattern. */
    public final Reply csnbktp(Token token) {
        return ask(new RequestLine("CSNBKTP")
                .token("token", token), "kind", "class", "length", "vector", "pattern");
    }

    /** CSNBKYT (Key_Test). The reply has value. */
    public final Reply csnbkyt(Key key) {
        return ask(new RequestLine("CSNBKYT")
                .key("key", key), "value");
    }

    /** CSNBCKI (Clear_Key_Import). The reply has token or stored. */
    public final Reply csnbcki(byte[] clear, String to) {
        return ask(new RequestLine("CSNBCKI")
                .bytes("clear", clear, 8)
                .to("to", to), "token|stored");
    }

    /** CSNBRNG (Random_Number_Generate). The reply has random. */
    public final Reply csnbrng(String form) {
        return ask(new RequestLine("CSNBRNG")
                .word("form", form, "RANDOM", "ODD", "EVEN"), "random");
    }

    /** CSNBKGN OP (Key_Generate). The reply has token1 or stored. */
    public final Reply csnbkgnOp(String length, String type1, String to) {
        return ask(new RequestLine("CSNBKGN")
                .word("form", "OP", "OP")
                .word("length", length, "8", "16", "DOUBLE-O")
                .text("type1", type1)
                .to("to", to), "token1|stored");
    }

    /** CSNBKGN (Key_Generate). The reply has token1 or stored, token2. */
    public final Reply csnbkgnPair(String form, String length, String type1, String type2, Key transport2, String to) {
        return ask(new RequestLine("CSNBKGN")
                .word("form", form, "OPEX", "OPIM")
                .word("length", length, "8", "16", "DOUBLE-O")
                .text("type1", type1)
                .text("type2", type2)
                .key("transport2", transport2)
                .to("to", to), "token1|stored", "token2");
    }

    /** CSNBKGN (Key_Generate). The reply has token1, token2. */
    public final Reply csnbkgnOut(String form, String length, String type1, String type2, Key transport1, Key transport2) {
        return ask(new RequestLine("CSNBKGN")
                .word("form", form, "IMEX", "EXEX", "IMIM")
                .word("length", length, "8", "16", "DOUBLE-O")
                .text("type1", type1)
                .text("type2", type2)
                .key("transport1", transport1)
                .key("transport2", transport2), "token1", "token2");
    }

    /** CSNBKIM (Key_Import). The reply has token or stored. */
    public final Reply csnbkim(Token token, Key transport, String to) {
        return ask(new RequestLine("CSNBKIM")
                .token("token", token)
                .key("transport", transport)
                .to("to", to), "token|stored");
    }

    /** CSNBKEX (Key_Export). The reply has token. */
    public final Reply csnbkex(Key key, Key transport) {
        return ask(new RequestLine("CSNBKEX")
                .key("key", key)
                .key("transport", transport), "token");
    }

    /** CSNBPEX (Prohibit_Export). The reply has token or stored. */
    public final Reply csnbpex(Key key, String to) {
        return ask(new RequestLine("CSNBPEX")
                .key("key", key)
                .to("to", to), "token|stored");
    }

    /** CSNBKTC (Key_Token_Change). The reply has token. */
    public final Reply csnbktc(String rule, Token token) {
        return ask(new RequestLine("CSNBKTC")
                .word("rule", rule, "RTCMK", "RTNMK")
                .token("token", token), "token");
    }

    /** CSNBKPI FIRST (Key_Part_Import). The reply has token or stored. */
    public final Reply csnbkpiFirst(String type, byte[] part, String to) {
        return ask(new RequestLine("CSNBKPI")
                .word("rule", "FIRST", "FIRST")
                .text("type", type)
                .bytes("part", part, 8, 16)
                .to("to", to), "token|stored");
    }

    /** CSNBKPI (Key_Part_Import). The reply has token or stored. */
    public final Reply csnbkpiMiddle(String rule, Key key, byte[] part, String to) {
        return ask(new RequestLine("CSNBKPI")
                .word("rule", rule, "MIDDLE", "LAST")
                .key("key", key)
                .bytes("part", part, 8, 16)
                .to("to", to), "token|stored");
    }

    /** CSNBKTR (Key_Translate). The reply has token. */
    public final Reply csnbktr(Token token, Key transport1, Key transport2) {
        return ask(new RequestLine("CSNBKTR")
                .token("token", token)
                .key("transport1", transport1)
                .key("transport2", transport2), "token");
    }

    /** CSNBKRC (Key_Record_Create). The reply has no field. */
    public final Reply csnbkrc(String label) {
        return ask(new RequestLine("CSNBKRC")
                .label("label", label));
    }

    /** CSNBKRW (Key_Record_Write). The reply has no field. */
    public final Reply csnbkrw(String label, Token token) {
        return ask(new RequestLine("CSNBKRW")
                .label("label", label)
                .token("token", token));
    }

    /** CSNBKRR (Key_Record_Read). The reply has token. */
    public final Reply csnbkrr(String label) {
        return ask(new RequestLine("CSNBKRR")
                .label("label", label), "token");
    }

    /** CSNBKRD (Key_Record_Delete). The reply has no field. */
    public final Reply csnbkrd(String label) {
        return ask(new RequestLine("CSNBKRD")
                .label("label", label));
    }

    /** CSNBKRL (Key_Record_List). The reply has count, labels. */
    public final Reply csnbkrl(String prefix) {
        return ask(new RequestLine("CSNBKRL")
                .text("prefix", prefix), "count", "labels");
    }

    /** CSNBMKP (Master_Key_Process). The reply has new. */
    public final Reply csnbmkpPart(String action, byte[] part) {
        return ask(new RequestLine("CSNBMKP")
                .word("action", action, "FIRST", "MIDDLE", "LAST")
                .bytes("part", part, 24), "new");
    }

    /** CSNBMKP CLEAR (Master_Key_Process). The reply has new. */
    public final Reply csnbmkpClear() {
        return ask(new RequestLine("CSNBMKP")
                .word("action", "CLEAR", "CLEAR"), "new");
    }

    /** CSNBMKP SET (Master_Key_Process). The reply has new. */
    public final Reply csnbmkpSet() {
        return ask(new RequestLine("CSNBMKP")
                .word("action", "SET", "SET"), "new");
    }

    /** CSUAACI DEFINE (Access_Control_Initialization). The reply has no field. */
    public final Reply csuaaciDefine(String name, int points) {
        return ask(new RequestLine("CSUAACI")
                .word("action", "DEFINE", "DEFINE")
                .text("name", name)
                .points("points", points));
    }

    /** CSUAACI REMOVE (Access_Control_Initialization). The reply has no field. */
    public final Reply csuaaciRemove(String name) {
        return ask(new RequestLine("CSUAACI")
                .word("action", "REMOVE", "REMOVE")
                .text("name", name));
    }

    /** REENCIPHER. The reply has changed. */
    public final Reply reencipher() {
        return ask(new RequestLine("REENCIPHER"), "changed");
    }

    /** REENCIPHER AHEAD. The reply has changed. */
    public final Reply reencipherAhead() {
        return ask(new RequestLine("REENCIPHER")
                .word("action", "AHEAD", "AHEAD"), "changed");
    }

    /** REENCIPHER DROP. The reply has changed. */
    public final Reply reencipherDrop() {
        return ask(new RequestLine("REENCIPHER")
                .word("action", "DROP", "DROP"), "changed");
    }
}
