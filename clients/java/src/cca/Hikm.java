package cca;

import java.nio.ByteBuffer;
import java.util.Arrays;

/**
 * Verbs in the shape of IBM's classes for Java: a method CSNB..J for a verb, with the parameters that clients/c/csnb.h has, a number as
 * {@link hikmNativeLong} and a string as bytes. Written from general knowledge of them, and not compared with IBM's classes: docs/FROM-IBM.md
 * says which parameters were known. Return codes and reasons are those of csnb.h.
 */
public final class Hikm {
    private static final int BLOCK = 8;
    private static final int CHAIN = 16;
    private static final int VECTOR = 18;

    private final Coprocessor cca;

    /** The verbs over the socket of a role. */
    public Hikm(Coprocessor cca) {
        this.cca = cca;
    }

    // ---- master keys

    public void CSNBMKPJ(hikmNativeLong return_code, hikmNativeLong reason_code, hikmNativeLong exit_data_length, byte[] exit_data,
            hikmNativeLong rule_array_count, byte[] rule_array, byte[] key_part) {
        HikmCall call = new HikmCall(cca, exit_data_length).words(rule_array_count, rule_array);
        call.choose("SYM-MK", "SYM-MK");
        String action = call.choose(null, "CLEAR", "SET", "FIRST", "MIDDLE", "LAST");
        boolean isPart = action != null && !action.equals("CLEAR") && !action.equals("SET");
        byte[] part = isPart ? call.data(key_part, 24) : null;
        call.ask(return_code, reason_code, it -> switch (action) {
            case "CLEAR" -> it.csnbmkpClear().usedOldKey();
            case "SET" -> it.csnbmkpSet().usedOldKey();
            default -> it.csnbmkpPart(action, part).usedOldKey();
        });
    }

    public void CSUAACIJ(hikmNativeLong return_code, hikmNativeLong reason_code, hikmNativeLong exit_data_length, byte[] exit_data,
            hikmNativeLong rule_array_count, byte[] rule_array, hikmNativeLong verb_data_1_length, byte[] verb_data_1,
            hikmNativeLong verb_data_2_length, byte[] verb_data_2) {
        HikmCall call = new HikmCall(cca, exit_data_length).words(rule_array_count, rule_array);
        String action = call.choose(null, "DEFINE", "REMOVE");
        byte[] role = call.data(verb_data_1, verb_data_1_length);
        byte[] points = action != null && action.equals("DEFINE") ? call.data(verb_data_2, verb_data_2_length) : new byte[4];
        if (role.length != BLOCK || points.length != 4) {
            call.fault(HikmCall.LENGTH);
        }
        String name = HikmCall.text(role, 0, role.length);
        call.ask(return_code, reason_code, it -> action.equals("DEFINE")
                ? it.csuaaciDefine(name, ByteBuffer.wrap(points).getInt()).usedOldKey()
                : it.csuaaciRemove(name).usedOldKey());
    }

    // ---- key storage

    public void CSNBKRCJ(hikmNativeLong return_code, hikmNativeLong reason_code, hikmNativeLong exit_data_length, byte[] exit_data,
            byte[] key_label) {
        HikmCall call = new HikmCall(cca, exit_data_length);
        Label label = call.label(key_label);
        call.ask(return_code, reason_code, it -> it.csnbkrc(label.name()).usedOldKey());
    }

    public void CSNBKRDJ(hikmNativeLong return_code, hikmNativeLong reason_code, hikmNativeLong exit_data_length, byte[] exit_data,
            hikmNativeLong rule_array_count, byte[] rule_array, byte[] key_label) {
        HikmCall call = new HikmCall(cca, exit_data_length).words(rule_array_count, rule_array);
        call.choose(null, "LABEL-DL");
        Label label = call.label(key_label);
        call.ask(return_code, reason_code, it -> it.csnbkrd(label.name()).usedOldKey());
    }

    /** Writes the labels, one a line, into a new file of the folder that the environment variable CSUDESLD names. */
    public void CSNBKRLJ(hikmNativeLong return_code, hikmNativeLong reason_code, hikmNativeLong exit_data_length, byte[] exit_data,
            byte[] key_label, hikmNativeLong data_set_name_length, byte[] data_set_name, byte[] security_server_name) {
        HikmCall call = new HikmCall(cca, exit_data_length, data_set_name_length);
        call.hasRoom(data_set_name, Token.SIZE);
        Label label = call.label(key_label);
        String name = label == null ? "*" : label.name();
        String folder = System.getenv("CSUDESLD");
        boolean isOfPrefix = name.indexOf('*') == name.length() - 1; // here a list is that of a prefix
        if (!isOfPrefix || folder == null) {
            call.fault(isOfPrefix ? HikmCall.LIST : HikmCall.LABEL);
        }
        String prefix = name.substring(0, name.length() - 1);
        call.ask(return_code, reason_code, it -> {
            String path = HikmList.write(call, folder, it.recordList(prefix));
            if (path.isEmpty()) {
                return false;
            }
            data_set_name_length.setValue(path.length());
            HikmCall.fill(data_set_name, 0, Token.SIZE, path);
            if (security_server_name != null) {
                HikmCall.fill(security_server_name, 0, BLOCK, "");
            }
            return false;
        });
    }

    public void CSNBKRRJ(hikmNativeLong return_code, hikmNativeLong reason_code, hikmNativeLong exit_data_length, byte[] exit_data,
            byte[] key_label, byte[] key_token) {
        HikmCall call = new HikmCall(cca, exit_data_length);
        call.hasRoom(key_token, Token.SIZE);
        Label label = call.label(key_label);
        call.ask(return_code, reason_code, it -> put(it.csnbkrr(label.name()), "token", key_token));
    }

    public void CSNBKRWJ(hikmNativeLong return_code, hikmNativeLong reason_code, hikmNativeLong exit_data_length, byte[] exit_data,
            byte[] key_token, byte[] key_label) {
        HikmCall call = new HikmCall(cca, exit_data_length);
        Token token = call.token(key_token);
        Label label = call.label(key_label);
        call.ask(return_code, reason_code, it -> it.csnbkrw(label.name(), token).usedOldKey());
    }

    // ---- keys

    public void CSNBCKIJ(hikmNativeLong return_code, hikmNativeLong reason_code, hikmNativeLong exit_data_length, byte[] exit_data,
            byte[] clear_key, byte[] target_key_identifier) {
        HikmCall call = new HikmCall(cca, exit_data_length);
        byte[] clear = call.data(clear_key, BLOCK);
        String target = call.target(target_key_identifier);
        call.ask(return_code, reason_code, it -> put(it.csnbcki(clear, target), "token", target_key_identifier));
    }

    public void CSNBKEXJ(hikmNativeLong return_code, hikmNativeLong reason_code, hikmNativeLong exit_data_length, byte[] exit_data,
            byte[] key_type, byte[] source_key_identifier, byte[] exporter_key_identifier, byte[] target_key_token) {
        HikmCall call = new HikmCall(cca, exit_data_length, key_type);
        call.hasRoom(target_key_token, Token.SIZE);
        Key key = call.key(source_key_identifier);
        Key exporter = call.key(exporter_key_identifier);
        String type = key_type == null ? "" : HikmCall.text(key_type, 0, BLOCK);
        call.ask(return_code, reason_code, it -> {
            Reply reply = it.csnbkex(key, exporter); // the key of a label is known by its token alone
            if (TokenTypes.isOf(type, reply.token("token").bytes())) {
                put(reply, "token", target_key_token);
            } else {
                call.fault(HikmCall.KEY_TYPE);
            }
            return reply.usedOldKey();
        });
    }

    public void CSNBKGNJ(hikmNativeLong return_code, hikmNativeLong reason_code, hikmNativeLong exit_data_length, byte[] exit_data,
            byte[] key_form, byte[] key_length, byte[] key_type_1, byte[] key_type_2, byte[] kek_key_identifier_1,
            byte[] kek_key_identifier_2, byte[] generated_key_identifier_1, byte[] generated_key_identifier_2) {
        HikmCall call = new HikmCall(cca, exit_data_length, key_form, key_length, key_type_1);
        String form = key_form == null ? "" : HikmCall.text(key_form, 0, 4);
        String length = length(call, key_length);
        String type1 = key_type_1 == null ? "" : HikmCall.text(key_type_1, 0, BLOCK);
        String target = call.target(generated_key_identifier_1);
        boolean isPair = form.equals("OPEX") || form.equals("OPIM");
        boolean isOut = form.equals("IMEX") || form.equals("EXEX") || form.equals("IMIM");
        if (!isPair && !isOut) {
            if (!form.equals("OP")) {
                call.fault(HikmCall.KEY_TYPE);
            }
            call.ask(return_code, reason_code, it -> put(it.csnbkgnOp(length, type1, target), "token1", generated_key_identifier_1));
            return;
        }
        call.hasRoom(generated_key_identifier_2, Token.SIZE);
        String type2 = key_type_2 == null ? "" : HikmCall.text(key_type_2, 0, BLOCK);
        Key transport1 = isOut ? call.key(kek_key_identifier_1) : null;
        Key transport2 = call.key(kek_key_identifier_2);
        if (isOut && target != null) {
            call.fault(HikmCall.KEY); // an external token isn't stored
        }
        call.ask(return_code, reason_code, it -> {
            Reply reply = isPair ? it.csnbkgnPair(form, length, type1, type2, transport2, target)
                    : it.csnbkgnOut(form, length, type1, type2, transport1, transport2);
            put(reply, "token2", generated_key_identifier_2);
            return put(reply, "token1", generated_key_identifier_1);
        });
    }

    public void CSNBKIMJ(hikmNativeLong return_code, hikmNativeLong reason_code, hikmNativeLong exit_data_length, byte[] exit_data,
            byte[] key_type, byte[] source_key_token, byte[] importer_key_identifier, byte[] target_key_identifier) {
        HikmCall call = new HikmCall(cca, exit_data_length, key_type);
        Token token = call.token(source_key_token);
        Key importer = call.key(importer_key_identifier);
        String target = call.target(target_key_identifier);
        if (key_type != null && token != null && !TokenTypes.isOf(HikmCall.text(key_type, 0, BLOCK), token.bytes())) {
            call.fault(HikmCall.KEY_TYPE);
        }
        call.ask(return_code, reason_code, it -> put(it.csnbkim(token, importer, target), "token", target_key_identifier));
    }

    public void CSNBKPIJ(hikmNativeLong return_code, hikmNativeLong reason_code, hikmNativeLong exit_data_length, byte[] exit_data,
            hikmNativeLong rule_array_count, byte[] rule_array, byte[] key_part, byte[] key_identifier) {
        HikmCall call = new HikmCall(cca, exit_data_length).words(rule_array_count, rule_array);
        String rule = call.choose(null, "FIRST", "MIDDLE", "LAST");
        Key key = call.key(key_identifier);
        String target = key instanceof Label label ? label.name() : null;
        boolean isFirst = rule != null && rule.equals("FIRST");
        TokenTypes.Skeleton skeleton = isFirst && target == null && key != null ? TokenTypes.skeleton(key_identifier) : null;
        if (isFirst && skeleton == null) {
            call.fault(HikmCall.KEY);
        }
        int length = isFirst && skeleton != null ? skeleton.length() : TokenTypes.isSingle(key) ? BLOCK : 2 * BLOCK;
        byte[] part = call.data(key_part, length);
        call.ask(return_code, reason_code, it -> put(isFirst ? it.csnbkpiFirst(skeleton.type(), part, null)
                : nextPart(it, rule, key, part, target), "token", key_identifier));
    }

    /** A later part. The length of the key under a label isn't known here: a part of the wrong length is refused and changes nothing. */
    private static Reply nextPart(Coprocessor cca, String rule, Key key, byte[] part, String target) {
        try {
            return cca.csnbkpiMiddle(rule, key, part, target);
        } catch (Refused e) {
            if (target == null || e.rule() != 32 || !e.field().equals("part") || part.length == BLOCK) {
                throw e;
            }
            return cca.csnbkpiMiddle(rule, key, Arrays.copyOf(part, BLOCK), target);
        }
    }

    public void CSNBKTCJ(hikmNativeLong return_code, hikmNativeLong reason_code, hikmNativeLong exit_data_length, byte[] exit_data,
            hikmNativeLong rule_array_count, byte[] rule_array, byte[] key_identifier) {
        HikmCall call = new HikmCall(cca, exit_data_length).words(rule_array_count, rule_array);
        String rule = call.choose(null, "RTCMK", "RTNMK");
        Token token = call.token(key_identifier);
        call.ask(return_code, reason_code, it -> {
            put(it.csnbktc(rule, token), "token", key_identifier);
            return false; // it is under the other master key now
        });
    }

    public void CSNBKTPJ(hikmNativeLong return_code, hikmNativeLong reason_code, hikmNativeLong exit_data_length, byte[] exit_data,
            byte[] key_token, byte[] key_type, hikmNativeLong rule_array_count, byte[] rule_array, byte[] key_value,
            Object reserved_1, hikmNativeLong reserved_2, byte[] reserved_3, byte[] control_vector, byte[] reserved_4,
            hikmNativeLong reserved_5, byte[] reserved_6, byte[] master_key_verification_pattern) {
        HikmCall call = new HikmCall(cca, exit_data_length, rule_array_count);
        Token token = call.token(key_token);
        call.hasRoom(key_type, BLOCK);
        call.hasRoom(rule_array, 3 * BLOCK);
        call.hasRoom(key_value, 2 * BLOCK);
        call.hasRoom(control_vector, 2 * BLOCK);
        call.hasRoom(master_key_verification_pattern, BLOCK);
        if (rule_array_count != null && rule_array_count.getValue() < 3) {
            call.fault(HikmCall.KEYWORDS);
        }
        call.ask(return_code, reason_code, it -> {
            Reply reply = it.csnbktp(token);
            HikmCall.fill(key_type, 0, BLOCK, reply.text("class"));
            HikmCall.fill(rule_array, 0, BLOCK, reply.text("kind").equals("internal") ? "INTERNAL" : "EXTERNAL");
            HikmCall.fill(rule_array, BLOCK, BLOCK, "KEY");
            HikmCall.fill(rule_array, 2 * BLOCK, BLOCK, "CV");
            rule_array_count.setValue(3);
            System.arraycopy(key_token, 16, key_value, 0, 2 * BLOCK);
            Arrays.fill(control_vector, 0, 2 * BLOCK, (byte) 0);
            put(reply, "vector", control_vector);
            put(reply, "pattern", master_key_verification_pattern);
            return reply.usedOldKey();
        });
    }

    public void CSNBKTRJ(hikmNativeLong return_code, hikmNativeLong reason_code, hikmNativeLong exit_data_length, byte[] exit_data,
            byte[] input_key_token, byte[] input_kek_key_identifier, byte[] output_kek_key_identifier, byte[] output_key_token) {
        HikmCall call = new HikmCall(cca, exit_data_length);
        call.hasRoom(output_key_token, Token.SIZE);
        Token token = call.token(input_key_token);
        Key from = call.key(input_kek_key_identifier);
        Key to = call.key(output_kek_key_identifier);
        call.ask(return_code, reason_code, it -> put(it.csnbktr(token, from, to), "token", output_key_token));
    }

    public void CSNBKYTJ(hikmNativeLong return_code, hikmNativeLong reason_code, hikmNativeLong exit_data_length, byte[] exit_data,
            hikmNativeLong rule_array_count, byte[] rule_array, byte[] key_identifier, byte[] random_number,
            byte[] verification_pattern) {
        HikmCall call = new HikmCall(cca, exit_data_length).words(rule_array_count, rule_array);
        call.choose(null, "KEY-ENC", "KEY-ENCD");
        String way = call.choose(null, "GENERATE", "VERIFY");
        call.choose(null, "ENC-ZERO");
        call.hasRoom(verification_pattern, BLOCK);
        Key key = call.key(key_identifier);
        call.ask(return_code, reason_code, it -> {
            Data value = it.keyTest(key);
            if (way.equals("GENERATE")) {
                System.arraycopy(Arrays.copyOf(value.bytes(), BLOCK), 0, verification_pattern, 0, BLOCK);
            } else if (!Arrays.equals(value.bytes(), Arrays.copyOf(verification_pattern, 4))) {
                call.mismatch();
            }
            return value.usedOldKey();
        });
    }

    public void CSNBPEXJ(hikmNativeLong return_code, hikmNativeLong reason_code, hikmNativeLong exit_data_length, byte[] exit_data,
            byte[] key_identifier) {
        HikmCall call = new HikmCall(cca, exit_data_length);
        Key key = call.key(key_identifier);
        String target = key instanceof Label label ? label.name() : null;
        call.ask(return_code, reason_code, it -> put(it.csnbpex(key, target), "token", key_identifier));
    }

    public void CSNBRNGJ(hikmNativeLong return_code, hikmNativeLong reason_code, hikmNativeLong exit_data_length, byte[] exit_data,
            byte[] form, byte[] random_number) {
        HikmCall call = new HikmCall(cca, exit_data_length).words(new hikmNativeLong(1), form);
        String chosen = call.choose(null, "RANDOM", "ODD", "EVEN");
        call.hasRoom(random_number, BLOCK);
        call.ask(return_code, reason_code, it -> put(it.csnbrng(chosen), "random", random_number));
    }

    // ---- data

    public void CSNBENCJ(hikmNativeLong return_code, hikmNativeLong reason_code, hikmNativeLong exit_data_length, byte[] exit_data,
            byte[] key_identifier, hikmNativeLong text_length, byte[] clear_text, byte[] initialization_vector,
            hikmNativeLong rule_array_count, byte[] rule_array, hikmNativeLong pad_character, byte[] chaining_vector,
            byte[] cipher_text) {
        HikmCall call = new HikmCall(cca, exit_data_length).words(rule_array_count, rule_array);
        Key key = call.key(key_identifier);
        byte[] data = call.data(clear_text, text_length);
        boolean isPadded = call.choose("CBC", "CBC", "X9.23").equals("X9.23");
        byte[] iv = vector(call, initialization_vector, chaining_vector);
        if (isPadded && (pad_character == null || pad_character.getValue() != 0)) {
            call.fault(pad_character == null ? HikmCall.MISSING : HikmCall.PAD);
        }
        call.hasRoom(cipher_text, isPadded ? data.length - data.length % BLOCK + BLOCK : data.length);
        call.ask(return_code, reason_code, it -> {
            Data came = it.encipher(key, data, iv, isPadded ? "X9.23" : "NONE");
            chain(chaining_vector, came.bytes());
            return put(came, text_length, cipher_text);
        });
    }

    public void CSNBDECJ(hikmNativeLong return_code, hikmNativeLong reason_code, hikmNativeLong exit_data_length, byte[] exit_data,
            byte[] key_identifier, hikmNativeLong text_length, byte[] cipher_text, byte[] initialization_vector,
            hikmNativeLong rule_array_count, byte[] rule_array, byte[] chaining_vector, byte[] clear_text) {
        HikmCall call = new HikmCall(cca, exit_data_length).words(rule_array_count, rule_array);
        Key key = call.key(key_identifier);
        byte[] data = call.data(cipher_text, text_length);
        boolean isPadded = call.choose("CBC", "CBC", "X9.23").equals("X9.23");
        byte[] iv = vector(call, initialization_vector, chaining_vector);
        call.hasRoom(clear_text, isPadded ? data.length - 1 : data.length);
        call.ask(return_code, reason_code, it -> {
            Data came = it.decipher(key, data, iv, isPadded ? "X9.23" : "NONE");
            chain(chaining_vector, data);
            return put(came, text_length, clear_text);
        });
    }

    public void CSNBMGNJ(hikmNativeLong return_code, hikmNativeLong reason_code, hikmNativeLong exit_data_length, byte[] exit_data,
            byte[] key_identifier, hikmNativeLong text_length, byte[] text, hikmNativeLong rule_array_count, byte[] rule_array,
            byte[] chaining_vector, byte[] mac) {
        HikmCall call = new HikmCall(cca, exit_data_length).words(rule_array_count, rule_array);
        Key key = call.key(key_identifier);
        byte[] data = call.data(text, text_length);
        MacWords words = MacWords.read(call);
        byte[] chain = words.goesOn() ? call.data(chaining_vector, CHAIN) : null;
        call.hasRoom(words.isLast() ? mac : chaining_vector, words.isLast() ? words.length : VECTOR);
        call.ask(return_code, reason_code, it -> {
            Reply reply = switch (words.segment) {
                case "FIRST" -> it.csnbmgnFirst(key, words.rule, data);
                case "MIDDLE" -> it.csnbmgnMiddle(key, words.rule, chain, data);
                case "LAST" -> it.csnbmgnLast(key, words.rule, words.size(), chain, data);
                default -> null;
            };
            if (reply == null) {
                return put(it.macGenerate(key, data, words.rule, words.length), null, mac);
            }
            return put(reply, words.isLast() ? "mac" : "chain", words.isLast() ? mac : chaining_vector);
        });
    }

    public void CSNBMVRJ(hikmNativeLong return_code, hikmNativeLong reason_code, hikmNativeLong exit_data_length, byte[] exit_data,
            byte[] key_identifier, hikmNativeLong text_length, byte[] text, hikmNativeLong rule_array_count, byte[] rule_array,
            byte[] chaining_vector, byte[] mac) {
        HikmCall call = new HikmCall(cca, exit_data_length).words(rule_array_count, rule_array);
        Key key = call.key(key_identifier);
        byte[] data = call.data(text, text_length);
        MacWords words = MacWords.read(call);
        byte[] chain = words.goesOn() ? call.data(chaining_vector, CHAIN) : null;
        byte[] wanted = words.isLast() ? call.data(mac, words.length) : null;
        if (!words.isLast()) {
            call.hasRoom(chaining_vector, VECTOR);
        }
        call.ask(return_code, reason_code, it -> switch (words.segment) {
            case "FIRST" -> put(it.csnbmvrFirst(key, words.rule, data), "chain", chaining_vector);
            case "MIDDLE" -> put(it.csnbmvrMiddle(key, words.rule, chain, data), "chain", chaining_vector);
            case "LAST" -> {
                Reply reply = it.csnbmvrLast(key, words.rule, wanted, chain, data);
                yield told(call, reply.text("match").equals("yes"), reply.usedOldKey());
            }
            default -> told(call, it.macVerify(key, data, wanted, words.rule), false);
        });
    }

    // ---- what they share

    /** The keywords of a MAC. */
    private record MacWords(String rule, String segment, int length) {
        static MacWords read(HikmCall call) {
            String rule = call.choose("X9.9-1", "X9.9-1", "X9.19OPT");
            String segment = call.choose("ONLY", "ONLY", "FIRST", "MIDDLE", "LAST");
            String length = call.choose("MACLEN4", "MACLEN4", "MACLEN6", "MACLEN8");
            return new MacWords(rule, segment, length.charAt(6) - '0');
        }

        boolean goesOn() {
            return segment.equals("MIDDLE") || segment.equals("LAST");
        }

        boolean isLast() {
            return segment.equals("ONLY") || segment.equals("LAST");
        }

        String size() {
            return Integer.toString(length);
        }
    }

    private static boolean told(HikmCall call, boolean matches, boolean isOld) {
        if (!matches) {
            call.mismatch();
        }
        return isOld;
    }

    private static String length(HikmCall call, byte[] field) {
        switch (field == null ? "" : HikmCall.text(field, 0, BLOCK)) {
            case "SINGLE", "KEYLN8":
                return "8";
            case "DOUBLE", "KEYLN16":
                return "16";
            case "DOUBLE-O":
                return "DOUBLE-O";
            default:
                call.fault(HikmCall.KEY_TYPE);
                return "";
        }
    }

    /** The vector that data begins with: that of the keyword INITIAL, or of CONTINUE. */
    private static byte[] vector(HikmCall call, byte[] initial, byte[] chaining) {
        return call.data(call.choose("INITIAL", "INITIAL", "CONTINUE").equals("INITIAL") ? initial : chaining, BLOCK);
    }

    /** What the next call continues with: the last block of the ciphertext. */
    private static void chain(byte[] chaining, byte[] ciphertext) {
        if (chaining != null && chaining.length >= VECTOR && ciphertext.length >= BLOCK) {
            Arrays.fill(chaining, 0, VECTOR, (byte) 0);
            System.arraycopy(ciphertext, ciphertext.length - BLOCK, chaining, 0, BLOCK);
        }
    }

    /** Puts the bytes of a field into an output, where the reply has it: a key that went under a label has none. */
    private static boolean put(Reply reply, String name, byte[] output) {
        if (reply.has(name)) {
            byte[] bytes = reply.bytes(name);
            System.arraycopy(bytes, 0, output, 0, bytes.length);
        }
        return reply.usedOldKey();
    }

    private static boolean put(Data data, hikmNativeLong length, byte[] output) {
        System.arraycopy(data.bytes(), 0, output, 0, data.bytes().length);
        if (length != null) {
            length.setValue(data.bytes().length);
        }
        return data.usedOldKey();
    }
}
