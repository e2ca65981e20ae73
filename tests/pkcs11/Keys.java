/* What a program in Java does over a PKCS#11 module: java Keys.java CONFIGURATION TEXT IV KEY, the last three in
   hexadecimal digits. */
import java.security.*;
import java.util.*;
import javax.crypto.*;
import javax.crypto.spec.*;

public class Keys {
    static final HexFormat HEX = HexFormat.of();
    static Provider provider;
    static byte[] text, iv;

    static byte[] run(int mode, String name, Key key, byte[] given) throws Exception {
        Cipher it = Cipher.getInstance(name, provider);
        if (name.contains("ECB"))
            it.init(mode, key);
        else
            it.init(mode, key, new IvParameterSpec(iv));
        return it.doFinal(given);
    }

    /* Enciphers, and deciphers again. */
    static String both(String name, Key key, byte[] given) throws Exception {
        byte[] came = run(Cipher.ENCRYPT_MODE, name, key, given);
        if (!Arrays.equals(run(Cipher.DECRYPT_MODE, name, key, came), given))
            throw new IllegalStateException(name + " doesn't come back");
        return HEX.formatHex(came);
    }

    static void clear(byte[] sixteen) throws Exception {
        byte[] key = Arrays.copyOf(sixteen, 24);
        System.arraycopy(sixteen, 0, key, 16, 8);
        SecretKeyFactory factory = SecretKeyFactory.getInstance("DESede", provider);
        SecretKey it = factory.generateSecret(new SecretKeySpec(key, "DESede"));
        System.out.println("clear " + both("DESede/CBC/PKCS5Padding", it, text));
    }

    public static void main(String[] words) throws Exception {
        provider = Security.getProvider("SunPKCS11").configure(words[0]);
        text = HEX.parseHex(words[1]);
        iv = HEX.parseHex(words[2]);
        KeyStore store = KeyStore.getInstance("PKCS11", provider);
        store.load(null, null);
        System.out.println("aliases " + String.join(" ", new TreeSet<>(Collections.list(store.aliases()))));
        System.out.println("DES " + both("DES/CBC/PKCS5Padding", store.getKey("TEST.DATA", null), text));
        Key key = store.getKey("TEST.DATA.16", null);
        System.out.println("DESede " + both("DESede/CBC/PKCS5Padding", key, text));
        clear(HEX.parseHex(words[3]));
        System.out.println("ECB " + both("DESede/ECB/NoPadding", key, Arrays.copyOf(text, 16)));
        SecretKey made = KeyGenerator.getInstance("DESede", provider).generateKey();
        both("DESede/CBC/PKCS5Padding", made, text);
        System.out.println("generated as before");
        store.setEntry("JAVA.KEY", new KeyStore.SecretKeyEntry(made), null);
        System.out.println("stored " + store.getKey("JAVA.KEY", null).getAlgorithm());
        store.deleteEntry("JAVA.KEY");
        System.out.println(store.containsAlias("JAVA.KEY") ? "still there" : "deleted");
        byte[] random = new byte[16];
        SecureRandom.getInstance("PKCS11", provider).nextBytes(random);
        System.out.println("random " + random.length);
    }
}
