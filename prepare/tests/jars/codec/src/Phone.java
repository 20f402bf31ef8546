import java.util.ArrayList;
import java.util.List;
import java.util.Map;
import java.util.TreeMap;
import org.apache.commons.codec.DecoderException;
import org.apache.commons.codec.binary.Base32;
import org.apache.commons.codec.binary.Hex;
import org.apache.commons.codec.language.Metaphone;
import org.apache.commons.codec.language.RefinedSoundex;
import org.apache.commons.codec.language.Soundex;

/** Groups names that sound alike. */
public class Phone {
    static boolean UPPER = Boolean.parseBoolean("false");

    static String key(String name) {
        if (Boolean.getBoolean("phone.metaphone")) {
            Metaphone metaphone = new Metaphone();
            metaphone.setMaxCodeLen("long".equals(System.getProperty("phone.length")) ? 8 : 4);
            return metaphone.metaphone(name);
        }
        if (Boolean.getBoolean("phone.refined")) {
            return new RefinedSoundex().soundex(name);
        }
        if (System.getenv("PHONE_STRICT") != null) {
            return Soundex.US_ENGLISH.encode(name);
        }
        return Soundex.US_ENGLISH_SIMPLIFIED.soundex(name);
    }

    public static void main(String[] args) throws DecoderException {
        List<String> words = List.of(args);
        List<String> names = new ArrayList<>(List.of("Robert", "Rupert", "Smith", "Schmidt", "Ashcraft", "Tymczak"));
        if (words.contains("--more")) {
            names.addAll(List.of("Pfister", "Honeyman", "Knight", "Night"));
        }
        Map<String, List<String>> groups = new TreeMap<>();
        names.forEach(name -> groups.computeIfAbsent(key(name), k -> new ArrayList<>()).add(name));
        groups.forEach((key, group) -> System.out.println(key + " " + group));
        if (words.contains("--hex")) {
            String hex = Hex.encodeHexString(names.get(0).getBytes(), !UPPER);
            System.out.println(hex + " " + Hex.decodeHex(hex).length);
        }
        if (words.contains("--base32")) {
            System.out.println(new Base32().encodeAsString(new byte[] {1, 2, 3, 4, 5, (byte) names.size()}));
        }
    }
}
