// Bouncy Castle at the standard's five shapes: a line with the shape's name and the least processor times of decapsulation and
// encapsulation in ms.
import java.lang.management.ManagementFactory;
import java.lang.management.ThreadMXBean;
import java.security.SecureRandom;
import java.util.Arrays;
import java.util.Locale;
import org.bouncycastle.crypto.AsymmetricCipherKeyPair;
import org.bouncycastle.crypto.SecretWithEncapsulation;
import org.bouncycastle.pqc.crypto.cmce.CMCEKEMExtractor;
import org.bouncycastle.pqc.crypto.cmce.CMCEKEMGenerator;
import org.bouncycastle.pqc.crypto.cmce.CMCEKeyGenerationParameters;
import org.bouncycastle.pqc.crypto.cmce.CMCEKeyPairGenerator;
import org.bouncycastle.pqc.crypto.cmce.CMCEParameters;
import org.bouncycastle.pqc.crypto.cmce.CMCEPrivateKeyParameters;

public class Castle {
    static final int WARM = 10, TRIES = 25;
    static final ThreadMXBean CLOCK = ManagementFactory.getThreadMXBean();
    static final SecureRandom RANDOM = new SecureRandom();

    static void measure(String name, CMCEParameters shape) {
        CMCEKeyPairGenerator generator = new CMCEKeyPairGenerator();
        generator.init(new CMCEKeyGenerationParameters(RANDOM, shape));
        AsymmetricCipherKeyPair pair = generator.generateKeyPair();
        CMCEKEMGenerator locker = new CMCEKEMGenerator(RANDOM);
        CMCEKEMExtractor extractor = new CMCEKEMExtractor((CMCEPrivateKeyParameters) pair.getPrivate());
        double decapsulation = Double.MAX_VALUE, encapsulation = Double.MAX_VALUE;
        for (int i = -WARM; i < TRIES; i++) {
            long start = CLOCK.getCurrentThreadCpuTime();
            SecretWithEncapsulation locked = locker.generateEncapsulated(pair.getPublic());
            long middle = CLOCK.getCurrentThreadCpuTime();
            byte[] secret = extractor.extractSecret(locked.getEncapsulation());
            long end = CLOCK.getCurrentThreadCpuTime();
            if (!Arrays.equals(secret, locked.getSecret())) {
                System.err.println("a secret differs");
                System.exit(1);
            }
            if (i >= 0) {
                encapsulation = Math.min(encapsulation, (middle - start) / 1e6);
                decapsulation = Math.min(decapsulation, (end - middle) / 1e6);
            }
        }
        System.out.printf(Locale.ROOT, "%s %.3f %.3f%n", name, decapsulation, encapsulation);
    }

    public static void main(String[] args) {
        measure("mceliece348864", CMCEParameters.mceliece348864r3);
        measure("mceliece460896", CMCEParameters.mceliece460896r3);
        measure("mceliece6688128", CMCEParameters.mceliece6688128r3);
        measure("mceliece6960119", CMCEParameters.mceliece6960119r3);
        measure("mceliece8192128", CMCEParameters.mceliece8192128r3);
    }
}
