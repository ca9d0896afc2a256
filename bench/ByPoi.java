// Whole calls by Apache POI, warm, on the sheets that bench/sheets.c leaves in a folder.
//     ByPoi FOLDER NAME    the contestant's name tells with which of the JVM's intrinsics
import java.io.*;
import java.lang.management.ManagementFactory;
import java.nio.*;
import java.nio.file.*;
import java.util.Arrays;
import java.util.concurrent.Callable;
import org.apache.poi.Version;
import org.apache.poi.poifs.crypt.*;
import org.apache.poi.poifs.filesystem.POIFSFileSystem;

public class ByPoi {
    static final String PASSWORD = "password";
    static final int LARGEST = 16 << 20;
    static String name;

    // The two streams in a compound file in memory, as POI wants them.
    static POIFSFileSystem compound(byte[] info, byte[] blocks, int size) throws IOException {
        byte[] stream = ByteBuffer.allocate(8 + size).order(ByteOrder.LITTLE_ENDIAN).putLong(size).put(blocks, 0, size).array();
        POIFSFileSystem compound = new POIFSFileSystem();
        compound.createDocument(new ByteArrayInputStream(info), "EncryptionInfo");
        compound.createDocument(new ByteArrayInputStream(stream), "EncryptedPackage");
        return compound;
    }

    static Decryptor unlocked(POIFSFileSystem compound) throws Exception {
        Decryptor decryptor = Decryptor.getInstance(new EncryptionInfo(compound));
        if (!decryptor.verifyPassword(PASSWORD)) throw new IOException("wrong password");
        return decryptor;
    }

    static byte[] opened(POIFSFileSystem compound, int size) throws Exception {
        byte[] out = new byte[size];
        try (InputStream in = unlocked(compound).getDataStream(compound)) {
            if (in.readNBytes(out, 0, size) != size) throw new IOException("too short");
        }
        return out;
    }

    // POI makes its own descriptor; with the salt of ours the key is the same. The descriptors' header has 32 bytes.
    static POIFSFileSystem sealed(byte[] info, int bits, byte[] contents, int size) throws Exception {
        CipherAlgorithm cipher = CipherAlgorithm.valueOf("aes" + bits);
        Encryptor encryptor = new EncryptionInfo(EncryptionMode.standard, cipher, HashAlgorithm.sha1, -1, -1, null).getEncryptor();
        encryptor.confirmPassword(PASSWORD, null, null, new byte[16], Arrays.copyOfRange(info, 48, 64), null);
        POIFSFileSystem compound = new POIFSFileSystem();
        try (OutputStream out = encryptor.getDataStream(compound)) {
            out.write(contents, 0, size);
        }
        return compound;
    }

    // The blocks of a sealed package; POI adds one of filling.
    static byte[] blocks(POIFSFileSystem compound, int size) throws IOException {
        try (InputStream in = compound.createDocumentInputStream("EncryptedPackage")) {
            in.skip(8);
            return in.readNBytes(size);
        }
    }

    static void must(boolean same, String what) throws IOException {
        if (!same) throw new IOException(what + ": not the same result");
    }

    // The best processor time of several rounds: this thread's, so that compiling and collecting beside it do not count.
    static void contest(String call, int bits, int size, Callable<?> work) throws Exception {
        var threads = ManagementFactory.getThreadMXBean();
        long best = Long.MAX_VALUE;
        for (int rounds = size < LARGEST ? 9 : 7; rounds > 0; rounds--) {
            long start = threads.getCurrentThreadCpuTime();
            work.call();
            best = Math.min(best, threads.getCurrentThreadCpuTime() - start);
        }
        System.out.printf("%s\t%s\t%d\t%d\t%s\t%d.0\tns%n", name, call, bits, size, name, best);
    }

    // Everything that is timed has been compiled by then.
    static void warm(Path folder, byte[] contents) throws Exception {
        byte[] info = Files.readAllBytes(folder.resolve("info-128")), expected = Files.readAllBytes(folder.resolve("blocks-128"));
        POIFSFileSystem locked = compound(info, expected, 1 << 20);
        for (int i = 0; i < 40; i++) {
            opened(locked, 1 << 20);
            sealed(info, 128, contents, 1 << 20);
        }
    }

    static void keySize(Path folder, int bits, byte[] contents) throws Exception {
        byte[] info = Files.readAllBytes(folder.resolve("info-" + bits)), expected = Files.readAllBytes(folder.resolve("blocks-" + bits));
        POIFSFileSystem small = compound(info, expected, 0);
        contest("verdict", bits, 0, () -> unlocked(small));
        for (int n : new int[] {1 << 10, 64 << 10, 1 << 20, LARGEST}) {
            POIFSFileSystem locked = compound(info, expected, n);
            must(Arrays.equals(opened(locked, n), 0, n, contents, 0, n), "open " + n);
            must(Arrays.equals(blocks(sealed(info, bits, contents, n), n), 0, n, expected, 0, n), "seal " + n);
            contest("open", bits, n, () -> opened(locked, n));
            contest("seal", bits, n, () -> sealed(info, bits, contents, n));
        }
    }

    public static void main(String[] words) throws Exception {
        Path folder = Path.of(words[0]);
        name = words[1];
        System.out.printf("#\tApache POI\t%s, Java %s%n", Version.getVersion(), System.getProperty("java.version"));
        byte[] contents = Files.readAllBytes(folder.resolve("package"));
        warm(folder, contents);
        for (int bits = 128; bits <= 256; bits += 64) keySize(folder, bits, contents);
    }
}
