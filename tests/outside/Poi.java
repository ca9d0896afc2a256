// Apache POI at work: each line of standard input is a job of words with tabs between them, and is answered by one line.
//     lock BITS PASSWORD PLAIN LOCKED    locks the bytes of a file by Standard encryption
//     open PASSWORD LOCKED PLAIN         opens a locked file
import java.io.*;
import java.nio.charset.StandardCharsets;
import java.nio.file.*;
import java.util.Scanner;
import org.apache.poi.Version;
import org.apache.poi.poifs.crypt.*;
import org.apache.poi.poifs.filesystem.POIFSFileSystem;

public class Poi {
    static void lock(String bits, String password, Path plain, Path locked) throws Exception {
        CipherAlgorithm cipher = CipherAlgorithm.valueOf("aes" + bits);
        Encryptor encryptor = new EncryptionInfo(EncryptionMode.standard, cipher, HashAlgorithm.sha1, -1, -1, null).getEncryptor();
        encryptor.confirmPassword(password);
        try (POIFSFileSystem compound = new POIFSFileSystem()) {
            try (OutputStream out = encryptor.getDataStream(compound)) {
                out.write(Files.readAllBytes(plain));
            }
            try (OutputStream out = Files.newOutputStream(locked)) {
                compound.writeFilesystem(out);
            }
        }
    }

    static void open(String password, Path locked, Path plain) throws Exception {
        try (POIFSFileSystem compound = new POIFSFileSystem(locked.toFile())) {
            Decryptor decryptor = Decryptor.getInstance(new EncryptionInfo(compound));
            if (!decryptor.verifyPassword(password)) throw new IOException("wrong password");
            try (InputStream in = decryptor.getDataStream(compound)) {
                Files.write(plain, in.readAllBytes());
            }
        }
    }

    public static void main(String[] none) {
        PrintStream out = new PrintStream(System.out, true, StandardCharsets.UTF_8);
        out.println(Version.getVersion());
        Scanner jobs = new Scanner(System.in, StandardCharsets.UTF_8).useDelimiter("\n");
        while (jobs.hasNext()) {
            String[] w = jobs.next().split("\t", -1);
            try {
                if (w[0].equals("lock")) lock(w[1], w[2], Path.of(w[3]), Path.of(w[4]));
                else open(w[1], Path.of(w[2]), Path.of(w[3]));
                out.println("done");
            } catch (Exception e) {
                out.println("refused: " + e);
            }
        }
    }
}
