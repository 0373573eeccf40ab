// The loop of the peers in Java: a line of hexadecimal in, a line out.
import java.io.BufferedReader;
import java.io.InputStreamReader;
import java.util.HexFormat;

public class Lines {
    interface Peer {
        String answer(byte[] block) throws Exception;
    }

    static void serve(Peer peer) throws Exception {
        BufferedReader lines = new BufferedReader(new InputStreamReader(System.in));
        for (String line; (line = lines.readLine()) != null; System.out.flush()) {
            System.out.println(answered(peer, HexFormat.of().parseHex(line)));
        }
    }

    static String answered(Peer peer, byte[] block) {
        try {
            return peer.answer(block);
        } catch (OutOfMemoryError error) {
            return "refused memory";
        } catch (Exception | StackOverflowError error) {
            return "refused " + error.getClass().getSimpleName();
        }
    }
}
