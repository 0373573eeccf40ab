// jackson-dataformat-cbor: a block is read, token by token, to its end. It is not written again: its writer has no definite lengths.
import com.fasterxml.jackson.core.*;
import com.fasterxml.jackson.dataformat.cbor.CBORFactory;

public class Jackson {
    static String judged(CBORFactory factory, byte[] block) throws Exception {
        int depth = 0, items = 0;
        JsonParser parser = factory.createParser(block);
        for (JsonToken it; (it = parser.nextToken()) != null; items += depth == 0 ? 1 : 0) {
            if (it.isStructStart()) depth++;
            else if (it.isStructEnd()) depth--;
            else if (it == JsonToken.VALUE_EMBEDDED_OBJECT) parser.getBinaryValue();
            else if (it.isNumeric()) parser.getNumberValue();
            else parser.getText();
        }
        return items == 1 && depth == 0 ? "ok" : "refused";
    }

    public static void main(String[] words) throws Exception {
        CBORFactory factory = new CBORFactory();
        factory.enable(JsonParser.Feature.STRICT_DUPLICATE_DETECTION);
        Lines.serve(block -> judged(factory, block));
    }
}
