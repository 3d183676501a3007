// One tagger of MeCab's Java module in four threads, each with its own lattice:
// OneTagger DICTIONARY LINES
//
// It prints the lattice of each line, thread after thread, and whether a sentence with characters
// past U+FFFF is segmented.
import java.io.PrintStream;
import java.nio.charset.StandardCharsets;
import java.nio.file.Files;
import java.nio.file.Path;
import java.util.ArrayList;
import java.util.List;
import org.chasen.mecab.Lattice;
import org.chasen.mecab.Model;
import org.chasen.mecab.Node;
import org.chasen.mecab.Tagger;

public class OneTagger {
    private static final int THREADS = 4;

    static {
        System.loadLibrary("MeCab");
    }

    /** Returns the lattice and the nodes of each line. */
    private static String parsed(Tagger tagger, List<String> lines) {
        Lattice lattice = new Lattice();
        StringBuilder all = new StringBuilder();
        for (String line : lines) {
            lattice.set_sentence(line);
            if (!tagger.parse(lattice)) throw new IllegalStateException(lattice.what());
            all.append(lattice.toString());
            for (Node node = lattice.bos_node(); node != null; node = node.getNext()) {
                all.append(node.getFeature()).append(' ').append(node.getPosid());
                all.append(' ').append(node.getCost()).append('\n');
            }
        }
        return all.toString();
    }

    public static void main(String[] words) throws Exception {
        Model model = new Model("-d " + words[0]);
        Tagger tagger = model.createTagger();
        List<String> lines = Files.readAllLines(Path.of(words[1]));
        String[] results = new String[THREADS];
        List<Thread> threads = new ArrayList<>();
        for (int i = 0; i < THREADS; i++) {
            int number = i;
            Thread thread = new Thread(() -> results[number] = parsed(tagger, lines));
            threads.add(thread);
            thread.start();
        }
        PrintStream out = new PrintStream(System.out, false, StandardCharsets.UTF_8);
        for (int i = 0; i < THREADS; i++) {
            threads.get(i).join();
            out.print(results[i]);
        }
        String past = tagger.parse("😀と𠮟る");
        out.println(past != null && past.endsWith("EOS\n"));
        out.flush();
    }
}
