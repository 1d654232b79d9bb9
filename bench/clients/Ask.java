import java.io.ByteArrayInputStream;
import java.io.IOException;
import java.net.URI;
import java.net.http.HttpClient;
import java.net.http.HttpRequest;
import java.net.http.HttpRequest.BodyPublishers;
import java.net.http.HttpResponse;
import java.net.http.HttpResponse.BodyHandlers;
import java.nio.file.Files;
import java.nio.file.Path;
import java.util.stream.Stream;

/** Puts by Java's HttpClient as it is made: {@code java Ask.java KIND URL TOKEN FILE}. See ../real_clients.py for the kinds. */
public class Ask {
    private static final HttpClient CLIENT = HttpClient.newHttpClient();

    public static void main(String[] words) throws Exception {
        byte[] body = Files.readAllBytes(Path.of(words[3]));
        HttpRequest.Builder to = HttpRequest.newBuilder(URI.create(words[1])).header("Authorization", "Bearer " + words[2]);
        HttpRequest put = to.copy().POST(BodyPublishers.ofByteArray(body)).build();
        long begin = System.nanoTime();
        try {
            switch (words[0]) {
                case "kept" -> {
                    for (int at = 0; at < 5; at++) {
                        ask(put);
                    }
                }
                case "expected" -> ask(to.copy().expectContinue(true).POST(BodyPublishers.ofByteArray(body)).build());
                case "chunked" -> ask(to.copy().POST(BodyPublishers.ofInputStream(() -> new ByteArrayInputStream(body))).build());
                default -> together(put);
            }
        } catch (IOException fault) {
            System.out.println("fault " + fault.getClass().getSimpleName() + ": " + fault.getMessage());
        }
        System.out.println("seconds " + (System.nanoTime() - begin) / 1e9);
    }

    private static void ask(HttpRequest request) throws IOException, InterruptedException {
        tell(CLIENT.send(request, BodyHandlers.ofString()));
    }

    private static void together(HttpRequest put) {
        Stream.generate(() -> CLIENT.sendAsync(put, BodyHandlers.ofString())).limit(20).toList().forEach(it -> tell(it.join()));
    }

    private static void tell(HttpResponse<String> reply) {
        System.out.println("HTTP/1.1 " + reply.statusCode() + "\n" + reply.body());
    }
}
