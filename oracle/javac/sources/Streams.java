package small;

import java.util.List;
import java.util.Map;
import java.util.stream.Collectors;

class Streams {
    static Map<Integer, List<String>> byLength(List<String> words) {
        return words.stream()
            .filter(w -> !w.isEmpty())
            .map(String::toLowerCase)
            .sorted((a, b) -> b.compareTo(a))
            .collect(Collectors.groupingBy(String::length));
    }
}
