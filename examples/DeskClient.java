// A client of a desk that is right by construction, for programs in Java: one file that needs Java 17 and nothing else.
//
//     java examples/DeskClient.java JOURNAL (--port P [--key FILE] | --db FILE) [--at MS] [--patience S] [--new] < batch.csv
//     java examples/DeskClient.java JOURNAL (--port P [--key FILE] | --db FILE) [--patience S] --resume
//
// It has the journal of examples/desk_client.py, and this part of its command; the head of that script says what holds of both: rows
// are in the journal, on the disk, before they are sent, and replies before they are returned; only a batch makes a journal; a desk
// that is away is waited for; a row that was refused is not sent again unless `correct` or `again` asks for it; a name that another
// sender used is found. BRK names the program for --db; without it `brk` on PATH is taken. In a program:
//
//     try (var client = new DeskClient(Path.of("sent.journal"), new DeskClient.Http(8199, null))) {
//         client.resume();
//         var reply = client.send("DAY-1", List.of(DeskClient.row("deposit", "ACCOUNT=100", "AMOUNT=" + DeskClient.amount(10_000)))).get(0);
//     }
//
// `row` takes fields by their names in docs/formats/rows.md. A result or a cancel needs a Trade, which only a reply to an order or
// a view has. Amounts are whole numbers of cents; no double occurs. java.net.http is not used: its client keeps a stream open
// after the last request, and without a door all others wait then.

import java.io.BufferedInputStream;
import java.io.ByteArrayOutputStream;
import java.io.EOFException;
import java.io.IOException;
import java.io.InputStream;
import java.math.BigInteger;
import java.net.InetSocketAddress;
import java.net.Socket;
import java.nio.ByteBuffer;
import java.nio.channels.FileChannel;
import java.nio.channels.OverlappingFileLockException;
import java.nio.charset.StandardCharsets;
import java.nio.file.Files;
import java.nio.file.Path;
import java.nio.file.StandardOpenOption;
import java.nio.file.attribute.PosixFilePermissions;
import java.util.ArrayList;
import java.util.Arrays;
import java.util.Collection;
import java.util.HashMap;
import java.util.LinkedHashMap;
import java.util.List;
import java.util.Map;
import java.util.Set;
import java.util.TreeMap;
import java.util.TreeSet;
import java.util.function.LongSupplier;
import java.util.regex.Pattern;

public final class DeskClient implements AutoCloseable {
    static final int MOST_REQUESTS = 1000;
    // how long a reply may take: without a door others' streams come first
    static final int REPLY_MILLIS = 120_000;
    // the desk ends a stream that is idle for a second, so one that is idle for longer than this is not used again
    static final long IDLE_MILLIS = 500;
    static final int CONNECT_MILLIS = 5_000;
    // the port and the secret of the package's door, and its settings
    static final String DOOR_PORT = "8123";
    static final Path KEY_FILE = Path.of("/etc/brk/door.key");
    static final Path SETTINGS = Path.of("/etc/default/brk");
    static final int MOST_BODY_BYTES = 65_536;
    static final int MOST_BATCH_BYTES = 67_108_864;
    static final Pattern BATCH = Pattern.compile("[A-Za-z0-9._-]{1,40}");
    static final Pattern AMOUNT = Pattern.compile("-?(?:0|[1-9][0-9]*)\\.[0-9]{2}");

    // the fields of each kind of row that has no trade, as examples/kinds.csv has them
    static final Map<String, List<String>> ROWS = words(
        "broker ID NAME",
        "customer ID TIER TAXID LAST FIRST",
        "account ID CUSTOMER BROKER NAME TAXST OPENING",
        "permission ACCOUNT ACL TAXID LAST FIRST",
        "security SYMBOL NAME EXCHANGE SECTOR PRICE",
        "charge TYPE TIER AMOUNT",
        "band TIER TYPE EXCHANGE FROM TO RATE",
        "taxrate ID NAME RATE",
        "custtax CUSTOMER TAXRATE",
        "order ACCOUNT TYPE SYMBOL QTY PRICE CASH END FIRST LAST TAXID",
        "deposit ACCOUNT AMOUNT",
        "withdraw ACCOUNT AMOUNT",
        "oneday DAY",
        "upcash ACCOUNT FROM TO",
        "uptext SYMBOL FROM TO");

    // the fields of each reply after the stamp, as examples/replies.csv has them
    static final Map<String, List<String>> REPLIES = words(
        "order T_ID STATUS PRICE BUY SELL TAX COMMISSION CHARGE ASSETS",
        "cancel STATUS",
        "result COMMISSION TAX SE_AMT DUE_DAY BUY SELL CA_BAL",
        "deposit CM_ID CA_BAL",
        "withdraw CM_ID CA_BAL",
        "upname COUNT",
        "upcash COUNT",
        "uptext COUNT");

    static Map<String, List<String>> words(String... lines) {
        var found = new LinkedHashMap<String, List<String>>();
        for (String line : lines) {
            List<String> words = List.of(line.split(" "));
            found.put(words.get(0), words.subList(1, words.size()));
        }
        return found;
    }

    // ---- what ends a call

    /** What ends a call of this class. */
    public static class ClientException extends Exception {
        public ClientException(String message) {
            super(message);
        }
    }

    /** No reply came while the patience lasted. The rows are in the journal: `resume` sends them again. */
    public static final class NoReply extends ClientException {
        public NoReply(String message) {
            super(message);
        }
    }

    /** The desk cannot take this: a request or arguments that it does not accept, or a damaged file. */
    public static final class NotSent extends ClientException {
        public NotSent(String message) {
            super(message);
        }
    }

    /** A row was booked under the key before, by another sender: it was not booked now. */
    public static final class KeyUsed extends ClientException {
        public KeyUsed(String message) {
            super(message);
        }
    }

    /** A query was refused. */
    public static final class Refused extends ClientException {
        public Refused(String message) {
            super(message);
        }
    }

    /** The desk was not reached: nothing was sent. */
    static final class NotReached extends IOException {
        NotReached(String message) {
            super(message);
        }
    }

    // ---- numbers, rows and replies

    /** The one spelling of a number of cents: `-1025.10`. */
    public static String amount(long cents) {
        return amount(BigInteger.valueOf(cents));
    }

    /** Holdings, assets and volume may exceed 64 bits. */
    public static String amount(BigInteger cents) {
        BigInteger[] parts = cents.abs().divideAndRemainder(BigInteger.valueOf(100));
        return (cents.signum() < 0 ? "-" : "") + parts[0] + (parts[1].intValue() < 10 ? ".0" : ".") + parts[1];
    }

    /** The whole number of cents of an amount. */
    public static BigInteger cents(String text) {
        if (!AMOUNT.matcher(text).matches() || text.equals("-0.00")) {
            throw new IllegalArgumentException("no amount: " + text);
        }
        return new BigInteger(text.replace(".", ""));
    }

    /** The id of a trade, as a reply or a view has it. No other program can make one. */
    public static final class Trade {
        private final String id;

        private Trade(String id) {
            this.id = id;
        }

        @Override
        public String toString() {
            return id;
        }
    }

    /** A row of a kind: NAME=VALUE for each of its fields, by their names in docs/formats/rows.md. */
    public static List<String> row(String kind, String... fields) {
        List<String> names = ROWS.get(kind);
        if (names == null) {
            throw new IllegalArgumentException("no such kind, or one with a method of its own: " + kind);
        }
        var given = new HashMap<String, String>();
        for (String field : fields) {
            int at = field.indexOf('=');
            if (at < 0 || given.put(field.substring(0, at), field.substring(at + 1)) != null) {
                throw new IllegalArgumentException(kind + ": no field, or one twice: " + field);
            }
        }
        if (!given.keySet().equals(Set.copyOf(names))) {
            throw new IllegalArgumentException(kind + " has " + String.join(", ", names) + ", by their names");
        }
        var found = new ArrayList<String>(List.of(kind));
        names.forEach(name -> found.add(given.get(name)));
        return found;
    }

    /** Ticks: a symbol, a price and a quantity for each. */
    public static List<String> feed(String... ticks) {
        if (ticks.length == 0 || ticks.length % 3 != 0 || ticks.length > 60) {
            throw new IllegalArgumentException("feed has 1 to 20 of SYMBOL, PRICE, QTY");
        }
        var found = new ArrayList<String>(List.of("feed"));
        found.addAll(Arrays.asList(ticks));
        return found;
    }

    public static List<String> result(Trade trade, String price) {
        return List.of("result", trade.id, price);
    }

    public static List<String> cancel(Trade trade) {
        return List.of("cancel", trade.id);
    }

    /** The reply to a row: ok, again or no, and the fields after the word. */
    public record Reply(String kind, String word, List<String> fields) {
        public boolean accepted() {
            return !word.equals("no");
        }

        /** A field of an accepted row by its name, such as T_ID; that of the due day is DUE_DAY. Fields that a later program adds are
         * at the end, and have no name here. */
        public String get(String name) {
            int at = name.equals("STAMP") ? 0 : 1 + REPLIES.getOrDefault(kind, List.of()).indexOf(name);
            if (!accepted() || (at == 0 && !name.equals("STAMP"))) {
                throw new IllegalStateException(name + ": the reply is " + this);
            }
            return fields.get(at);
        }

        /** The trade of an accepted order. */
        public Trade trade() {
            return new Trade(get("T_ID"));
        }

        /** The trades that an accepted feed submitted. */
        public List<Trade> submitted() {
            if (!accepted() || !kind.equals("feed")) {
                throw new IllegalStateException("the reply is " + this);
            }
            return fields.subList(1, fields.size()).stream().map(Trade::new).toList();
        }

        @Override
        public String toString() {
            return word + "," + String.join(",", fields);
        }
    }

    // ---- JSON of texts, lists and objects

    static void write(StringBuilder out, Object value) {
        if (value instanceof String text) {
            out.append('"');
            for (int at = 0; at < text.length(); at++) {
                char letter = text.charAt(at);
                if (letter == '"' || letter == '\\') {
                    out.append('\\').append(letter);
                } else if (letter < ' ') {
                    out.append(String.format("\\u%04x", (int) letter));
                } else {
                    out.append(letter);
                }
            }
            out.append('"');
        } else {
            out.append('[');
            String comma = "";
            for (Object part : (List<?>) value) {
                out.append(comma);
                write(out, part);
                comma = ",";
            }
            out.append(']');
        }
    }

    static String json(List<?> value) {
        var out = new StringBuilder();
        write(out, value);
        return out.toString();
    }

    /** Reads a JSON text of texts, lists and objects. */
    static final class Reader {
        private final String text;
        private int at;

        private Reader(String text) {
            this.text = text;
        }

        static Object read(String text) throws IOException {
            var reader = new Reader(text);
            Object found = reader.value();
            if (reader.next() != 0) {
                throw new IOException("no JSON of texts");
            }
            return found;
        }

        /** The next character that is no space, or 0 at the end. */
        private char next() {
            while (at < text.length() && " \t\r\n".indexOf(text.charAt(at)) >= 0) {
                at++;
            }
            return at < text.length() ? text.charAt(at) : 0;
        }

        private char taken() throws IOException {
            if (at == text.length()) {
                throw new IOException("no JSON of texts");
            }
            return text.charAt(at++);
        }

        private Object value() throws IOException {
            char first = next();
            if (first == '"') {
                return string();
            }
            if (first != '[' && first != '{') {
                throw new IOException("no JSON of texts");
            }
            at++;
            char last = first == '[' ? ']' : '}';
            var list = new ArrayList<Object>();
            var members = new LinkedHashMap<String, Object>();
            while (next() != last) {
                if ((list.size() > 0 || members.size() > 0) && taken() != ',') {
                    throw new IOException("no JSON of texts");
                }
                if (first == '[') {
                    list.add(value());
                } else {
                    next();
                    String name = string();
                    if (next() != ':') {
                        throw new IOException("no JSON of texts");
                    }
                    at++;
                    members.put(name, value());
                }
            }
            at++;
            return first == '[' ? list : members;
        }

        private String string() throws IOException {
            if (taken() != '"') {
                throw new IOException("no JSON of texts");
            }
            var found = new StringBuilder();
            for (char letter = taken(); letter != '"'; letter = taken()) {
                if (letter != '\\') {
                    found.append(letter);
                    continue;
                }
                char escape = taken();
                int place = "\"\\/bfnrt".indexOf(escape);
                if (place >= 0) {
                    found.append("\"\\/\b\f\n\r\t".charAt(place));
                } else if (escape == 'u' && at + 4 <= text.length()) {
                    found.append((char) Integer.parseInt(text.substring(at, at + 4), 16));
                    at += 4;
                } else {
                    throw new IOException("no JSON of texts");
                }
            }
            return found.toString();
        }
    }

    static List<String> texts(Object value) throws IOException {
        var found = new ArrayList<String>();
        if (!(value instanceof List<?> list)) {
            throw new IOException("no list of texts");
        }
        for (Object part : list) {
            if (!(part instanceof String text)) {
                throw new IOException("no list of texts");
            }
            found.add(text);
        }
        return found;
    }

    // ---- CSV

    static List<List<String>> records(String text) throws ClientException {
        var records = new ArrayList<List<String>>();
        var record = new ArrayList<String>();
        var field = new StringBuilder();
        boolean quoted = false;
        for (int at = 0; at < text.length(); at++) {
            char letter = text.charAt(at);
            if (quoted) {
                if (letter != '"') {
                    field.append(letter);
                } else if (at + 1 < text.length() && text.charAt(at + 1) == '"') {
                    field.append('"');
                    at++;
                } else {
                    quoted = false;
                }
            } else if (letter == '"' && field.length() == 0) {
                quoted = true;
            } else if (letter == ',') {
                record.add(field.toString());
                field.setLength(0);
            } else if (letter == '\n' || letter == '\r') {
                if (field.length() > 0 || !record.isEmpty()) {
                    record.add(field.toString());
                    records.add(List.copyOf(record));
                }
                field.setLength(0);
                record.clear();
            } else {
                field.append(letter);
            }
        }
        if (quoted || field.length() > 0 || !record.isEmpty()) {
            throw new ClientException("standard input is no batch: its last line is cut");
        }
        return records;
    }

    static void write(StringBuilder out, List<String> record) {
        String comma = "";
        for (String field : record) {
            boolean quotes = field.chars().anyMatch(letter -> ",\"\r\n".indexOf(letter) >= 0);
            out.append(comma).append(quotes ? '"' + field.replace("\"", "\"\"") + '"' : field);
            comma = ",";
        }
        out.append('\n');
    }

    static byte[] batchText(String batch, Collection<List<String>> rows) {
        var out = new StringBuilder();
        write(out, List.of("batch", batch));
        rows.forEach(row -> write(out, row));
        write(out, List.of("end", Integer.toString(rows.size())));
        return out.toString().getBytes(StandardCharsets.UTF_8);
    }

    // ---- the journal

    /** The rows that were to be sent, and their replies, in a file that only this program has. What is stored is on the disk when the
     * method returns. A last line without its line feed was never acted on, and is cut off. */
    static final class Journal implements AutoCloseable {
        final Map<String, TreeMap<Long, List<String>>> batches = new LinkedHashMap<>();
        final Map<String, TreeMap<Long, Reply>> replies = new HashMap<>();
        final Map<String, Long> readings = new HashMap<>();
        // the numbers of the rows that have no reply
        final Map<String, TreeSet<Long>> open = new LinkedHashMap<>();
        private final FileChannel file;

        Journal(Path path, boolean makes) throws IOException, ClientException {
            boolean isNew = !Files.exists(path);
            if (isNew && !makes) {
                throw new ClientException("no journal: " + path + " does not exist");
            }
            var options = makes
                ? Set.of(StandardOpenOption.CREATE, StandardOpenOption.READ, StandardOpenOption.WRITE)
                : Set.of(StandardOpenOption.READ, StandardOpenOption.WRITE);
            file = FileChannel.open(path, options, PosixFilePermissions.asFileAttribute(PosixFilePermissions.fromString("rw-------")));
            try {
                if (file.tryLock() == null) {
                    throw new ClientException("another program has the journal: " + path);
                }
            } catch (OverlappingFileLockException error) {
                throw new ClientException("another part of this program has the journal: " + path);
            }
            if (isNew) {
                try (FileChannel folder = FileChannel.open(path.toAbsolutePath().getParent())) {
                    folder.force(true);
                }
            }
            // by this channel: to close another one would end the lock
            ByteBuffer bytes = ByteBuffer.allocate(Math.toIntExact(file.size()));
            while (bytes.hasRemaining() && file.read(bytes) >= 0) {
                // the rest comes with the next call
            }
            byte[] content = bytes.array();
            int whole = content.length;
            while (whole > 0 && content[whole - 1] != '\n') {
                whole--;
            }
            int number = 0;
            for (String line : new String(content, 0, whole, StandardCharsets.UTF_8).split("\n")) {
                number++;
                try {
                    if (whole > 0) {
                        take((List<?>) Reader.read(line));
                    }
                } catch (IOException | RuntimeException error) {
                    throw new ClientException("no journal: " + path + ": line " + number);
                }
            }
            file.truncate(whole);
            file.position(whole);
        }

        private void take(List<?> entry) throws IOException {
            String what = (String) entry.get(0);
            String batch = (String) entry.get(1);
            long number = Long.parseLong((String) entry.get(2));
            if (what.equals("rows")) {
                readings.put(batch, Long.parseLong((String) entry.get(3)));
                for (Object row : entry.subList(4, entry.size())) {
                    batches.computeIfAbsent(batch, name -> new TreeMap<>()).put(number, texts(row));
                    open.computeIfAbsent(batch, name -> new TreeSet<>()).add(number);
                    replies.computeIfAbsent(batch, name -> new TreeMap<>()).remove(number++);
                }
            } else if (what.equals("reply")) {
                String kind = batches.get(batch).get(number).get(0);
                replies.get(batch).put(number, new Reply(kind, (String) entry.get(3), texts(entry.subList(4, entry.size()))));
                open.get(batch).remove(number);
                if (open.get(batch).isEmpty()) {
                    open.remove(batch);
                }
            } else {
                throw new IOException(what);
            }
        }

        private void append(List<List<Object>> entries) throws IOException {
            var text = new StringBuilder();
            for (List<Object> entry : entries) {
                text.append(json(entry)).append('\n');
            }
            ByteBuffer bytes = ByteBuffer.wrap(text.toString().getBytes(StandardCharsets.UTF_8));
            while (bytes.hasRemaining()) {
                file.write(bytes);
            }
            file.force(true);
            for (List<Object> entry : entries) {
                take(entry);
            }
        }

        void store(String batch, long first, long reading, List<List<String>> rows) throws IOException {
            var entry = new ArrayList<Object>(List.of("rows", batch, Long.toString(first), Long.toString(reading)));
            entry.addAll(rows);
            append(List.of(entry));
        }

        void store(String batch, List<Answer> answers) throws IOException {
            var entries = new ArrayList<List<Object>>();
            for (Answer answer : answers) {
                var entry = new ArrayList<Object>(List.of("reply", batch, Long.toString(answer.number), answer.word));
                entry.addAll(answer.fields);
                entries.add(entry);
            }
            append(entries);
        }

        /** The numbers of the rows of a batch that have no reply. */
        List<Long> pending(String batch) {
            return List.copyOf(open.getOrDefault(batch, new TreeSet<>()));
        }

        @Override
        public void close() throws IOException {
            file.close();
        }
    }

    // ---- the two ways to a desk

    record Answer(long number, String word, List<String> fields) {}

    interface Action<T> {
        T run() throws IOException, ClientException;
    }

    interface Taker {
        void take(List<Answer> answers, boolean isFirst) throws IOException, ClientException;
    }

    /** A way to a desk: Http or CommandLine. */
    public abstract static sealed class Desk permits Http, CommandLine {
        private final Integer patience;
        // whether the last action that succeeded was the first one to reach the desk
        boolean isFirst;

        Desk(Integer patience) {
            this.patience = patience;
        }

        /** Returns what an action returns. It is repeated, once at once and then each second, until the patience is over. */
        <T> T patiently(Action<T> action) throws ClientException {
            long begun = System.nanoTime();
            isFirst = true;
            for (int attempts = 1; ; attempts++) {
                try {
                    return action.run();
                } catch (IOException error) {
                    isFirst = isFirst && error instanceof NotReached;
                    if (attempts > 1 && patience != null && System.nanoTime() - begun > patience * 1_000_000_000L) {
                        throw new NoReply("no reply: " + error.getMessage());
                    }
                    if (attempts > 1) {
                        pause();
                    }
                }
            }
        }

        private static void pause() throws NoReply {
            try {
                Thread.sleep(1000);
            } catch (InterruptedException error) {
                Thread.currentThread().interrupt();
                throw new NoReply("interrupted");
            }
        }

        abstract void require(Collection<List<String>> stored, Collection<List<String>> rows) throws ClientException;

        abstract void deliver(String batch, TreeMap<Long, List<String>> rows, List<Long> numbers, Map<Long, Reply> replies, long reading, Taker taker)
                throws IOException, ClientException;

        abstract Map.Entry<String, Object> ask(String view, List<String> arguments) throws ClientException;

        abstract void close();
    }

    /** The secret to send to a port, or null: that of the file `key`, or of BRK_KEY; else that of the package's door, to its port alone. */
    private static String secretFor(int port, Path key) throws ClientException {
        String named = System.getenv("BRK_KEY");
        Path path = key != null ? key : named != null && !named.isEmpty() ? Path.of(named) : null;
        try {
            if (path == null && Files.exists(KEY_FILE) && Integer.toString(port).equals(doorPort())) {
                path = KEY_FILE;
            }
            return path == null ? null : Files.readString(path, StandardCharsets.US_ASCII).strip();
        } catch (IOException error) {
            throw new NotSent("the secret of the door cannot be read: " + error + ": join the group brk-clients, or name its file by --key");
        }
    }

    private static String doorPort() throws IOException {
        String given = System.getenv("BRK_PORT");
        if (given != null && !given.isEmpty()) {
            return given;
        }
        List<String> lines = Files.exists(SETTINGS) ? Files.readAllLines(SETTINGS) : List.of();
        return lines.stream().filter(line -> line.startsWith("BRK_PORT=")).map(line -> line.substring(9).strip()).reduce(DOOR_PORT, (first, last) -> last);
    }

    /** A desk behind its door, or served without one, on a port of this machine. A door takes one request a stream; a desk takes a thousand
     * on one, which is used while none of its pauses is longer than IDLE_MILLIS. */
    public static final class Http extends Desk {
        private final int port;
        private final Path key;
        private String secret;
        private Socket stream;
        private InputStream input;
        private int left;
        private long used;

        /** The patience is in seconds; null waits for ever. */
        public Http(int port, Integer patience) {
            this(port, patience, null);
        }

        /** The key is the file of a door's secret; without one it is that of BRK_KEY, or of the package. */
        public Http(int port, Integer patience, Path key) {
            super(patience);
            this.port = port;
            this.key = key;
        }

        @Override
        void require(Collection<List<String>> stored, Collection<List<String>> rows) {}

        private Map.Entry<String, Object> once(String target, List<String> texts) throws IOException, ClientException {
            try {
                if (left == 0 || System.nanoTime() - used > IDLE_MILLIS * 1_000_000L) {
                    open();
                }
                left--;
                byte[] body = json(texts).getBytes(StandardCharsets.UTF_8);
                String head = "POST " + target + " HTTP/1.1\r\nHost: 127.0.0.1:" + port + "\r\nContent-Length: " + body.length + "\r\n"
                    + (secret == null ? "" : "X-Brk-Key: " + secret + "\r\n") + "\r\n";
                var request = new ByteArrayOutputStream();
                request.writeBytes(head.getBytes(StandardCharsets.US_ASCII));
                request.writeBytes(body);
                stream.getOutputStream().write(request.toByteArray());
                var found = reply();
                used = System.nanoTime();
                return found;
            } catch (IOException error) {
                close();
                throw error;
            }
        }

        private void open() throws IOException, ClientException {
            close();
            secret = secretFor(port, key);
            stream = new Socket();
            try {
                stream.connect(new InetSocketAddress("127.0.0.1", port), CONNECT_MILLIS);
            } catch (IOException error) {
                close();
                throw new NotReached(error.getMessage());
            }
            stream.setSoTimeout(REPLY_MILLIS);
            stream.setTcpNoDelay(true);
            input = new BufferedInputStream(stream.getInputStream());
            left = MOST_REQUESTS;
        }

        private String line() throws IOException {
            var found = new StringBuilder();
            for (int letter = input.read(); letter != '\n'; letter = input.read()) {
                if (letter < 0) {
                    throw new EOFException("the stream ended within a reply");
                }
                found.append((char) letter);
            }
            return found.toString().strip();
        }

        private Map.Entry<String, Object> reply() throws IOException, ClientException {
            String[] status = line().split(" ", 3);
            int length = -1;
            boolean ends = false;
            for (String field = line(); !field.isEmpty(); field = line()) {
                String[] parts = field.split(":", 2);
                if (parts.length == 2 && parts[0].equalsIgnoreCase("Content-Length")) {
                    length = Integer.parseInt(parts[1].strip());
                } else if (parts.length == 2 && parts[0].equalsIgnoreCase("Connection")) {
                    ends = parts[1].strip().equals("close");
                }
            }
            if (!status[0].startsWith("HTTP/1.") || length < 0) {
                throw new NotSent("port " + port + " gives no reply of a desk");
            }
            byte[] body = input.readNBytes(length);
            if (body.length < length) {
                throw new EOFException("the stream ended within a reply");
            }
            if (ends) {
                close();
            }
            Object value = Reader.read(new String(body, StandardCharsets.UTF_8));
            if (!(value instanceof Map<?, ?> members) || members.size() != 1) {
                throw new NotSent("port " + port + " gives no reply of a desk");
            }
            Map.Entry<?, ?> member = members.entrySet().iterator().next();
            if (member.getKey().equals("error")) {
                throw failure(status[1], String.valueOf(member.getValue()));
            }
            return Map.entry((String) member.getKey(), member.getValue());
        }

        /** The error for a reply of a door, or of a desk, that is no answer: a row is sent again after an IOException. */
        private IOException failure(String status, String text) throws ClientException {
            if (status.equals("408") || (status.equals("503") && text.startsWith("busy"))) {
                return new NotReached(text + ": see whether the desk runs: systemctl status brk.service");
            }
            if (List.of("502", "503", "504").contains(status)) {
                return new IOException(text);
            }
            if (status.equals("403")) {
                throw new NotSent("the door at port " + port + " refuses this program: " + text
                    + ": name the file of its secret by --key, or join the group brk-clients");
            }
            throw new NotSent(status + " " + text);
        }

        @Override
        void deliver(String batch, TreeMap<Long, List<String>> rows, List<Long> numbers, Map<Long, Reply> replies, long reading, Taker taker)
                throws IOException, ClientException {
            for (long number : numbers) {
                var found = patiently(() -> once("/rows/" + batch + "/" + number, rows.get(number)));
                taker.take(List.of(new Answer(number, found.getKey(), texts(found.getValue()))), isFirst);
            }
        }

        @Override
        Map.Entry<String, Object> ask(String view, List<String> arguments) throws ClientException {
            return patiently(() -> once("/ask/" + view, arguments));
        }

        @Override
        public void close() {
            left = 0;
            if (stream != null) {
                try {
                    stream.close();
                } catch (IOException error) {
                    // it is of no use any more
                }
            }
            stream = null;
        }
    }

    /** A desk in a file that no service holds: `brk batch --existing` and `brk ask` run on it. With `isNew` there is neither the file nor
     * its log, and the first batch makes it. */
    public static final class CommandLine extends Desk {
        private final Path path;
        private final boolean isNew;

        record Done(int status, byte[] output, String message) {}

        /** The patience is in seconds; null waits for ever. */
        public CommandLine(Path path, Integer patience, boolean isNew) {
            super(patience);
            this.path = path;
            this.isNew = isNew;
        }

        static String program() throws NotSent {
            String named = System.getenv("BRK");
            if (named != null && !named.isEmpty()) {
                return named;
            }
            for (String folder : System.getenv().getOrDefault("PATH", "").split(":")) {
                Path found = Path.of(folder, "brk");
                if (Files.isRegularFile(found) && Files.isExecutable(found)) {
                    return found.toString();
                }
            }
            throw new NotSent("there is no brk on PATH, and BRK names none");
        }

        private static boolean has(Path path) {
            try {
                return Files.isRegularFile(path) && Files.size(path) > 0;
            } catch (IOException error) {
                return false;
            }
        }

        private void requireFile() throws NotSent {
            boolean isThere = has(path);
            if (!isThere && !(isNew && !has(Path.of(path + "-wal")))) {
                throw new NotSent("no desk: " + path + " is missing or empty");
            }
        }

        @Override
        void require(Collection<List<String>> stored, Collection<List<String>> rows) throws ClientException {
            requireFile();
            var all = new ArrayList<List<String>>(stored);
            all.addAll(rows);
            if (batchText("A".repeat(40), all).length > MOST_BATCH_BYTES) {
                throw new ClientException("the batch has more than " + MOST_BATCH_BYTES + " bytes: begin another one");
            }
        }

        private Done run(List<String> words, byte[] given) throws IOException, ClientException {
            requireFile();
            var command = new ArrayList<String>(List.of(program()));
            command.addAll(words);
            Path input = Files.createTempFile("brk-", ".csv");
            Path errors = Files.createTempFile("brk-", ".err");
            try {
                Files.write(input, given);
                var builder = new ProcessBuilder(command).redirectInput(input.toFile()).redirectError(errors.toFile());
                Process process = builder.start();
                byte[] output = process.getInputStream().readAllBytes();
                int status = process.waitFor();
                String[] lines = Files.readString(errors).strip().split("\n");
                String message = lines[lines.length - 1];
                if ((status == 1 || status == 2) && !message.startsWith("brk: refused: ")) {
                    throw new NotSent(path + ": " + message);
                }
                return new Done(status, output, message.isEmpty() ? "exit status " + status : message);
            } catch (InterruptedException error) {
                Thread.currentThread().interrupt();
                throw new NoReply("interrupted");
            } finally {
                Files.delete(input);
                Files.delete(errors);
            }
        }

        /** The whole batch is sent, with `none` in place of each row that was refused before, so that it is not executed now. */
        @Override
        void deliver(String batch, TreeMap<Long, List<String>> rows, List<Long> numbers, Map<Long, Reply> replies, long reading, Taker taker)
                throws IOException, ClientException {
            var sent = new ArrayList<List<String>>();
            rows.forEach((number, row) -> sent.add(replies.containsKey(number) && !replies.get(number).accepted() ? List.of("none") : row));
            byte[] text = batchText(batch, sent);
            taker.take(patiently(() -> lines(text, sent.size(), Set.copyOf(numbers), reading)), isFirst);
        }

        private List<Answer> lines(byte[] text, int count, Set<Long> numbers, long reading) throws IOException, ClientException {
            var words = new ArrayList<>(List.of("batch", "--db", path.toString(), "--at", Long.toString(reading)));
            if (!isNew) {
                words.add("--existing");
            }
            Done done = run(words, text);
            if (done.status != 0) {
                throw new IOException(done.message);
            }
            String[] lines = new String(done.output, StandardCharsets.US_ASCII).split("\n");
            if (lines.length != count + 1 || !lines[count].startsWith("end,")) {
                throw new IOException(lines.length + " lines of " + count + " rows");
            }
            var found = new ArrayList<Answer>();
            for (String line : Arrays.asList(lines).subList(0, count)) {
                List<String> fields = List.of(line.split(",", -1));
                long number = Long.parseLong(fields.get(0));
                if (numbers.contains(number)) {
                    found.add(new Answer(number, fields.get(1), fields.subList(2, fields.size())));
                }
            }
            return found;
        }

        @Override
        Map.Entry<String, Object> ask(String view, List<String> arguments) throws ClientException {
            var words = new ArrayList<String>(List.of("ask", "--db", path.toString(), "--json", "--", view));
            words.addAll(arguments);
            return patiently(() -> {
                Done done = run(words, new byte[0]);
                if (done.message.startsWith("brk: refused: ")) {
                    return Map.entry("no", List.of(done.message.substring("brk: refused: ".length()).split(",")));
                }
                if (done.status != 0) {
                    throw new IOException(done.message);
                }
                Object value = Reader.read(new String(done.output, StandardCharsets.UTF_8));
                return Map.entry("view", ((Map<?, ?>) value).get("view"));
            });
        }

        @Override
        public void close() {}
    }

    // ---- the client

    private final Journal journal;
    private final Desk desk;
    private final LongSupplier now;

    public DeskClient(Path journal, Desk desk) throws IOException, ClientException {
        this(journal, desk, System::currentTimeMillis);
    }

    /** `now` is the clock reading with which CommandLine sends rows; `brk serve` has a clock of its own. */
    public DeskClient(Path journal, Desk desk, LongSupplier now) throws IOException, ClientException {
        this(journal, desk, now, true);
    }

    /** Without `makes` the journal has to exist. */
    public DeskClient(Path journal, Desk desk, LongSupplier now, boolean makes) throws IOException, ClientException {
        this.journal = new Journal(journal, makes);
        this.desk = desk;
        this.now = now;
    }

    /** Stores rows as the next ones of a batch, sends them, and returns their replies. */
    public List<Reply> send(String batch, List<List<String>> rows) throws IOException, ClientException {
        if (!BATCH.matcher(batch).matches()) {
            throw new IllegalArgumentException("no name of a batch: " + batch);
        }
        rows.forEach(DeskClient::requireTexts);
        if (!journal.open.isEmpty()) {
            throw new ClientException("rows without a reply: " + String.join(", ", journal.open.keySet()) + ": resume first");
        }
        if (rows.isEmpty()) {
            return List.of();
        }
        TreeMap<Long, List<String>> stored = journal.batches.getOrDefault(batch, new TreeMap<>());
        desk.require(stored.values(), rows);
        long first = stored.isEmpty() ? 1 : stored.lastKey() + 1;
        journal.store(batch, first, now.getAsLong(), rows);
        var numbers = new ArrayList<Long>();
        for (int at = 0; at < rows.size(); at++) {
            numbers.add(first + at);
        }
        return deliver(batch, numbers, true);
    }

    /** Stores another row in the place of one that was refused, sends it, and returns its reply. */
    public Reply correct(String batch, long number, List<String> row) throws IOException, ClientException {
        Reply reply = reply(batch, number);
        if (reply == null || reply.accepted()) {
            throw new ClientException("row " + number + " of " + batch + " was not refused");
        }
        requireTexts(row);
        journal.store(batch, number, now.getAsLong(), List.of(row));
        return deliver(batch, List.of(number), true).get(0);
    }

    /** Sends a row that was refused once more, unchanged: it is executed now. */
    public Reply again(String batch, long number) throws IOException, ClientException {
        if (reply(batch, number) == null) {
            throw new ClientException("row " + number + " of " + batch + " has no reply");
        }
        return correct(batch, number, journal.batches.get(batch).get(number));
    }

    /** Sends all rows that have no reply, and returns their replies by batch and number, such as DAY-1,7. */
    public Map<String, Reply> resume() throws IOException, ClientException {
        var found = new LinkedHashMap<String, Reply>();
        for (String batch : List.copyOf(journal.open.keySet())) {
            List<Long> numbers = journal.pending(batch);
            List<Reply> replies = deliver(batch, numbers, false);
            for (int at = 0; at < numbers.size(); at++) {
                found.put(batch + "," + numbers.get(at), replies.get(at));
            }
        }
        return found;
    }

    /** The stored reply to a row, or null. */
    public Reply reply(String batch, long number) {
        return journal.replies.getOrDefault(batch, new TreeMap<>()).get(number);
    }

    /** The records of a view. */
    public List<List<String>> ask(String view, String... arguments) throws IOException, ClientException {
        var answer = desk.ask(view, List.of(arguments));
        if (answer.getKey().equals("no")) {
            throw new Refused(String.join(",", texts(answer.getValue())));
        }
        var found = new ArrayList<List<String>>();
        for (Object record : (List<?>) answer.getValue()) {
            found.add(texts(record));
        }
        return found;
    }

    /** The submitted trades. */
    public List<Trade> submitted() throws IOException, ClientException {
        return ask("submitted").stream().map(record -> new Trade(record.get(0))).toList();
    }

    @Override
    public void close() throws IOException {
        desk.close();
        journal.close();
    }

    private static void requireTexts(List<String> row) {
        if (row.isEmpty() || row.get(0).isEmpty() || row.get(0).equals("end")) {
            throw new IllegalArgumentException("a row is a list of texts, its kind first: " + row);
        }
        if (json(row).getBytes(StandardCharsets.UTF_8).length > MOST_BODY_BYTES) {
            throw new IllegalArgumentException("a row has more than " + MOST_BODY_BYTES + " bytes");
        }
    }

    private List<Reply> deliver(String batch, List<Long> numbers, boolean isNew) throws IOException, ClientException {
        var used = new ArrayList<Long>();
        desk.deliver(batch, journal.batches.get(batch), numbers, journal.replies.get(batch), journal.readings.get(batch), (answers, isFirst) -> {
            journal.store(batch, answers);
            for (Answer answer : answers) {
                boolean isOther = answer.word.equals("no") && answer.fields.get(0).equals("19");
                if (isOther || (answer.word.equals("again") && isNew && isFirst)) {
                    used.add(answer.number);
                }
            }
        });
        if (!used.isEmpty()) {
            throw new KeyUsed(batch + ": rows that another sender booked under this name, and that are not booked now: " + used);
        }
        return numbers.stream().map(number -> reply(batch, number)).toList();
    }

    // ---- the command

    public static void main(String[] words) {
        try {
            System.exit(run(words));
        } catch (ClientException | IOException | IllegalArgumentException error) {
            System.err.println("DeskClient: " + error.getMessage());
            System.exit(1);
        }
    }

    private static int run(String[] words) throws IOException, ClientException {
        var options = new HashMap<String, String>();
        for (int at = 1; at < words.length; at++) {
            boolean isFlag = words[at].equals("--new") || words[at].equals("--resume");
            if (!isFlag && !(List.of("--port", "--key", "--db", "--at", "--patience").contains(words[at]) && at + 1 < words.length)) {
                return usage();
            }
            options.put(words[at], isFlag ? "" : words[++at]);
        }
        if (words.length == 0 || words[0].startsWith("--") || options.containsKey("--port") == options.containsKey("--db")
            || options.containsKey("--key") && options.containsKey("--db")) {
            return usage();
        }
        Integer patience = options.containsKey("--patience") ? Integer.valueOf(options.get("--patience")) : null;
        Desk desk = options.containsKey("--port")
            ? new Http(Integer.parseInt(options.get("--port")), patience, options.containsKey("--key") ? Path.of(options.get("--key")) : null)
            : new CommandLine(Path.of(options.get("--db")), patience, options.containsKey("--new"));
        LongSupplier now = options.containsKey("--at") ? () -> Long.parseLong(options.get("--at")) : System::currentTimeMillis;
        try (var client = new DeskClient(Path.of(words[0]), desk, now, !options.containsKey("--resume"))) {
            var out = new StringBuilder();
            if (options.containsKey("--resume")) {
                client.resume().forEach((key, reply) -> out.append(key).append(',').append(reply).append('\n'));
            } else {
                sendBatch(client, out);
            }
            System.out.print(out);
        }
        return 0;
    }

    private static void sendBatch(DeskClient client, StringBuilder out) throws IOException, ClientException {
        List<List<String>> records = records(new String(System.in.readAllBytes(), StandardCharsets.UTF_8).replaceFirst("^\uFEFF", ""));
        int count = records.size() - 2;
        if (count < 0 || records.get(0).size() != 2 || !records.get(0).get(0).equals("batch")
            || !records.get(count + 1).equals(List.of("end", Integer.toString(count)))) {
            throw new ClientException("standard input is no batch: batch,NAME, the rows, and end with their number");
        }
        String name = records.get(0).get(1);
        if (client.journal.batches.containsKey(name)) {
            throw new ClientException("the journal has a batch " + name + ": its rows were stored before, and --resume sends those that have no reply");
        }
        List<Reply> replies = client.send(name, records.subList(1, count + 1));
        for (int at = 0; at < count; at++) {
            out.append(at + 1).append(',').append(replies.get(at)).append('\n');
        }
        out.append("end");
        for (String word : List.of("ok", "again", "no")) {
            out.append(',').append(replies.stream().filter(reply -> reply.word().equals(word)).count());
        }
        out.append('\n');
    }

    private static int usage() {
        System.err.println("usage: java DeskClient.java JOURNAL (--port P [--key FILE] | --db FILE) [--at MS] [--patience S] [--new] [--resume]");
        return 2;
    }
}
