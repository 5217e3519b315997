import java.io.BufferedReader;
import java.io.FileWriter;
import java.io.IOException;
import java.io.InputStreamReader;
import java.io.PrintStream;
import java.lang.management.GarbageCollectorMXBean;
import java.lang.management.ManagementFactory;
import java.nio.charset.StandardCharsets;
import java.util.ArrayList;
import java.util.Arrays;
import java.util.HashMap;
import java.util.IdentityHashMap;
import java.util.List;
import java.util.Map;
import java.util.function.BooleanSupplier;

/** A driver over Java's own objects and its own collector. Grade: identity (docs/ADAPTER.md).

    A value is null, an Integer, a Cons or a Block.  A flip is one full collection, and is finished at the next scan
    or allocation.  Java's minor and major collections also run by themselves. */
public final class Driver {
    static final int STRESS_MINOR = 20;         // commands between two minor collections that Java begins by itself
    static final int STRESS_MAJOR = 200;

    abstract static class Item {
        String area;
        Object[] parts;

        Item(String area, int count) {
            this.area = area;
            parts = new Object[count];
        }
    }

    static final class Cons extends Item {
        final boolean isCell;

        Cons(String area, boolean isCell, Object car, Object cdr) {
            super(area, 2);
            this.isCell = isCell;
            parts[0] = car;
            parts[1] = cdr;
        }
    }

    static final class Block extends Item {
        final int code;

        Block(String area, int code, int count) {
            super(area, count);
            this.code = code;
        }
    }

    enum Phase { IDLE, RUNNING, OVER }

    Phase phase = Phase.IDLE;
    Object[] registers;
    int levels;
    final List<String> header = new ArrayList<>(List.of("lispm-world 2"));
    final BufferedReader in = new BufferedReader(new InputStreamReader(System.in, StandardCharsets.ISO_8859_1));
    final PrintStream out = new PrintStream(System.out, false, StandardCharsets.ISO_8859_1);

    // ---- Collections

    final GarbageCollectorMXBean minor = ManagementFactory.getGarbageCollectorMXBeans().get(0);
    final GarbageCollectorMXBean major = ManagementFactory.getGarbageCollectorMXBeans().get(1);
    long forced;                                // major collections that a flip began
    static volatile Object ballast;

    String flip() {
        if (phase != Phase.IDLE)
            return "busy";
        long before = major.getCollectionCount();
        System.gc();
        forced += major.getCollectionCount() - before;
        phase = Phase.RUNNING;
        return "flipped 0";
    }

    void scan() {
        if (phase == Phase.RUNNING)
            phase = Phase.OVER;
    }

    String scavenge() {
        if (phase == Phase.IDLE)
            return "not-flipped";
        scan();
        return "done";
    }

    String reclaim() {
        if (phase != Phase.OVER)
            return phase == Phase.IDLE ? "not-flipped" : "not-done";
        phase = Phase.IDLE;
        return "reclaimed";
    }

    static void allocateUntil(BooleanSupplier isEnough, int size) {
        while (!isEnough.getAsBoolean())
            ballast = new byte[size];
        ballast = null;
    }

    void stress(int number) {
        if (number % STRESS_MINOR == 0) {
            long before = minor.getCollectionCount();
            allocateUntil(() -> minor.getCollectionCount() > before, 50_000);
        }
        if (number % STRESS_MAJOR == 0) {
            long before = major.getCollectionCount();
            allocateUntil(() -> major.getCollectionCount() > before, 4 << 20);
        }
    }

    void tellCollections() throws IOException {
        String path = System.getenv("LISPM_COLLECTIONS");
        if (path == null)
            return;
        try (FileWriter file = new FileWriter(path, true)) {
            file.write(minor.getCollectionCount() + " " + (major.getCollectionCount() - forced) + "\n");
        }
    }

    // ---- Objects

    Cons list(String area, List<Object> cars) {
        Cons list = null;
        for (int i = cars.size(); i > 0; i--)
            list = new Cons(area, true, cars.get(i - 1), list);
        return list;
    }

    static String shown(Object value) {
        if (value == null)
            return "nil";
        if (value instanceof Cons)
            return "cons";
        return value instanceof Block block ? "block " + block.code + " " + block.parts.length : value.toString();
    }

    static boolean same(Object one, Object other) {
        return one instanceof Integer ? one.equals(other) : one == other;
    }

    // ---- Dumps

    final class Dump {
        final Map<Item, Integer> numbers = new IdentityHashMap<>();
        final List<Item> order = new ArrayList<>();
        final StringBuilder text = new StringBuilder(String.join("\n", header)).append('\n');

        void visit(Object value) {
            while (value instanceof Item item && !numbers.containsKey(item)) {
                numbers.put(item, order.size());
                order.add(item);
                value = item instanceof Cons && item.parts[1] instanceof Cons next ? next : null;
            }
        }

        boolean leadsTo(int at, Item next) {
            return order.get(at) instanceof Cons cons && cons.isCell && cons.area.equals(next.area) && cons.parts[1] == next;
        }

        /** For the first place of each list of cells how many it has. */
        Map<Integer, Integer> runs() {
            Map<Integer, Integer> sizes = new HashMap<>();
            for (int tail = 0; tail < order.size(); tail++) {
                if (!(order.get(tail) instanceof Cons cons && cons.isCell && cons.parts[1] == null))
                    continue;
                int first = tail;
                while (first > 0 && tail - first + 1 < 1024 && leadsTo(first - 1, order.get(first)))
                    first--;
                sizes.put(first, tail - first + 1);
            }
            return sizes;
        }

        void add(Object value) {
            text.append(' ').append(value instanceof Item item ? "#" + numbers.get(item) : shown(value));
        }

        void addRun(int at, int size) {
            text.append("run ").append(order.get(at).area);
            for (int i = at; i < at + size; i++)
                add(order.get(i).parts[0]);
        }

        void addItem(Item item) {
            text.append(item instanceof Cons ? "cons " : "block ").append(item.area);
            if (item instanceof Block block)
                text.append(' ').append(block.code);
            for (Object part : item.parts)
                add(part);
        }

        String write() {
            for (Object value : registers)
                visit(value);
            for (int at = 0; at < order.size(); at++)
                for (Object part : order.get(at).parts)
                    visit(part);
            Map<Integer, Integer> sizes = runs();
            for (int at = 0; at < order.size(); at += sizes.getOrDefault(at, 1)) {
                if (sizes.containsKey(at))
                    addRun(at, sizes.get(at));
                else
                    addItem(order.get(at));
                text.append('\n');
            }
            for (int register = 0; register < registers.length; register++)
                if (registers[register] != null) {
                    text.append("root ").append(register);
                    add(registers[register]);
                    text.append('\n');
                }
            return text.append("end-world").toString();
        }
    }

    // ---- Commands

    static int number(String word) {
        return Integer.parseInt(word);
    }

    static Object constant(String word) {
        return word.equals("nil") ? null : (Object) Integer.valueOf(word);
    }

    Object register(String word) {
        return registers[number(word)];
    }

    String set(String to, Object value) {
        registers[number(to)] = value;
        return "ok";
    }

    String fetch(String to, Object value) {
        set(to, value);
        return shown(value);
    }

    /** A part of a cons is read into a register, or written. */
    String part(String from, int index, String to) {
        return register(from) instanceof Cons cons ? fetch(to, cons.parts[index]) : "wrong-type";
    }

    String store(String target, int index, String from) {
        if (!(register(target) instanceof Cons cons))
            return "wrong-type";
        cons.parts[index] = register(from);
        return "ok";
    }

    String field(String holder, String index, String to, String from) {
        if (!(register(holder) instanceof Block block))
            return "wrong-type";
        long at = Long.parseLong(index);
        if (at >= block.parts.length)
            return "no-field " + block.parts.length;
        if (to != null)
            return fetch(to, block.parts[(int) at]);
        block.parts[(int) at] = register(from);
        return "ok";
    }

    String made(String to, Object object) {
        scan();
        return set(to, object);
    }

    String answer(String[] w) {
        switch (w[0]) {
            case "set": return set(w[1], constant(w[2]));
            case "move": return set(w[1], register(w[2]));
            case "cons": return made(w[1], new Cons(w[2], false, register(w[3]), register(w[4])));
            case "list": return made(w[1], list(w[2], Arrays.stream(w, 3, w.length).map(this::register).toList()));
            case "make": return made(w[1], new Block(w[2], number(w[3]), number(w[4])));
            case "car": return part(w[2], 0, w[1]);
            case "cdr": return part(w[2], 1, w[1]);
            case "rplaca": return store(w[1], 0, w[2]);
            case "rplacd": return store(w[1], 1, w[2]);
            case "get": return field(w[2], w[3], w[1], null);
            case "put": return field(w[1], w[2], null, w[3]);
            case "size": return register(w[1]) instanceof Block block ? "" + block.parts.length : "wrong-type";
            case "eq": return same(register(w[1]), register(w[2])) ? "t" : "nil";
            case "flip": return flip();
            case "scavenge": return scavenge();
            case "reclaim": return reclaim();
            case "dump": return new Dump().write();
            default: throw new IllegalArgumentException(w[0] + ": not a command of grade identity");
        }
    }

    // ---- Worlds.  References may be to later objects, so they are filled in at the end.

    record Filling(Object[] parts, int index, int object) { }

    final List<Item> objects = new ArrayList<>();
    final List<Filling> fillings = new ArrayList<>();

    void fill(Object[] parts, int index, String word) {
        if (word.startsWith("#"))
            fillings.add(new Filling(parts, index, number(word.substring(1))));
        else
            parts[index] = constant(word);
    }

    void readItem(Item item, String[] w, int first) {
        objects.add(item);
        for (int i = first; i < w.length; i++)
            fill(item.parts, i - first, w[i]);
    }

    void readRun(String[] w) {
        Object cell = list(w[1], Arrays.asList(new Object[w.length - 2]));
        for (int i = 2; i < w.length; i++) {
            Cons cons = (Cons) cell;
            objects.add(cons);
            fill(cons.parts, 0, w[i]);
            cell = cons.parts[1];
        }
    }

    void readSpace(String line, String[] w) {
        header.add(line);
        registers = new Object[number(w[3])];
        levels = number(w[4]);
    }

    void readWorld() throws IOException {
        boolean hasCapacity = false;
        for (String line = in.readLine(); !line.equals("trace"); line = in.readLine()) {
            String[] w = line.split(" ");
            switch (w[0]) {
                case "space" -> readSpace(line, w);
                case "area" -> header.add(line);
                case "capacity" -> hasCapacity = header.add(line);
                case "cons" -> readItem(new Cons(w[1], false, null, null), w, 2);
                case "block" -> readItem(new Block(w[1], number(w[2]), w.length - 3), w, 3);
                case "run" -> readRun(w);
                case "root" -> fill(registers, number(w[1]), w[2]);
                default -> { }
            }
        }
        if (!hasCapacity)
            header.add("capacity" + " 0".repeat(levels));
        for (Filling filling : fillings)
            filling.parts[filling.index] = objects.get(filling.object);
        objects.clear();
        fillings.clear();
    }

    void run() throws IOException {
        readWorld();
        String line = in.readLine();
        for (int number = 1; !line.equals("end"); number++, line = in.readLine()) {
            stress(number);
            out.print(answer(line.split(" ")) + "\n");
            out.flush();
        }
        tellCollections();
    }

    public static void main(String[] words) throws IOException {
        new Driver().run();
    }
}
