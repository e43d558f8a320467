// SAT4J kept warm: one machine answers for many files. A line of standard input has a limit in milliseconds, the name of a
// pseudo-Boolean file and, where the first plan is wanted, the variables of each step in crew order, as 1,2,3;4,5.
// A line of standard output has SAT, UNSAT or LATE, the nanoseconds for reading and for solving, and the plan's variables.

import java.io.BufferedReader;
import java.io.InputStreamReader;
import java.util.Arrays;
import java.util.Set;
import java.util.stream.Collectors;
import java.util.stream.IntStream;
import org.sat4j.core.VecInt;
import org.sat4j.pb.IPBSolver;
import org.sat4j.pb.SolverFactory;
import org.sat4j.pb.reader.OPBReader2012;
import org.sat4j.specs.ContradictionException;
import org.sat4j.specs.TimeoutException;

class Warm {
    // As on the other side: quick ones several times, and the best time counts.
    static final int REPEATS = 5;
    static final long QUICK = 20_000_000;

    record Solved(String word, long reading, long solving, VecInt plan) {
        long all() {
            return reading + solving;
        }

        String line() {
            String vars = IntStream.range(0, plan.size()).mapToObj(i -> " " + plan.get(i)).collect(Collectors.joining());
            return word + " " + reading + " " + solving + vars;
        }
    }

    static Set<Integer> model(IPBSolver solver) {
        return Arrays.stream(solver.model()).boxed().collect(Collectors.toSet());
    }

    // For each step the first variable that can be true with those before. One that is so in the model at hand can be.
    static VecInt first(IPBSolver solver, int[][] steps, long until) throws TimeoutException {
        VecInt fixed = new VecInt();
        Set<Integer> model = model(solver);
        for (int[] vars : steps) {
            for (int var : vars) {
                if (System.nanoTime() > until) {
                    throw new TimeoutException();
                }
                fixed.push(var);
                if (model.contains(var)) {
                    break;
                }
                if (solver.isSatisfiable(fixed)) {
                    model = model(solver);
                    break;
                }
                fixed.pop();
            }
        }
        return fixed;
    }

    static Solved solve(long millis, String file, int[][] steps) throws Exception {
        IPBSolver solver = SolverFactory.newDefault();
        solver.setTimeoutMs(millis);
        long start = System.nanoTime();
        try {
            new OPBReader2012(solver).parseInstance(file);
        } catch (ContradictionException found) {
            return new Solved("UNSAT", System.nanoTime() - start, 0, new VecInt());
        }
        long read = System.nanoTime();
        String word = "LATE";
        VecInt plan = new VecInt();
        try {
            boolean found = solver.isSatisfiable();
            if (found) {
                plan = first(solver, steps, read + 1_000_000 * millis);
            }
            word = found ? "SAT" : "UNSAT";
        } catch (TimeoutException late) {
            // The word says so.
        }
        return new Solved(word, read - start, System.nanoTime() - read, plan);
    }

    static int[][] steps(String text) {
        return Arrays.stream(text.split(";"))
                .map(vars -> Arrays.stream(vars.split(",")).mapToInt(Integer::parseInt).toArray())
                .toArray(int[][]::new);
    }

    public static void main(String[] args) throws Exception {
        BufferedReader lines = new BufferedReader(new InputStreamReader(System.in));
        for (String line = lines.readLine(); line != null; line = lines.readLine()) {
            String[] words = line.split(" ");
            long millis = Long.parseLong(words[0]);
            int[][] steps = words.length > 2 ? steps(words[2]) : new int[0][];
            Solved best = solve(millis, words[1], steps);
            for (int i = 1; i < REPEATS && best.all() < QUICK; i++) {
                Solved again = solve(millis, words[1], steps);
                best = again.all() < best.all() ? again : best;
            }
            System.out.println(best.line());
            System.out.flush();
        }
        // Its timers would keep the machine up.
        System.exit(0);
    }
}
