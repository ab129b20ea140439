import java.lang.reflect.InvocationTargetException;
import java.lang.reflect.Method;
import java.lang.reflect.Modifier;
import java.util.ArrayList;
import java.util.Arrays;
import java.util.Comparator;
import java.util.List;

/**
 * Runs the tests, which are the public methods without parameters of the classes that the words name. What fails is
 * printed, and the last line counts.
 */
final class Runner {
    private int passed;
    private int failed;

    private void run(Method test) {
        try {
            test.invoke(null);
            passed += 1;
        } catch (InvocationTargetException | IllegalAccessException fault) {
            failed += 1;
            System.out.println(test.getDeclaringClass().getName() + "." + test.getName() + " failed:");
            fault.getCause().printStackTrace(System.out);
        }
    }

    private static List<Method> tests(Class<?> type) {
        List<Method> tests = new ArrayList<>();
        for (Method method : type.getDeclaredMethods()) {
            if (Modifier.isPublic(method.getModifiers()) && method.getParameterCount() == 0) {
                tests.add(method);
            }
        }
        tests.sort(Comparator.comparing(Method::getName));
        return tests;
    }

    public static void main(String[] names) throws ClassNotFoundException {
        Runner runner = new Runner();
        for (String name : names) {
            List<Method> tests = tests(Class.forName(name));
            Check.that(!tests.isEmpty(), name + " has no test");
            tests.forEach(runner::run);
        }
        System.out.println(Arrays.toString(names) + ": " + runner.passed + " passed, " + runner.failed + " failed");
        System.exit(runner.failed == 0 && runner.passed > 0 ? 0 : 1);
    }
}
