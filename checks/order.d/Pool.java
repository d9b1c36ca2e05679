import java.util.concurrent.*;
import java.util.concurrent.atomic.AtomicLong;

/** Four threads of a pool add up what each did. */
class Pool {
    public static void main(String[] words) throws Exception {
        ExecutorService pool = Executors.newFixedThreadPool(4);
        AtomicLong sum = new AtomicLong();
        for (int i = 0; i < 200; i++) {
            int size = i;
            pool.submit(() -> { for (int j = 0; j < size; j++) sum.addAndGet(j); });
        }
        pool.shutdown();
        pool.awaitTermination(1, TimeUnit.HOURS);
        System.out.println(sum);
    }
}
