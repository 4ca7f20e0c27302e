import java.util.*;
import java.util.concurrent.*;
import java.util.stream.Collectors;

/** CompletableFuture: chains, combinations, failures. */
public class Completable {
    public static void main(String[] args) throws Exception {
        CompletableFuture<Integer> a = CompletableFuture.supplyAsync(() -> 20);
        CompletableFuture<Integer> b = CompletableFuture.supplyAsync(() -> 22);
        System.out.println(a.thenCombine(b, Integer::sum).join());
        System.out.println(a.thenApply(x -> x + 1).thenCompose(x -> CompletableFuture.supplyAsync(() -> "v" + x)).get());
        CompletableFuture<String> failed = CompletableFuture.supplyAsync(() -> {
            throw new IllegalStateException("boom");
        });
        try {
            failed.join();
        } catch (CompletionException e) {
            System.out.println(e.getMessage() + " | " + e.getCause().getMessage());
        }
        try {
            failed.get();
        } catch (ExecutionException e) {
            System.out.println(e.getCause());
        }
        System.out.println(failed.exceptionally(t -> "recovered").join() + " " + failed.isCompletedExceptionally());
        System.out.println(failed.handle((v, t) -> t == null ? v : t.getClass().getSimpleName()).join());
        List<CompletableFuture<Integer>> all = new ArrayList<>();
        for (int i = 0; i < 5; i++) {
            int n = i;
            all.add(CompletableFuture.supplyAsync(() -> n * n));
        }
        CompletableFuture<Void> done = CompletableFuture.allOf(all.toArray(new CompletableFuture[0]));
        System.out.println(done.thenApply(v -> all.stream().map(CompletableFuture::join).collect(Collectors.toList())).join());
        System.out.println(CompletableFuture.anyOf(CompletableFuture.completedFuture("first"), new CompletableFuture<String>()).join());
        CompletableFuture<String> manual = new CompletableFuture<>();
        new Thread(() -> manual.complete("by hand")).start();
        System.out.println(manual.get(1, TimeUnit.SECONDS) + " " + manual.complete("late") + " " + manual.getNow("x"));
        StringBuilder log = new StringBuilder();
        CompletableFuture.completedFuture(3).thenAccept(x -> log.append("got ").append(x)).thenRun(() -> log.append(" end")).join();
        System.out.println(log);
        CompletableFuture<Integer> cancelled = new CompletableFuture<>();
        System.out.println(cancelled.cancel(true) + " " + cancelled.isCancelled() + " " + cancelled.isDone());
        try {
            cancelled.join();
        } catch (CancellationException e) {
            System.out.println("cancelled");
        }
        ExecutorService pool = Executors.newFixedThreadPool(2);
        System.out.println(CompletableFuture.supplyAsync(() -> Thread.currentThread().getName().startsWith("pool"), pool).join());
        pool.shutdown();
        CompletableFuture<String> w = CompletableFuture.completedFuture("w").whenComplete((v, t) -> System.out.println(v + t));
        System.out.println(w.thenAcceptBoth(CompletableFuture.completedFuture(1), (x, y) -> System.out.println(x + y)).join());
        System.out.println(a.applyToEither(new CompletableFuture<Integer>(), x -> x * 2).join());
    }
}
