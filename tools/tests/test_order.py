"""tools/count over programs with several threads: the same counts each time, on a machine that has
other work too, and the time of what runs side by side."""

from __future__ import annotations

import subprocess
import sys
from contextlib import contextmanager
from pathlib import Path
from typing import Iterator

from tests.counted import Counted
from tests.support import ROOT, needs_command, needs_library, needs_program
from tests.whole import Whole, needs_papi

WAYS = "mutex rwlock barrier semaphore condition spinning pause yield sleep signal kill atomics"
SOURCES = ROOT / "checks/order.d"
BUSY = "while True: pass"


@contextmanager
def busy_machine(loops: int) -> Iterator[None]:
    running = [subprocess.Popen(["nice", sys.executable, "-c", BUSY]) for _ in range(loops)]
    try:
        yield
    finally:
        for each in running:
            each.kill()
            each.wait()


@needs_command("valgrind", "valgrind")
@needs_command("cc", "a C compiler")
@needs_papi
class Order(Whole):
    def source(self, name: str) -> str:
        return (SOURCES / name).read_text(encoding="utf-8")

    def assert_same(self, *words: str) -> None:
        """What is counted and printed, alone and beside other work."""
        seen = []
        for loops in (0, 4):
            with busy_machine(loops):
                to = self.folder / f"counts.{loops}"
                done = self.count("--json", str(to), "-o", str(self.folder / "table"), *words)
                self.assertEqual((done.stderr, done.returncode), ("", 0), words)
                seen.append((done.stdout, to.read_bytes()))
        self.assertEqual(seen[0], seen[1], words)

    def test_threads_wait_for_each_other(self) -> None:
        program = self.compile("ways", self.source("ways.c"))
        for way in WAYS.split():
            self.assert_same(program, way)

    def test_openmp(self) -> None:
        for schedule in ("static", "dynamic,4", "guided"):
            words = ("-fopenmp", f"-DSCHEDULE={schedule}")
            self.assert_same(self.compile("openmp", self.source("openmp.c"), *words))

    @needs_command("c++", "a C++ compiler")
    def test_async(self) -> None:
        self.assert_same(self.compile("async", self.source("async.cc"), compiler="c++"))

    def test_python_threads(self) -> None:
        python = str(Path(sys.executable).resolve())
        self.assert_same("env", "PYTHONHASHSEED=0", python, "-S", str(SOURCES / "pool.py"))

    def test_what_comes_from_outside_is_said(self) -> None:
        """A thread waits for a child, and another one works meanwhile."""
        program = self.compile(
            "child",
            """
            #include <pthread.h>
            #include <stdatomic.h>
            #include <sys/wait.h>
            #include <unistd.h>
            static atomic_int over;
            static void *work(void *unused) { while (!over) {} return unused; }
            int main(void) {
                pthread_t thread;
                pthread_create(&thread, NULL, work, NULL);
                pid_t child = fork();
                if (!child) { usleep(50000); _exit(0); }
                waitpid(child, NULL, 0);
                over = 1;
                return pthread_join(thread, NULL);
            }
            """,
        )
        done = self.count("-o", str(self.folder / "table"), program)
        wanted = f"count: the order of the threads of {program} was not determined: "
        wanted += "wait4 was answered from outside while others ran\n"
        wanted += "count: 1 child process not counted (--children counts them too)\n"
        self.assertEqual((done.stderr, done.returncode), (wanted, 0))

    def test_a_signal_ends_a_wait(self) -> None:
        """A handler without SA_RESTART has a semaphore's wait end; with it the wait goes on."""
        program = self.compile(
            "wait",
            """
            #include <errno.h>
            #include <pthread.h>
            #include <semaphore.h>
            #include <signal.h>
            #include <stdio.h>
            static sem_t semaphore;
            static pthread_t waits;
            static volatile int calls;
            static void on(int number) { (void)number; calls++; }
            static void *send(void *unused) {
                for (volatile int i = 0; i < 100000; i++) {}
                pthread_kill(waits, SIGUSR1);
                for (volatile int i = 0; i < 100000; i++) {}
                sem_post(&semaphore);
                return unused;
            }
            int main(int count, char **words) {
                struct sigaction action = {.sa_handler = on, .sa_flags = count > 1 ? SA_RESTART : 0};
                pthread_t thread;
                (void)words;
                waits = pthread_self();
                sigaction(SIGUSR1, &action, NULL);
                pthread_create(&thread, NULL, send, NULL);
                int answer = sem_wait(&semaphore), cause = errno;
                printf("%d %d %d\\n", answer, answer ? cause == EINTR : 0, calls);
                return pthread_join(thread, NULL);
            }
            """,
        )
        for words, wanted in (((), "-1 1 1\n"), (("restart",), "0 0 1\n")):
            done = self.count("-o", str(self.folder / "table"), program, *words)
            self.assertEqual((done.stdout, done.stderr, done.returncode), (wanted, "", 0))


@needs_command("valgrind", "valgrind")
@needs_command("cc", "a C compiler")
@needs_program
@needs_library
class Time(Counted):
    def test_threads_take_the_time_of_one(self) -> None:
        """A loop without sharing, whose whole is two cycles a turn, shared out among threads: the
        time of all, and what the first thread says of its own."""
        program = self.compile("""
            #include <pthread.h>
            static long share;
            static long long own;
            static void *work(void *first) {
                loop(share);
                if (first) own = PAPI_get_virt_cyc();
                return NULL;
            }
            int main(int count, char **words) {
                int threads = count > 1 ? atoi(words[1]) : 1;
                pthread_t all[4];
                share = 4000000 / threads;
                made("PAPI_TOT_INS");
                if (PAPI_thread_init(pthread_self)) return 9;
                long long before = PAPI_get_real_cyc();
                for (long i = 0; i < threads; i++) pthread_create(&all[i], NULL, work, i ? NULL : all);
                for (int i = 0; i < threads; i++) pthread_join(all[i], NULL);
                printf("%lld %lld\\n", PAPI_get_real_cyc() - before, own);
                return 0;
            }
        """)
        times = {}
        for threads in (1, 2, 4):
            done = self.count("--costs", "0,0,0,0,0", program, str(threads))
            self.assertEqual((done.stderr, done.returncode), ("", 0))
            times[threads], own = map(int, done.stdout.split())
            self.assertIn(own, range(8000000 // threads, 8000000 // threads + 10000))
        self.assertTrue(1.9 < times[1] / times[2] <= 2.0, times)
        self.assertTrue(3.7 < times[1] / times[4] <= 4.0, times)
