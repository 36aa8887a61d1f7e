/* Stops threads in the middle of what they do: for tests in threads, which else are seldom stopped just there. As a shared object that is
 * preloaded (LD_PRELOAD) it gives each thread that the program starts a timer, whose signal stops the thread where it is: every 20 to 200 us,
 * for a time that is drawn too, asleep or spinning. JITTER_SEED in the environment, or 1, is where the draws begin. At the end it writes a
 * line `jitter: STOPS stops of THREADS threads` to standard error.
 *
 * The handler makes calls alone that a handler may make: clock_gettime, nanosleep and timer_settime. */
#define _GNU_SOURCE
#include <dlfcn.h>
#include <errno.h>
#include <inttypes.h>
#include <pthread.h>
#include <signal.h>
#include <stdatomic.h>
#include <stdint.h>
#include <stdio.h>
#include <stdlib.h>
#include <sys/prctl.h>
#include <sys/syscall.h>
#include <time.h>
#include <unistd.h>

/* The member's name, which older headers leave out. */
#ifndef sigev_notify_thread_id
#define sigev_notify_thread_id _sigev_un._tid
#endif

/* In nanoseconds. */
enum { LEAST_RUN = 20000, MOST_RUN = 200000, MOST_SLEEP = 200000, LEAST_SPIN = 256 };

typedef int create_thread(pthread_t *, const pthread_attr_t *, void *(*)(void *), void *);

struct start {
    void *(*work)(void *);
    void *argument;
    uint64_t number;
};

/* Of this thread: where its draws stand, and its timer. The model asks for no memory at the first use. */
static __thread __attribute__((tls_model("initial-exec"))) struct {
    uint64_t draws, stops;
    timer_t timer;
} own;

static _Atomic uint64_t threads, stops;
static create_thread *create;
static uint64_t seed = 1;

static int number_of_signal(void) { return SIGRTMIN + 5; }

/* Marsaglia, "Xorshift RNGs", 2003. */
static long drawn_between(long low, long high) {
    own.draws ^= own.draws << 13;
    own.draws ^= own.draws >> 7;
    own.draws ^= own.draws << 17;
    return low + (long)((own.draws >> 11) % (uint64_t)(high - low + 1));
}

static int64_t now(void) {
    struct timespec time;
    clock_gettime(CLOCK_MONOTONIC, &time);
    return (int64_t)time.tv_sec * 1000000000 + time.tv_nsec;
}

/* The next stop comes once the thread has run for a while: so it always gets on. */
static void set_timer(void) {
    const struct itimerspec once = {.it_value = {0, drawn_between(LEAST_RUN, MOST_RUN)}};
    timer_settime(own.timer, 0, &once, NULL);
}

static void stop_here(int number) {
    const int error = errno;
    (void)number;
    own.stops++;
    if (drawn_between(0, 3) == 0) {
        const struct timespec a_while = {0, drawn_between(1, MOST_SLEEP)};
        nanosleep(&a_while, NULL);
    } else {
        /* Up to 65 us, and short ones as often as long ones: what others do in a short stop excuses less. */
        const int64_t end = now() + drawn_between(1, LEAST_SPIN << drawn_between(0, 8));
        while (now() < end) continue;
    }
    set_timer();
    errno = error;
}

/* No signal comes behind this one, whose handler would use what is gone. */
static void drop_timer(void *unused) {
    sigset_t ours;
    (void)unused;
    sigemptyset(&ours);
    sigaddset(&ours, number_of_signal());
    pthread_sigmask(SIG_BLOCK, &ours, NULL);
    timer_delete(own.timer);
    stops += own.stops;
}

static void *start_stopped(void *at) {
    const struct start start = *(struct start *)at;
    struct sigevent event = {.sigev_notify = SIGEV_THREAD_ID, .sigev_signo = number_of_signal()};
    void *result;
    free(at);
    own.draws = 88172645463325252u + seed * 1000003 + start.number * 7919;
    event.sigev_notify_thread_id = (pid_t)syscall(SYS_gettid);
    prctl(PR_SET_TIMERSLACK, 1);
    if (timer_create(CLOCK_MONOTONIC, &event, &own.timer)) return start.work(start.argument);
    pthread_cleanup_push(drop_timer, NULL);
    set_timer();
    result = start.work(start.argument);
    pthread_cleanup_pop(1);
    return result;
}

/* In place of the C library's. */
int pthread_create(pthread_t *thread, const pthread_attr_t *attributes, void *(*work)(void *), void *argument) {
    struct start *start = malloc(sizeof *start);
    if (!start) return EAGAIN;
    *start = (struct start){work, argument, ++threads};
    const int error = create(thread, attributes, start_stopped, start);
    if (error) free(start);
    return error;
}

__attribute__((constructor)) static void begin(void) {
    const struct sigaction action = {.sa_handler = stop_here, .sa_flags = SA_RESTART};
    const char *given = getenv("JITTER_SEED");
    if (given) seed = strtoull(given, NULL, 10);
    /* A pointer to an object that becomes one to a function, as dlsym's page has it. */
    *(void **)&create = dlsym(RTLD_NEXT, "pthread_create");
    if (!create || sigaction(number_of_signal(), &action, NULL)) abort();
}

__attribute__((destructor)) static void tell(void) {
    fprintf(stderr, "jitter: %" PRIu64 " stops of %" PRIu64 " threads\n", (uint64_t)stops, (uint64_t)threads);
}
