// What CoreCLR's interface to the system asks of this system.
#define HAVE_SYS_TIME_H 1
#define HAVE_SYS_MMAN_H 1
#define HAVE_PTHREAD_THREADID_NP 0
#define HAVE_PTHREAD_GETTHREADID_NP 0
#define HAVE_SCHED_GETCPU 0
