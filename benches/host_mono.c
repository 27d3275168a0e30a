/* The calls of benches/host.c by mono's embedding API: host_mono CALL N, with CALL handle_get, handle_new (with the free),
 * object_new or field_set, prints the nanoseconds of each.
 *
 *   cc -O2 -std=gnu11 benches/host_mono.c $(pkg-config --cflags --libs mono-2) -o host_mono */
#include <mono/jit/jit.h>
#include <mono/metadata/appdomain.h>
#include <mono/metadata/object.h>
#include <stdio.h>
#include <stdlib.h>
#include <string.h>
#include <time.h>

static double now(void) {
    struct timespec time;
    clock_gettime(CLOCK_THREAD_CPUTIME_ID, &time);
    return (double)time.tv_sec + (double)time.tv_nsec / 1e9;
}

int main(int count, char **words) {
    if (count != 3) return 2;
    unsigned long calls = strtoul(words[2], NULL, 10);
    MonoDomain *domain = mono_jit_init("host");
    MonoClass *type = mono_get_object_class();
    /* What a host references is on this stack, which mono's collector looks through. */
    MonoObject *volatile first = mono_object_new(domain, type), *volatile local = NULL;
    MonoArray *volatile fields = mono_array_new(domain, type, 4);
    uint32_t handle = mono_gchandle_new(first, 0);
    double start = now();
    if (strcmp(words[1], "handle_get") == 0)
        for (unsigned long i = 0; i < calls; i++) local = mono_gchandle_get_target(handle);
    else if (strcmp(words[1], "handle_new") == 0)
        for (unsigned long i = 0; i < calls; i++) mono_gchandle_free(mono_gchandle_new(first, 0));
    else if (strcmp(words[1], "object_new") == 0)
        for (unsigned long i = 0; i < calls; i++) local = mono_object_new(domain, type);
    else if (strcmp(words[1], "field_set") == 0)
        for (unsigned long i = 0; i < calls; i++) mono_array_setref(fields, 1, first);
    else
        return 2;
    printf("%.2f\n", (now() - start) / (double)calls * 1e9);
    (void)local;
    mono_jit_cleanup(domain);
    return 0;
}
