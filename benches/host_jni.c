/* The calls of benches/host.c by JNI: host_jni CALL N, with CALL handle_get, handle_new (with the free), object_new or field_set,
 * prints the nanoseconds of each. A local reference that a call makes is deleted again, since a frame has room for few.
 *
 *   cc -O2 -std=gnu11 -I$JAVA_HOME/include -I$JAVA_HOME/include/linux benches/host_jni.c -L$JAVA_HOME/lib/server \
 *       -Wl,-rpath,$JAVA_HOME/lib/server -ljvm -o host_jni */
#include <jni.h>
#include <stdio.h>
#include <stdlib.h>
#include <string.h>
#include <time.h>

static double now(void) {
    struct timespec time;
    clock_gettime(CLOCK_THREAD_CPUTIME_ID, &time);
    return (double)time.tv_sec + (double)time.tv_nsec / 1e9;
}

int main(int count, char **words) {
    JavaVMInitArgs given = { JNI_VERSION_1_8, 0, NULL, JNI_FALSE };
    JavaVM *machine;
    JNIEnv *env;
    if (count != 3 || JNI_CreateJavaVM(&machine, (void **)&env, &given) != JNI_OK) return 2;
    unsigned long calls = strtoul(words[2], NULL, 10);
    jclass type = (*env)->FindClass(env, "java/lang/Object");
    jobject first = (*env)->AllocObject(env, type);
    jobjectArray fields = (*env)->NewObjectArray(env, 4, type, NULL);
    jobject global = (*env)->NewGlobalRef(env, first);
    double start = now();
    if (strcmp(words[1], "handle_get") == 0)
        for (unsigned long i = 0; i < calls; i++) (*env)->DeleteLocalRef(env, (*env)->NewLocalRef(env, global));
    else if (strcmp(words[1], "handle_new") == 0)
        for (unsigned long i = 0; i < calls; i++) (*env)->DeleteGlobalRef(env, (*env)->NewGlobalRef(env, first));
    else if (strcmp(words[1], "object_new") == 0)
        for (unsigned long i = 0; i < calls; i++) (*env)->DeleteLocalRef(env, (*env)->AllocObject(env, type));
    else if (strcmp(words[1], "field_set") == 0)
        for (unsigned long i = 0; i < calls; i++) (*env)->SetObjectArrayElement(env, fields, 1, first);
    else
        return 2;
    printf("%.2f\n", (now() - start) / (double)calls * 1e9);
    (*machine)->DestroyJavaVM(machine);
    return 0;
}
