// How much of its own stack the compiler takes on the program in a file.
#include <pthread.h>
#include <stdint.h>
#include <stdio.h>
#include <stdlib.h>
#include <string.h>

int64_t yongidra_compile(const uint8_t *text, size_t length, uint32_t *code, size_t room);

#define STACK (8u << 20)
#define ROOM (48 * 8192 + 64)

static uint8_t text[16 << 20];
static size_t length;
static uint32_t code[ROOM];
static int64_t answer;

static void *compile(void *unused) {
    (void)unused;
    answer = yongidra_compile(text, length, code, ROOM);
    return NULL;
}

static void *nothing(void *unused) { return unused; }

static size_t used(void *(*f)(void *)) {
    uint8_t *stack = aligned_alloc(4096, STACK);
    pthread_attr_t attributes;
    pthread_t thread;
    size_t left = 0;
    memset(stack, 0xa5, STACK);
    pthread_attr_init(&attributes);
    pthread_attr_setstack(&attributes, stack, STACK);
    pthread_create(&thread, &attributes, f, NULL);
    pthread_join(thread, NULL);
    while (left < STACK && stack[left] == 0xa5) left++;
    free(stack);
    return STACK - left;
}

int main(int argc, char **argv) {
    FILE *in = argc > 1 ? fopen(argv[1], "rb") : NULL;
    size_t thread;
    if (!in) return 1;
    length = fread(text, 1, sizeof text, in);
    thread = used(nothing);
    printf("%zu bytes of stack, ", used(compile) - thread);
    printf("answer %lld\n", (long long)answer);
    return 0;
}
