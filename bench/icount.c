/* icount.c: counts the instructions of an x86-64 program on any processor, as a plugin of qemu-user.
 *
 *   cc -O2 -shared -fPIC -DVERSION=1 icount.c -o icount.so      (VERSION: 2 from qemu 9 on)
 *   qemu-x86_64 -plugin ./icount.so PROGRAM                     ('instructions N' on standard error)
 *
 * What is counted lies between a first and a second call of getppid, a third and a fourth, and so on; the
 * whole run, where a program never calls it. A system call needs no symbols, so it is found in any program,
 * however it is linked and started. Instructions are counted one by one: blocks of them may be left in their middle.
 */
#include <stdbool.h>
#include <stddef.h>
#include <stdint.h>
#include <stdio.h>

/* the part of qemu's plugin interface that is used here, the same in all its versions */
typedef uint64_t Id, Word;
struct block;
struct instruction;
int qemu_plugin_version = VERSION;
void qemu_plugin_register_vcpu_tb_trans_cb(Id, void (*)(Id, struct block *));
size_t qemu_plugin_tb_n_insns(const struct block *);
struct instruction *qemu_plugin_tb_get_insn(const struct block *, size_t);
void qemu_plugin_register_vcpu_insn_exec_cb(struct instruction *, void (*)(unsigned, void *), int, void *);
void qemu_plugin_register_vcpu_syscall_cb(
    Id, void (*)(Id, unsigned, int64_t, Word, Word, Word, Word, Word, Word, Word, Word));
void qemu_plugin_register_atexit_cb(Id, void (*)(Id, void *), void *);

enum { GETPPID = 110 }; /* its number on x86-64 */
static uint64_t whole, inside;
static bool on, marked;

static void executed(unsigned cpu, void *none) {
    (void)cpu, (void)none;
    whole++;
    inside += on;
}
static void translated(Id id, struct block *block) {
    (void)id;
    for (size_t i = 0; i < qemu_plugin_tb_n_insns(block); i++)
        qemu_plugin_register_vcpu_insn_exec_cb(qemu_plugin_tb_get_insn(block, i), executed, 0, NULL);
}
static void called(Id id, unsigned cpu, int64_t number, Word a, Word b, Word c, Word d, Word e, Word f, Word g, Word h) {
    (void)id, (void)cpu, (void)a, (void)b, (void)c, (void)d, (void)e, (void)f, (void)g, (void)h;
    if (number == GETPPID) on = !on, marked = true;
}
static void ended(Id id, void *none) {
    (void)id, (void)none;
    fprintf(stderr, "instructions %llu\n", (unsigned long long)(marked ? inside : whole));
}

int qemu_plugin_install(Id id, const void *info, int argc, char **argv) {
    (void)info, (void)argc, (void)argv;
    qemu_plugin_register_vcpu_tb_trans_cb(id, translated);
    qemu_plugin_register_vcpu_syscall_cb(id, called);
    qemu_plugin_register_atexit_cb(id, ended, NULL);
    return 0;
}
