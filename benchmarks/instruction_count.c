/* A plugin for QEMU's emulator of programs: counts the instructions of the program that runs, and
 * tells them where the program asks.
 *
 * use: qemu-x86_64 -plugin THIS.so PROGRAM ...     built for the machine itself, not for x86-64
 *
 * A program asks by a write of no bytes, which does nothing else: see marks.h. The answer is a
 * number of 8 bytes, written to the file descriptor of that write: the instructions since the
 * program asked before. An instruction that repeats itself counts as often as it is repeated.
 *
 * Debian has no header for plugins: what is used of QEMU is declared here. PLUGIN_VERSION is 1 for
 * QEMU 7 and 8, and 2 for QEMU from 9 on. */
#include <stddef.h>
#include <stdint.h>
#include <unistd.h>

#define SEEN_BY_QEMU __attribute__((visibility("default")))

typedef uint64_t plugin_id;
struct block; /* instructions that run one after the other */

typedef void block_translated(plugin_id id, struct block *block);
typedef void block_runs(unsigned processor, void *data);
typedef void system_call(plugin_id id, unsigned processor, int64_t number, uint64_t a1, uint64_t a2,
                         uint64_t a3, uint64_t a4, uint64_t a5, uint64_t a6, uint64_t a7,
                         uint64_t a8);
enum { NO_REGISTERS = 0 };

void qemu_plugin_register_vcpu_tb_trans_cb(plugin_id id, block_translated *call);
void qemu_plugin_register_vcpu_tb_exec_cb(struct block *block, block_runs *call, int registers,
                                          void *data);
void qemu_plugin_register_vcpu_syscall_cb(plugin_id id, system_call *call);
size_t qemu_plugin_tb_n_insns(const struct block *block);

extern SEEN_BY_QEMU int qemu_plugin_version;
int qemu_plugin_version = PLUGIN_VERSION;
SEEN_BY_QEMU int qemu_plugin_install(plugin_id id, const void *machine, int count, char **words);

enum { X86_64_WRITE = 1 }; /* the system call's number */

static uint64_t instructions;

/* The data is the number of instructions itself. */
static void add_block(unsigned processor, void *data)
{
    (void)processor;
    instructions += (uintptr_t)data;
}

static void count_block(plugin_id id, struct block *block)
{
    (void)id;
    qemu_plugin_register_vcpu_tb_exec_cb(block, add_block, NO_REGISTERS,
                                         (void *)(uintptr_t)qemu_plugin_tb_n_insns(block));
}

/* Nothing is told where nothing can be written: then the program finds no answer. */
static void tell(plugin_id id, unsigned processor, int64_t number, uint64_t descriptor,
                 uint64_t bytes, uint64_t length, uint64_t a4, uint64_t a5, uint64_t a6,
                 uint64_t a7, uint64_t a8)
{
    (void)id, (void)processor, (void)bytes, (void)a4, (void)a5, (void)a6, (void)a7, (void)a8;
    if (number != X86_64_WRITE || length != 0)
        return;
    if (write((int)descriptor, &instructions, sizeof instructions) == sizeof instructions)
        instructions = 0;
}

int qemu_plugin_install(plugin_id id, const void *machine, int count, char **words)
{
    (void)machine, (void)count, (void)words;
    qemu_plugin_register_vcpu_tb_trans_cb(id, count_block);
    qemu_plugin_register_vcpu_syscall_cb(id, tell);
    return 0;
}
