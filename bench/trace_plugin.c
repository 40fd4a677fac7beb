/* A plugin for qemu-user that hashes what a program does while it asks for it: the addresses of the
 * instructions in the order executed, and the addresses of the loads and stores in the order made.
 *
 * usage: qemu-x86_64 -plugin trace_plugin.so,page=FILE PROGRAM FILE */
#define _XOPEN_SOURCE 700
#include "page.h"
#include "qemu_plugin.h"


QEMU_PLUGIN_EXPORT int qemu_plugin_version = 1;

static volatile struct trace_page *page;

/* The shift brings high bits down again, so that every bit of every value reaches all of the hash. */
static uint64_t mix(uint64_t hash, uint64_t value)
{
    hash = (hash ^ value) * UINT64_C(0x9fb21c651e98df25);
    return hash ^ hash >> 32;
}

static void executed(unsigned cpu, void *address)
{
    (void)cpu;
    if (!page->recording)
        return;
    page->code = mix(page->code, (uint64_t)(uintptr_t)address);
    page->code_length++;
}

static void accessed(unsigned cpu, qemu_plugin_meminfo_t info, uint64_t address, void *given)
{
    (void)cpu;
    (void)given;
    if (!page->recording)
        return;
    page->accesses = mix(page->accesses, address << 1 | (qemu_plugin_mem_is_store(info) ? 1 : 0));
    page->access_length++;
}

static void translated(qemu_plugin_id_t id, struct qemu_plugin_tb *code)
{
    (void)id;
    for (size_t i = 0; i < qemu_plugin_tb_n_insns(code); i++) {
        struct qemu_plugin_insn *insn = qemu_plugin_tb_get_insn(code, i);
        void *address = (void *)(uintptr_t)qemu_plugin_insn_vaddr(insn);
        qemu_plugin_register_vcpu_insn_exec_cb(insn, executed, QEMU_PLUGIN_CB_NO_REGS, address);
        qemu_plugin_register_vcpu_mem_cb(insn, accessed, QEMU_PLUGIN_CB_NO_REGS, QEMU_PLUGIN_MEM_RW, NULL);
    }
}

QEMU_PLUGIN_EXPORT int qemu_plugin_install(qemu_plugin_id_t id, const qemu_info_t *info, int count, char **words)
{
    (void)info;
    page = page_named(count, words, sizeof *page);
    if (page == NULL)
        return 1;
    qemu_plugin_register_vcpu_tb_trans_cb(id, translated);
    return 0;
}
