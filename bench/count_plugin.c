/* A plugin for qemu-user that counts executed guest instructions into a page shared with the program.
 *
 * usage: qemu-x86_64 -plugin count_plugin.so,page=FILE PROGRAM FILE */
#define _XOPEN_SOURCE 700
#include "page.h"
#include "qemu_plugin.h"


QEMU_PLUGIN_EXPORT int qemu_plugin_version = 1;

static struct count_page *page;

/* One addition for each instruction, not for each code block, so that a reading in the middle of a
 * block is exact. */
static void translated(qemu_plugin_id_t id, struct qemu_plugin_tb *code)
{
    (void)id;
    for (size_t i = 0; i < qemu_plugin_tb_n_insns(code); i++)
        qemu_plugin_register_vcpu_insn_exec_inline(qemu_plugin_tb_get_insn(code, i), QEMU_PLUGIN_INLINE_ADD_U64,
                                                   &page->instructions, 1);
}

QEMU_PLUGIN_EXPORT int qemu_plugin_install(qemu_plugin_id_t id, const qemu_info_t *info, int count, char **words)
{
    (void)info;
    page = page_named(count, words, sizeof *page);
    if (page == NULL)
        return 1;
    qemu_plugin_register_vcpu_tb_trans_cb(id, translated);
    return 0;
}
