/* The project's own text of a word: `xv_page_instruction` of the page's module, which wasm2c has made C of (page.h). */
#include "page.h"
#include "texts.h"

enum { ROOM = 64 };

static Z_page_instance_t module;
static u64 room;
static char text[TEXT_BYTES];

void ours_begin(void)
{
    wasm_rt_init();
    Z_page_init_module();
    Z_page_instantiate(&module);
    room = Z_pageZ_page_take(&module, ROOM);
}

const char *ours_text(uint32_t word)
{
    u64 length = Z_pageZ_xv_page_instruction(&module, word, 0, room, ROOM);
    memcpy(text, module.w2c_memory.data + room, length);
    text[length] = 0;
    return text;
}
