#!/usr/bin/env python3
"""Adds to TinyCC's source what the machine needs, in lines of our own: insert.py FOLDER. Each place is looked for, and has to be there once.

- The machine multiplies and divides by functions of the library, as gcc's programs do: the back end would write instructions of the
  extension M.
- There are no registers for fractions: what needs one is a mistake of the source, and no instruction of the extensions F and D is
  written.
- A constant of a pointer's type has 64 bits, a structure that goes in registers is loaded at a multiple of eight, a signed character that
  becomes an unsigned short number loses its sign, and unnamed arguments are found behind more than eight named ones.
- What is told of variables for debuggers is told of structures that are handed on by their address, too, and of each structure as it is.
- What would be compiled wrongly else, or to a load that the machine refuses, is refused: packed structures, bit fields of long, arrays whose
  length isn't a constant, cases above 2^63, structures without members as arguments, assembler with operands.
"""
import pathlib
import re
import sys

FRACTIONS = '''
/* What stands here would take a register for fractions. */
static void refuse_fractions(int type)
{
    if (is_float(type))
        tcc_error("float and double aren't there: the machine has whole numbers alone (RV64I)");
}

/* The function of the library that does an operation; NULL if an instruction does it. */
static const char *function_of(int op, int has_64_bits)
{
    switch (op) {
    case '*': return has_64_bits ? "__muldi3" : "__mulsi3";
    case '/': case TOK_PDIV: return has_64_bits ? "__divdi3" : "__divsi3";
    case '%': return has_64_bits ? "__moddi3" : "__modsi3";
    case TOK_UDIV: return has_64_bits ? "__udivdi3" : "__udivsi3";
    case TOK_UMOD: return has_64_bits ? "__umoddi3" : "__umodsi3";
    default: return NULL;
    }
}
'''

CALL = '''    {
        const char *name = function_of(op, ll == 0);
        if (name) {
            vpush_global_sym(&func_old_type, tok_alloc(name, strlen(name))->tok);
            vrott(3);
            gfunc_call(2);
            vpushi(0);
            vtop->r = REG_IRET;
            if (ll)
                EI(0x1b, 0, ireg(REG_IRET), ireg(REG_IRET), 0); /* its upper half is the sign */
            else
                vtop->type.t = VT_LLONG;
            return;
        }
    }
'''

# A structure goes in registers as whole ones of eight bytes, which the machine loads at multiples of eight alone.
COPY = '''    for (i = 0; i < nb_args; i++) {
        CType its = vtop[1 + i - nb_args].type;
        size = type_size(&its, &align);
        if ((its.t & VT_BTYPE) == VT_STRUCT && size == 0)
            tcc_error("a structure without members can't be handed on");
        if ((its.t & VT_BTYPE) != VT_STRUCT || size > 2 * XLEN || align >= XLEN || size <= align)
            continue;
        loc = (loc - 2 * XLEN) & -XLEN;
        vrotb(nb_args - i);
        vset(&its, VT_LOCAL | VT_LVAL, loc);
        vswap();
        vstore();
        vpop();
        vset(&its, VT_LOCAL | VT_LVAL, loc);
        vrott(nb_args - i);
    }
'''

# A signed character that lies in memory is loaded with its sign, and an unsigned short number has none.
NARROW = '''            if (ds == 2 && ss == 1 && (dbt & VT_UNSIGNED) && !(sbt & VT_UNSIGNED)) {
                gv(RC_INT);
                vtop->type.t = VT_INT;
                vpushi(0xffff);
                gen_op('&');
                goto done;
            }
'''

# What is refused, since it would be compiled wrongly, or so that the machine's hart refuses it.
PACKED = '''            tcc_error("packed structures aren't there: a load at an address that is no multiple of its size is a fault");
'''
LONG_FIELDS = '''                        if ((type1.t & VT_BTYPE) == VT_LLONG)
                            tcc_error("bit fields of long aren't there: take int");
'''
VARIABLE = '''                tcc_error("arrays whose length isn't a constant aren't there: take malloc");
'''
CASES = '''        if ((cur_switch->sv.type.t & (VT_BTYPE | VT_UNSIGNED)) == (VT_LLONG | VT_UNSIGNED) && (cr->v1 < 0 || cr->v2 < 0))
            tcc_error("a case above 9223372036854775807 isn't there: take if");
'''
ASSEMBLER = '''    if (nb_operands > 0)
        asm_error();
'''

# Unnamed arguments lie at multiples of eight, behind named ones that a register didn't take.
UNNAMED = "    func_va_list_ofs = (func_va_list_ofs + XLEN - 1) & -XLEN;\n"
PACK = '''        tcc_error("#pragma pack isn't there: a load at an address that is no multiple of its size is a fault");
'''

# A structure that is handed on by its address is told, too. What is known of structures is told anew with each group of variables: those
# of a block that has ended have given their memory to others.
HANDED_ON = '''        if (s->v && (s->r & VT_VALMASK) == VT_LLOCAL) {
            cstr_reset (&debug_str);
            cstr_printf (&debug_str, "%s:v", get_tok_str(s->v, NULL));
            tcc_get_debug_info(s1, s, &debug_str);
            tcc_debug_stabs(s1, debug_str.data, N_PSYM, s->c, NULL, 0);
            continue;
        }
'''
ANEW = "    n_debug_hash = 0;\n"

# By file, behind what (a pattern) which text is inserted.
BEHIND = {
    "riscv64-gen.c": [
        (r"#define TREG_SP 18\n(?=\nST_DATA)", FRACTIONS),
        (r"ST_FUNC void load\(int r, SValue \*sv\)\n\{\n(?:    int .*\n)+", '''    refuse_fractions(sv->type.t);
    if (bt == VT_PTR)
        bt = VT_LLONG;
'''),
        (r"ST_FUNC void store\(int r, SValue \*sv\)\n\{\n(?:    int .*\n)+", "    refuse_fractions(sv->type.t);\n"),
        (r"static void reg_pass_rec\(.*\)\n\{\n", "    refuse_fractions(type->t);\n"),
        (r"ST_FUNC void gen_opf\(int op\)\n\{\n(?:    int .*\n)+", "    refuse_fractions(VT_DOUBLE);\n"),
        (r"ST_FUNC void gen_cvt_itof\(int t\)\n\{\n", "    refuse_fractions(VT_DOUBLE);\n"),
        (r"ST_FUNC void gen_cvt_ftoi\(int t\)\n\{\n", "    refuse_fractions(VT_DOUBLE);\n"),
        (r"ST_FUNC void gen_cvt_ftof\(int dt\)\n\{\n", "    refuse_fractions(VT_DOUBLE);\n"),
        (r"(?=    gv2\(RC_INT, RC_INT\);\n    a = ireg\(vtop\[-1\])", CALL),
        (r"(?=    areg\[0\] = 0; /\* int arg regs \*/\n)", COPY),
        (r"    \*regsize = 8;\n", "    *ret_align = XLEN;\n"),
        (r"    func_va_list_ofs = addr;\n", UNNAMED),
    ],
    "tccgen.c": [
        (r"(?=            /\* ss <= 4 here \*/\n)", NARROW),
        (r"        case TOK_PACKED2:\n", PACKED),
        (r"                        bit_size = expr_const\(\);\n", LONG_FIELDS),
        (r"                    tcc_error\(\"size of variable length array should be an integer\"\);\n", VARIABLE),
        (r"                tcc_warning\(\"empty case range\"\);\n        \}\n", CASES),
        (r"    for \(; s != e; s = s->prev\) \{\n(?=        if \(!s->v \|\| .*\n            continue;\n        cstr_reset )", HANDED_ON),
        (r"static void tcc_add_debug_info\(.*\)\n\{\n    CString debug_str;\n", ANEW),
        (r"    Section \*s = s1->sections\[sh_num\];\n    CString str;\n(?=\n    cstr_new \(&str\);\n    cstr_printf \(&str, \"%s:%c\",)", ANEW),
    ],
    "riscv64-asm.c": [(r"ST_FUNC void asm_compute_constraints\([^)]*\)\n\{\n", ASSEMBLER)],
    "tccpp.c": [(r"    \} else if \(tok == TOK_pack\) \{\n", PACK)],
}


def insert(path, places):
    text = path.read_text(encoding="latin-1")
    for pattern, ours in places:
        found = list(re.finditer(pattern, text))
        if len(found) != 1:
            sys.exit(f"insert.py: {path} has {len(found)} places in which {pattern!r} fits")
        text = text[:found[0].end()] + ours + text[found[0].end():]
    path.write_text(text, encoding="latin-1")


for name, places in BEHIND.items():
    insert(pathlib.Path(sys.argv[1]) / name, places)
