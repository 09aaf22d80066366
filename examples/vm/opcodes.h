/* Opcodes by their mnemonics (JVMS 6.5), from 0 on, and after them those that the interpreter writes over them. */
#ifndef OPCODES_H
#define OPCODES_H

enum opcode {
    OP_nop, OP_aconst_null, OP_iconst_m1, OP_iconst_0, OP_iconst_1, OP_iconst_2, OP_iconst_3, OP_iconst_4, OP_iconst_5, OP_lconst_0, OP_lconst_1,
    OP_fconst_0, OP_fconst_1, OP_fconst_2, OP_dconst_0, OP_dconst_1, OP_bipush, OP_sipush, OP_ldc, OP_ldc_w, OP_ldc2_w, OP_iload, OP_lload, OP_fload,
    OP_dload, OP_aload, OP_iload_0, OP_iload_1, OP_iload_2, OP_iload_3, OP_lload_0, OP_lload_1, OP_lload_2, OP_lload_3, OP_fload_0, OP_fload_1,
    OP_fload_2, OP_fload_3, OP_dload_0, OP_dload_1, OP_dload_2, OP_dload_3, OP_aload_0, OP_aload_1, OP_aload_2, OP_aload_3, OP_iaload, OP_laload,
    OP_faload, OP_daload, OP_aaload, OP_baload, OP_caload, OP_saload, OP_istore, OP_lstore, OP_fstore, OP_dstore, OP_astore, OP_istore_0,
    OP_istore_1, OP_istore_2, OP_istore_3, OP_lstore_0, OP_lstore_1, OP_lstore_2, OP_lstore_3, OP_fstore_0, OP_fstore_1, OP_fstore_2, OP_fstore_3,
    OP_dstore_0, OP_dstore_1, OP_dstore_2, OP_dstore_3, OP_astore_0, OP_astore_1, OP_astore_2, OP_astore_3, OP_iastore, OP_lastore, OP_fastore,
    OP_dastore, OP_aastore, OP_bastore, OP_castore, OP_sastore, OP_pop, OP_pop2, OP_dup, OP_dup_x1, OP_dup_x2, OP_dup2, OP_dup2_x1, OP_dup2_x2,
    OP_swap, OP_iadd, OP_ladd, OP_fadd, OP_dadd, OP_isub, OP_lsub, OP_fsub, OP_dsub, OP_imul, OP_lmul, OP_fmul, OP_dmul, OP_idiv, OP_ldiv, OP_fdiv,
    OP_ddiv, OP_irem, OP_lrem, OP_frem, OP_drem, OP_ineg, OP_lneg, OP_fneg, OP_dneg, OP_ishl, OP_lshl, OP_ishr, OP_lshr, OP_iushr, OP_lushr, OP_iand,
    OP_land, OP_ior, OP_lor, OP_ixor, OP_lxor, OP_iinc, OP_i2l, OP_i2f, OP_i2d, OP_l2i, OP_l2f, OP_l2d, OP_f2i, OP_f2l, OP_f2d, OP_d2i, OP_d2l,
    OP_d2f, OP_i2b, OP_i2c, OP_i2s, OP_lcmp, OP_fcmpl, OP_fcmpg, OP_dcmpl, OP_dcmpg, OP_ifeq, OP_ifne, OP_iflt, OP_ifge, OP_ifgt, OP_ifle,
    OP_if_icmpeq, OP_if_icmpne, OP_if_icmplt, OP_if_icmpge, OP_if_icmpgt, OP_if_icmple, OP_if_acmpeq, OP_if_acmpne, OP_goto, OP_jsr, OP_ret,
    OP_tableswitch, OP_lookupswitch, OP_ireturn, OP_lreturn, OP_freturn, OP_dreturn, OP_areturn, OP_return, OP_getstatic, OP_putstatic, OP_getfield,
    OP_putfield, OP_invokevirtual, OP_invokespecial, OP_invokestatic, OP_invokeinterface, OP_invokedynamic, OP_new, OP_newarray, OP_anewarray,
    OP_arraylength, OP_athrow, OP_checkcast, OP_instanceof, OP_monitorenter, OP_monitorexit, OP_wide, OP_multianewarray, OP_ifnull, OP_ifnonnull,
    OP_goto_w, OP_jsr_w
};

/* No class file has these. B, C, S, I, J and A say how wide what is read or written is, as in descriptors; A is a reference. */
enum quick_opcode {
    QUICK_BEFORE = 202, /* breakpoint is reserved (6.2) */
    QUICK_LDC, QUICK_LDC_W, QUICK_GETFIELD_B, QUICK_GETFIELD_C, QUICK_GETFIELD_S, QUICK_GETFIELD_I, QUICK_GETFIELD_J, QUICK_GETFIELD_A,
    QUICK_PUTFIELD_B, QUICK_PUTFIELD_S, QUICK_PUTFIELD_I, QUICK_PUTFIELD_J, QUICK_PUTFIELD_A, QUICK_GETSTATIC_B, QUICK_GETSTATIC_C,
    QUICK_GETSTATIC_S, QUICK_GETSTATIC_I, QUICK_GETSTATIC_J, QUICK_GETSTATIC_A, QUICK_PUTSTATIC_B, QUICK_PUTSTATIC_S, QUICK_PUTSTATIC_I,
    QUICK_PUTSTATIC_J, QUICK_PUTSTATIC_A, QUICK_GETFIELD_VOLATILE, QUICK_PUTFIELD_VOLATILE, QUICK_GETSTATIC_VOLATILE, QUICK_PUTSTATIC_VOLATILE,
    QUICK_NEW, QUICK_CHECKCAST, QUICK_INSTANCEOF, QUICK_ANEWARRAY, QUICK_INVOKE, QUICK_INVOKE_LONG
};

#endif
