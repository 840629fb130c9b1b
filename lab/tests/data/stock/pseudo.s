# Every pseudo-instruction but call, forth and back, with names of the ABI.
        .option nopic
        .equ    LESS, 4
        .globl  _start
_start: nop
        li      a0, LESS
        la      a1, _start              // behind
        la      s11, message            # in another section
        lla     t6, after
        mv      fp, s0
        not     a0, a1
        neg     a0, a1
        negw    a0, a1
        sext.b  a0, a1
        sext.h  a0, a1
        sext.w  a0, a1
        zext.b  a0, a1
        zext.h  a0, a1
        zext.w  a0, a1
        seqz    a0, a1
        snez    a0, a1
        sltz    a0, a1
        sgtz    a0, a1
        sgt     a0, a1, a2
        sgtu    a0, a1, a2
behind: beqz    a0, behind
        bnez    a1, after
        blez    a2, behind
        bgez    a3, after
        bltz    a4, behind
        bgtz    a5, after
        bgt     t0, t1, behind
        ble     t0, t1, after
        bgtu    t2, t3, behind
        bleu    t2, t3, after
        beq     s2, s3, behind
        j       behind
        jal     behind
        jal     after
        jal     t0, after
after:  j       after + 8
        jr      t1
        jalr    t2
        jalr    a0, 4(a1)
        ret
        csrr    a0, vstart
        csrr    a0, vxsat
        csrr    a0, vxrm
        csrr    a0, vcsr
        csrr    a0, vl
        csrr    a0, vtype
        csrr    a0, vlenb
        csrr    a0, 0xc22
        csrw    vstart, a0
        csrs    vcsr, a1
        csrc    vxsat, a2
        csrwi   vxrm, 3
        csrsi   vxsat, 1
        csrci   vcsr, 0x1f
        lw      a0, (sp)
        sd      ra, (sp)
        lw      a0, LESS+LESS(sp)
        sd      ra, -LESS(sp)
        vle32.v v8, 0(a0)
        vse32.v v8, 0(a0), v0.t
        vlse32.v v8, 0(a0), a1
        vluxei16.v v8, (a0), v4, v0.t
        vneg.v  v1, v2
        vneg.v  v1, v2, v0.t
        vnot.v  v1, v2
        vnot.v  v1, v2, v0.t
        vwcvt.x.x.v v2, v4
        vwcvt.x.x.v v2, v4, v0.t
        vwcvtu.x.x.v v2, v4
        vwcvtu.x.x.v v2, v4, v0.t
        vncvt.x.x.w v1, v2
        vncvt.x.x.w v1, v2, v0.t
        vmmv.m  v1, v2
        vmclr.m v1
        vmset.m v1
        vmnot.m v1, v2
        vmandnot.mm v1, v2, v3
        vmornot.mm v1, v2, v3
        vpopc.m a0, v1
        vpopc.m a0, v1, v0.t
        vl1r.v  v1, (a0)
        vl2r.v  v2, (a0)
        vl4r.v  v4, (a0)
        vl8r.v  v8, (a0)
        vle1.v  v1, (a0)
        vse1.v  v1, (a0)
        vmsgt.vv v1, v2, v3
        vmsgt.vv v1, v2, v3, v0.t
        vmsgtu.vv v1, v2, v3
        vmsgtu.vv v1, v2, v3, v0.t
        vmsge.vv v1, v2, v3
        vmsge.vv v1, v2, v3, v0.t
        vmsgeu.vv v1, v2, v3
        vmsgeu.vv v1, v2, v3, v0.t
        vmslt.vi v1, v2, -15
        vmslt.vi v1, v2, 16
        vmslt.vi v1, v2, 0
        vmslt.vi v1, v2, LESS, v0.t
        vmsltu.vi v1, v2, 5
        vmsltu.vi v1, v2, 0
        vmsltu.vi v1, v2, 0, v0.t
        vmsge.vi v1, v2, -15
        vmsge.vi v1, v2, 0
        vmsge.vi v1, v2, 16, v0.t
        vmsgeu.vi v1, v2, 16
        vmsgeu.vi v1, v2, 0
        vmsgeu.vi v1, v2, 0, v0.t
        vmsge.vx v1, v2, a0
        vmsge.vx v1, v2, a0, v0.t
        vmsge.vx v0, v2, a0, v0.t, v3
        vmsge.vx v1, v2, a0, v0.t, v3
        vmsgeu.vx v1, v2, a0
        vmsgeu.vx v1, v2, a0, v0.t
        vmsgeu.vx v0, v2, a0, v0.t, v3
        vmsgeu.vx v1, v2, a0, v0.t, v3
        .data
message: .string "here"
