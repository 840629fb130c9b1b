# Each name of docs/INSTRUCTIONS.md, with drawn operands.
label_0:
        lui gp, 1022305
        auipc t5, 310879
        jal gp, label_1
        jalr x5, -16(t0)
        beq s1, x5, label_0
        bne t2, s7, label_1
        blt s2, tp, label_0
        bge s9, a7, label_1
        bltu a7, s9, label_0
        bgeu a5, x5, label_0
        lb ra, 1(tp)
        lh a2, 0(t2)
        lw a2, 8(s5)
        ld gp, 5(t2)
        lbu a3, 6(t4)
        lhu zero, 4(a2)
label_1:
        lwu s2, -3(t3)
        sb s10, -16(s10)
        sh s2, -6(fp)
        sw a1, -5(x0)
        sd t6, -7(s1)
        addi a7, s5, 15
        slti t3, t0, -16
        sltiu s1, zero, 12
        xori s6, s11, 10
        ori t0, s8, 6
        andi x31, ra, -12
        slli t4, s5, 30
        srli s6, t1, 30
        srai t6, zero, 1
        addiw x0, t4, -6
        slliw s5, s5, 30
label_2:
        srliw t3, fp, 0
        sraiw s10, s5, 31
        add fp, s2, s3
        sll s9, s4, s3
        slt a4, s11, s6
        sltu gp, a6, s3
        xor x5, s10, s6
        srl sp, a1, t0
        or zero, s2, s9
        and x0, a5, t4
        sub a1, a5, x5
        sra t0, zero, fp
        addw a2, t6, s1
        sllw x0, s6, gp
        srlw a1, s8, sp
        subw s10, a5, a7
label_3:
        sraw s4, a4, s0
        fence
        ecall
        ebreak
        mul t1, ra, a7
        mulh a1, s5, a7
        mulhsu x0, x5, s6
        mulhu t1, s3, a2
        div t6, a4, a5
        divu s7, s2, t1
        rem a4, t2, a1
        remu x0, s10, s0
        mulw a5, t6, x5
        divw a1, zero, s3
        divuw s0, s0, s11
        remw ra, x31, a3
label_4:
        remuw a6, t3, t6
        csrrw t4, vlenb, t0
        csrrs s2, vcsr, t5
        csrrc a1, vl, s6
        csrrwi t2, vl, 31
        csrrsi a0, vlenb, 31
        csrrci x0, vstart, 9
        vsetvli s0, s1, e16, mf8, tu, mu
        vsetivli t3, 1, e64, mf2, ta, mu
        vsetvl s5, t2, s10
        vadd.vv v8, v16, v17
        vadd.vx v8, v0, s4
        vadd.vi v24, v16, -15, v0.t
        vsub.vv v24, v0, v17, v0.t
        vsub.vx v8, v16, a3, v0.t
        vrsub.vx v24, v16, t0
label_5:
        vrsub.vi v8, v16, 12, v0.t
        vminu.vv v8, v16, v4, v0.t
        vminu.vx v8, v0, sp
        vmin.vv v8, v0, v1, v0.t
        vmin.vx v24, v16, s3
        vmaxu.vv v24, v0, v2
        vmaxu.vx v24, v16, s7
        vmax.vv v8, v0, v3, v0.t
        vmax.vx v8, v16, t2
        vand.vv v8, v0, v2, v0.t
        vand.vx v8, v16, t5, v0.t
        vand.vi v24, v0, 4, v0.t
        vor.vv v8, v0, v17
        vor.vx v8, v0, a2, v0.t
        vor.vi v24, v16, -5, v0.t
        vxor.vv v8, v16, v2
label_6:
        vxor.vx v24, v0, s11, v0.t
        vxor.vi v24, v16, -8
        vsll.vv v24, v0, v2
        vsll.vx v8, v0, ra
        vsll.vi v24, v0, 0
        vsrl.vv v24, v0, v4
        vsrl.vx v24, v0, s4
        vsrl.vi v24, v0, 0
        vsra.vv v24, v0, v0, v0.t
        vsra.vx v8, v0, s4
        vsra.vi v8, v16, 0, v0.t
        vdivu.vv v24, v16, v3, v0.t
        vdivu.vx v24, v0, t3
        vdiv.vv v8, v16, v17, v0.t
        vdiv.vx v24, v0, a1
        vremu.vv v24, v16, v1
label_7:
        vremu.vx v8, v0, a7
        vrem.vv v24, v0, v31, v0.t
        vrem.vx v24, v0, zero
        vmulhu.vv v8, v16, v3
        vmulhu.vx v24, v16, t2
        vmul.vv v8, v16, v17
        vmul.vx v24, v0, zero, v0.t
        vmulhsu.vv v8, v0, v1, v0.t
        vmulhsu.vx v8, v0, s6, v0.t
        vmulh.vv v24, v16, v3, v0.t
        vmulh.vx v8, v0, t3
        vadc.vvm v24, v16, v4, v0
        vadc.vxm v24, v0, tp, v0
        vadc.vim v24, v16, 2, v0
        vmadc.vvm v8, v0, v17, v0
        vmadc.vxm v24, v0, a1, v0
label_8:
        vmadc.vim v24, v0, -11, v0
        vmadc.vv v8, v16, v31
        vmadc.vx v8, v0, t6
        vmadc.vi v24, v0, 10
        vsbc.vvm v8, v16, v0, v0
        vsbc.vxm v24, v16, s7, v0
        vmsbc.vvm v8, v0, v0, v0
        vmsbc.vxm v8, v0, fp, v0
        vmsbc.vv v24, v16, v2
        vmsbc.vx v24, v16, t2
        vmerge.vvm v8, v16, v0, v0
        vmerge.vxm v8, v16, s0, v0
        vmerge.vim v24, v16, -7, v0
        vmv.v.v v24, v17
        vmv.v.x v24, s4
        vmv.v.i v8, -9
label_9:
        vmseq.vv v8, v0, v2, v0.t
        vmseq.vx v8, v0, a0
        vmseq.vi v24, v0, 0, v0.t
        vmsne.vv v8, v0, v0
        vmsne.vx v8, v0, s11
        vmsne.vi v8, v0, -5
        vmsltu.vv v8, v0, v1, v0.t
        vmsltu.vx v8, v16, t0
        vmslt.vv v8, v0, v3, v0.t
        vmslt.vx v8, v0, s3, v0.t
        vmsleu.vv v24, v16, v31
        vmsleu.vx v8, v16, x5
        vmsleu.vi v8, v16, 5
        vmsle.vv v24, v16, v1, v0.t
        vmsle.vx v8, v16, x5
        vmsle.vi v24, v0, -3, v0.t
label_10:
        vmsgtu.vx v24, v16, sp
        vmsgtu.vi v8, v0, -16
        vmsgt.vx v8, v0, s6
        vmsgt.vi v8, v0, -14
        vmadd.vv v24, v2, v16, v0.t
        vmadd.vx v24, x0, v0, v0.t
        vnmsub.vv v8, v4, v0, v0.t
        vnmsub.vx v24, zero, v0, v0.t
        vmacc.vv v8, v31, v16, v0.t
        vmacc.vx v24, s9, v0, v0.t
        vnmsac.vv v24, v0, v0, v0.t
        vnmsac.vx v24, sp, v16, v0.t
        vzext.vf8 v8, v0
        vsext.vf8 v24, v0, v0.t
        vzext.vf4 v24, v0, v0.t
        vsext.vf4 v24, v0
label_11:
        vzext.vf2 v8, v0
        vsext.vf2 v24, v16
        vsaddu.vv v24, v16, v17
        vsaddu.vx v24, v16, s4
        vsaddu.vi v8, v16, 1
        vsadd.vv v24, v0, v31
        vsadd.vx v8, v0, s10
        vsadd.vi v24, v0, -14
        vssubu.vv v24, v16, v31, v0.t
        vssubu.vx v24, v16, sp, v0.t
        vssub.vv v8, v16, v31, v0.t
        vssub.vx v24, v0, s3, v0.t
        vsmul.vv v24, v0, v17, v0.t
        vsmul.vx v8, v16, fp
        vssrl.vv v8, v16, v2, v0.t
        vssrl.vx v24, v0, t6
label_12:
        vssrl.vi v8, v0, 31
        vssra.vv v24, v0, v0, v0.t
        vssra.vx v8, v16, a5, v0.t
        vssra.vi v8, v0, 0, v0.t
        vaaddu.vv v24, v0, v1, v0.t
        vaaddu.vx v24, v16, t1, v0.t
        vaadd.vv v8, v0, v17
        vaadd.vx v8, v16, t3
        vasubu.vv v24, v16, v17
        vasubu.vx v24, v0, a7
        vasub.vv v24, v16, v0
        vasub.vx v24, v16, s6, v0.t
        vnsrl.wv v24, v0, v3
        vnsrl.wx v24, v16, zero
        vnsrl.wi v8, v16, 31, v0.t
        vnsra.wv v8, v16, v31
label_13:
        vnsra.wx v8, v0, zero, v0.t
        vnsra.wi v24, v0, 9, v0.t
        vnclipu.wv v8, v0, v17, v0.t
        vnclipu.wx v24, v16, x5
        vnclipu.wi v8, v16, 1
        vnclip.wv v8, v0, v1, v0.t
        vnclip.wx v24, v16, s3
        vnclip.wi v8, v0, 0, v0.t
        vwaddu.vv v24, v16, v0
        vwaddu.vx v8, v0, a2, v0.t
        vwadd.vv v8, v0, v1, v0.t
        vwadd.vx v24, v0, s8, v0.t
        vwsubu.vv v8, v16, v0, v0.t
        vwsubu.vx v8, v16, gp
        vwsub.vv v24, v0, v2, v0.t
        vwsub.vx v8, v16, sp
label_14:
        vwmulu.vv v24, v16, v0, v0.t
        vwmulu.vx v8, v16, s0
        vwmulsu.vv v24, v0, v2, v0.t
        vwmulsu.vx v8, v0, a1
        vwmul.vv v24, v16, v4, v0.t
        vwmul.vx v8, v16, a1
        vwaddu.wv v24, v16, v17, v0.t
        vwaddu.wx v24, v16, s2, v0.t
        vwadd.wv v24, v16, v2
        vwadd.wx v24, v16, t3
        vwsubu.wv v24, v0, v3, v0.t
        vwsubu.wx v24, v0, t3, v0.t
        vwsub.wv v8, v16, v3, v0.t
        vwsub.wx v8, v0, s5
        vwmaccu.vv v24, v3, v0
        vwmaccu.vx v24, a2, v16
label_15:
        vwmacc.vv v24, v0, v16, v0.t
        vwmacc.vx v8, a7, v0, v0.t
        vwmaccus.vx v8, s5, v16
        vwmaccsu.vv v8, v1, v16
        vwmaccsu.vx v24, s1, v16
        vredsum.vs v8, v16, v17, v0.t
        vredand.vs v24, v0, v3, v0.t
        vredor.vs v24, v0, v2
        vredxor.vs v8, v16, v31, v0.t
        vredminu.vs v24, v0, v3, v0.t
        vredmin.vs v24, v16, v31, v0.t
        vredmaxu.vs v24, v16, v31
        vredmax.vs v24, v0, v4, v0.t
        vwredsumu.vs v24, v0, v1
        vwredsum.vs v24, v0, v0, v0.t
        vmandn.mm v24, v16, v0
label_16:
        vmand.mm v24, v0, v0
        vmor.mm v24, v0, v31
        vmxor.mm v24, v16, v31
        vmorn.mm v8, v16, v2
        vmnand.mm v24, v16, v0
        vmnor.mm v8, v16, v3
        vmxnor.mm v8, v0, v0
        vcpop.m t6, v0
        vfirst.m t1, v0
        vmsbf.m v24, v16
        vmsof.m v24, v0
        vmsif.m v24, v16
        viota.m v24, v0, v0.t
        vid.v v8, v0.t
        vmv.x.s a3, v0
        vmv.s.x v8, x0
label_17:
        vslideup.vx v24, v16, s7
        vslideup.vi v8, v0, 0
        vslidedown.vx v24, v16, s6
        vslidedown.vi v24, v0, 30, v0.t
        vslide1up.vx v8, v16, s6
        vslide1down.vx v8, v16, s9
        vrgather.vv v24, v0, v31, v0.t
        vrgather.vx v8, v16, a1
        vrgather.vi v8, v0, 31
        vrgatherei16.vv v24, v0, v2, v0.t
        vcompress.vm v24, v0, v4
        vmv1r.v v8, v0
        vmv2r.v v8, v16
        vmv4r.v v8, v16
        vmv8r.v v24, v16
        vle8.v v24, 0(zero), v0.t
label_18:
        vle16.v v8, (a0), v0.t
        vle32.v v8, (x5), v0.t
        vle64.v v8, (a5), v0.t
        vle8ff.v v24, 0(fp), v0.t
        vle16ff.v v24, 0(x0), v0.t
        vle32ff.v v24, 0(t6), v0.t
        vle64ff.v v24, 0(s1)
        vse8.v v8, (s3)
        vse16.v v24, (a0)
        vse32.v v24, (a0), v0.t
        vse64.v v8, 0(s2)
        vlse8.v v24, (t0), s10
        vlse16.v v24, (fp), t2
        vlse32.v v24, (s3), s11, v0.t
        vlse64.v v8, (t4), t3, v0.t
        vsse8.v v24, 0(t2), ra, v0.t
label_19:
        vsse16.v v24, 0(s11), x31, v0.t
        vsse32.v v8, 0(s7), s5, v0.t
        vsse64.v v24, (s0), s0, v0.t
        vluxei8.v v24, 0(zero), v0, v0.t
        vluxei16.v v24, 0(ra), v0, v0.t
        vluxei32.v v24, (t4), v0, v0.t
        vluxei64.v v8, 0(s10), v16, v0.t
        vloxei8.v v24, (t1), v0, v0.t
        vloxei16.v v24, (fp), v0
        vloxei32.v v24, (t0), v0
        vloxei64.v v8, (s2), v0, v0.t
        vsuxei8.v v8, (t6), v0, v0.t
        vsuxei16.v v24, (s9), v16, v0.t
        vsuxei32.v v8, (a3), v0
        vsuxei64.v v24, (a6), v16, v0.t
        vsoxei8.v v8, (s2), v0, v0.t
label_20:
        vsoxei16.v v8, (a7), v16
        vsoxei32.v v24, (sp), v16, v0.t
        vsoxei64.v v8, 0(a4), v0
        vlm.v v8, 0(s0)
        vsm.v v24, 0(t6)
        vl1re8.v v8, 0(s3)
        vl1re16.v v24, (sp)
        vl1re32.v v8, 0(a5)
        vl1re64.v v24, 0(s3)
        vl2re8.v v24, (fp)
        vl2re16.v v8, (sp)
        vl2re32.v v8, (x0)
        vl2re64.v v24, (a6)
        vl4re8.v v24, (t1)
        vl4re16.v v8, 0(s4)
        vl4re32.v v24, 0(sp)
label_21:
        vl4re64.v v24, (a5)
        vl8re8.v v24, 0(tp)
        vl8re16.v v24, (a6)
        vl8re32.v v24, (t4)
        vl8re64.v v24, (s5)
        vs1r.v v24, (s9)
        vs2r.v v8, 0(a0)
        vs4r.v v24, (s9)
        vs8r.v v24, 0(s8)
        vlseg2e8.v v8, (s5), v0.t
        vlseg2e16.v v8, 0(gp)
        vlseg2e32.v v24, 0(a1), v0.t
        vlseg2e64.v v8, (a4)
        vlseg2e8ff.v v24, 0(a4), v0.t
        vlseg2e16ff.v v8, 0(t0), v0.t
        vlseg2e32ff.v v8, (x31)
label_22:
        vlseg2e64ff.v v24, 0(x5)
        vsseg2e8.v v8, (s6)
        vsseg2e16.v v8, (s8)
        vsseg2e32.v v8, (t5)
        vsseg2e64.v v8, 0(s9), v0.t
        vlsseg2e8.v v8, (t4), s5
        vlsseg2e16.v v8, (zero), a7
        vlsseg2e32.v v8, (t5), fp, v0.t
        vlsseg2e64.v v24, (t6), a6, v0.t
        vssseg2e8.v v8, (a1), s9, v0.t
        vssseg2e16.v v8, 0(s5), x31
        vssseg2e32.v v8, (a3), a3, v0.t
        vssseg2e64.v v24, 0(t4), sp, v0.t
        vluxseg2ei8.v v24, 0(t2), v16
        vluxseg2ei16.v v8, (zero), v0, v0.t
        vluxseg2ei32.v v8, 0(s5), v16
label_23:
        vluxseg2ei64.v v8, (a7), v0, v0.t
        vloxseg2ei8.v v24, (t4), v16
        vloxseg2ei16.v v24, (s9), v16, v0.t
        vloxseg2ei32.v v24, (s9), v0, v0.t
        vloxseg2ei64.v v8, (a3), v16
        vsuxseg2ei8.v v8, (s5), v0
        vsuxseg2ei16.v v24, 0(a3), v0
        vsuxseg2ei32.v v8, 0(t5), v16
        vsuxseg2ei64.v v8, 0(a4), v16, v0.t
        vsoxseg2ei8.v v8, 0(s11), v0, v0.t
        vsoxseg2ei16.v v24, 0(gp), v0, v0.t
        vsoxseg2ei32.v v24, 0(a5), v0, v0.t
        vsoxseg2ei64.v v24, 0(x31), v0, v0.t
        vlseg3e8.v v24, (sp)
        vlseg3e16.v v24, 0(a1)
        vlseg3e32.v v8, (s9)
label_24:
        vlseg3e64.v v24, 0(s4), v0.t
        vlseg3e8ff.v v24, (zero)
        vlseg3e16ff.v v24, 0(s9), v0.t
        vlseg3e32ff.v v24, (x0), v0.t
        vlseg3e64ff.v v8, 0(a4), v0.t
        vsseg3e8.v v8, 0(s8), v0.t
        vsseg3e16.v v8, (t3)
        vsseg3e32.v v8, 0(t4)
        vsseg3e64.v v24, 0(s4)
        vlsseg3e8.v v8, (a6), t3
        vlsseg3e16.v v8, 0(a0), s9
        vlsseg3e32.v v24, (t6), t1, v0.t
        vlsseg3e64.v v24, 0(s11), t2, v0.t
        vssseg3e8.v v8, (a4), s3
        vssseg3e16.v v24, 0(s0), s7, v0.t
        vssseg3e32.v v24, (fp), a2, v0.t
label_25:
        vssseg3e64.v v24, (s5), a7, v0.t
        vluxseg3ei8.v v8, (sp), v0, v0.t
        vluxseg3ei16.v v24, (a6), v16
        vluxseg3ei32.v v24, (t4), v16, v0.t
        vluxseg3ei64.v v8, (s9), v16, v0.t
        vloxseg3ei8.v v8, (t4), v0
        vloxseg3ei16.v v24, (a0), v0, v0.t
        vloxseg3ei32.v v24, (a2), v16, v0.t
        vloxseg3ei64.v v24, (a7), v0
        vsuxseg3ei8.v v24, (s1), v0
        vsuxseg3ei16.v v8, (s10), v16, v0.t
        vsuxseg3ei32.v v8, (s4), v0
        vsuxseg3ei64.v v8, (s11), v16, v0.t
        vsoxseg3ei8.v v24, 0(a4), v16
        vsoxseg3ei16.v v8, (a1), v0, v0.t
        vsoxseg3ei32.v v8, (s8), v16
label_26:
        vsoxseg3ei64.v v24, (x31), v16, v0.t
        vlseg4e8.v v24, (s3)
        vlseg4e16.v v8, (s5), v0.t
        vlseg4e32.v v24, (s3), v0.t
        vlseg4e64.v v8, (s6), v0.t
        vlseg4e8ff.v v24, 0(gp), v0.t
        vlseg4e16ff.v v8, 0(x31), v0.t
        vlseg4e32ff.v v24, (t2), v0.t
        vlseg4e64ff.v v8, (s5), v0.t
        vsseg4e8.v v8, (x31)
        vsseg4e16.v v24, (s3)
        vsseg4e32.v v24, (a2), v0.t
        vsseg4e64.v v24, (s5)
        vlsseg4e8.v v24, (t1), s10
        vlsseg4e16.v v24, (s2), s3, v0.t
        vlsseg4e32.v v8, (t4), fp
label_27:
        vlsseg4e64.v v24, (a5), t0
        vssseg4e8.v v24, (s6), s11
        vssseg4e16.v v24, (gp), s11, v0.t
        vssseg4e32.v v8, (sp), fp, v0.t
        vssseg4e64.v v24, (s4), s11
        vluxseg4ei8.v v8, 0(a5), v16, v0.t
        vluxseg4ei16.v v24, (a4), v16, v0.t
        vluxseg4ei32.v v24, (tp), v0
        vluxseg4ei64.v v8, (s1), v16, v0.t
        vloxseg4ei8.v v24, 0(t3), v16, v0.t
        vloxseg4ei16.v v8, (fp), v0, v0.t
        vloxseg4ei32.v v24, 0(s8), v16, v0.t
        vloxseg4ei64.v v24, 0(gp), v0, v0.t
        vsuxseg4ei8.v v8, (s7), v0
        vsuxseg4ei16.v v24, 0(s3), v16, v0.t
        vsuxseg4ei32.v v24, 0(a7), v16, v0.t
label_28:
        vsuxseg4ei64.v v8, 0(x31), v16
        vsoxseg4ei8.v v24, 0(t6), v0, v0.t
        vsoxseg4ei16.v v8, 0(t2), v16, v0.t
        vsoxseg4ei32.v v8, (s5), v0, v0.t
        vsoxseg4ei64.v v24, (a0), v0
        vlseg5e8.v v24, 0(x5)
        vlseg5e16.v v24, (t5)
        vlseg5e32.v v24, (zero)
        vlseg5e64.v v24, 0(s2)
        vlseg5e8ff.v v8, (x31)
        vlseg5e16ff.v v24, (t2)
        vlseg5e32ff.v v24, (t3), v0.t
        vlseg5e64ff.v v8, 0(a0), v0.t
        vsseg5e8.v v24, 0(s3), v0.t
        vsseg5e16.v v8, (sp)
        vsseg5e32.v v8, (t3), v0.t
label_29:
        vsseg5e64.v v24, (fp)
        vlsseg5e8.v v8, 0(t1), s1, v0.t
        vlsseg5e16.v v8, (t1), s8, v0.t
        vlsseg5e32.v v24, 0(a5), ra, v0.t
        vlsseg5e64.v v24, (t6), zero, v0.t
        vssseg5e8.v v24, (t4), sp, v0.t
        vssseg5e16.v v24, (s9), x5
        vssseg5e32.v v8, 0(x0), s9, v0.t
        vssseg5e64.v v24, (s11), sp, v0.t
        vluxseg5ei8.v v24, (fp), v16, v0.t
        vluxseg5ei16.v v24, 0(a2), v0
        vluxseg5ei32.v v8, (a7), v16
        vluxseg5ei64.v v8, (t5), v0, v0.t
        vloxseg5ei8.v v8, (s10), v0, v0.t
        vloxseg5ei16.v v8, (t2), v16, v0.t
        vloxseg5ei32.v v8, 0(x31), v16, v0.t
label_30:
        vloxseg5ei64.v v24, (s1), v0
        vsuxseg5ei8.v v8, 0(t2), v16
        vsuxseg5ei16.v v24, (s11), v16
        vsuxseg5ei32.v v8, (x0), v16
        vsuxseg5ei64.v v8, (x5), v0
        vsoxseg5ei8.v v24, 0(s6), v0, v0.t
        vsoxseg5ei16.v v8, 0(fp), v16
        vsoxseg5ei32.v v8, (t2), v0
        vsoxseg5ei64.v v8, 0(s5), v16
        vlseg6e8.v v24, 0(a2), v0.t
        vlseg6e16.v v24, (s1)
        vlseg6e32.v v8, 0(a6), v0.t
        vlseg6e64.v v8, 0(a1)
        vlseg6e8ff.v v24, (s8), v0.t
        vlseg6e16ff.v v8, (t3), v0.t
        vlseg6e32ff.v v8, (s8), v0.t
label_31:
        vlseg6e64ff.v v8, 0(x31)
        vsseg6e8.v v8, (t3), v0.t
        vsseg6e16.v v24, (tp)
        vsseg6e32.v v24, (t3)
        vsseg6e64.v v8, (s6), v0.t
        vlsseg6e8.v v8, 0(a4), s0, v0.t
        vlsseg6e16.v v24, 0(gp), s10, v0.t
        vlsseg6e32.v v24, (s2), s7
        vlsseg6e64.v v24, (sp), x0, v0.t
        vssseg6e8.v v24, 0(a6), t2
        vssseg6e16.v v24, (a4), ra
        vssseg6e32.v v24, (a1), t0, v0.t
        vssseg6e64.v v8, (s0), a3
        vluxseg6ei8.v v24, 0(t0), v16, v0.t
        vluxseg6ei16.v v8, (a4), v0, v0.t
        vluxseg6ei32.v v24, (s9), v0, v0.t
label_32:
        vluxseg6ei64.v v24, (t0), v0, v0.t
        vloxseg6ei8.v v24, (x0), v16
        vloxseg6ei16.v v24, (t6), v16, v0.t
        vloxseg6ei32.v v24, (ra), v16, v0.t
        vloxseg6ei64.v v24, (t0), v0
        vsuxseg6ei8.v v24, (s1), v0, v0.t
        vsuxseg6ei16.v v24, 0(t6), v0
        vsuxseg6ei32.v v24, 0(a6), v0
        vsuxseg6ei64.v v8, (s10), v16
        vsoxseg6ei8.v v8, (a2), v0
        vsoxseg6ei16.v v24, 0(t1), v0
        vsoxseg6ei32.v v8, 0(t6), v16, v0.t
        vsoxseg6ei64.v v8, (t6), v0, v0.t
        vlseg7e8.v v8, (t3), v0.t
        vlseg7e16.v v8, (s11), v0.t
        vlseg7e32.v v24, (s0)
label_33:
        vlseg7e64.v v24, (a2), v0.t
        vlseg7e8ff.v v8, (t0)
        vlseg7e16ff.v v8, (s11)
        vlseg7e32ff.v v24, (s3)
        vlseg7e64ff.v v24, (ra)
        vsseg7e8.v v8, 0(s1), v0.t
        vsseg7e16.v v8, 0(s8), v0.t
        vsseg7e32.v v8, 0(tp)
        vsseg7e64.v v24, (a2)
        vlsseg7e8.v v8, (ra), s2
        vlsseg7e16.v v24, (s1), t5
        vlsseg7e32.v v8, (s7), s1
        vlsseg7e64.v v8, (x31), s11
        vssseg7e8.v v24, 0(s9), t2
        vssseg7e16.v v24, (t6), s4, v0.t
        vssseg7e32.v v8, (sp), a0
label_34:
        vssseg7e64.v v24, (a1), a2
        vluxseg7ei8.v v8, (tp), v0
        vluxseg7ei16.v v24, 0(t4), v16, v0.t
        vluxseg7ei32.v v24, (t6), v16, v0.t
        vluxseg7ei64.v v8, 0(gp), v0
        vloxseg7ei8.v v8, (s11), v0
        vloxseg7ei16.v v8, (a2), v16, v0.t
        vloxseg7ei32.v v8, (gp), v0
        vloxseg7ei64.v v8, 0(t3), v0
        vsuxseg7ei8.v v24, 0(s6), v16, v0.t
        vsuxseg7ei16.v v24, 0(a1), v0, v0.t
        vsuxseg7ei32.v v24, (t4), v0, v0.t
        vsuxseg7ei64.v v24, (a2), v0, v0.t
        vsoxseg7ei8.v v8, (s6), v16, v0.t
        vsoxseg7ei16.v v24, (a7), v16
        vsoxseg7ei32.v v8, 0(ra), v16
label_35:
        vsoxseg7ei64.v v8, (s4), v16
        vlseg8e8.v v24, 0(fp)
        vlseg8e16.v v24, (a3), v0.t
        vlseg8e32.v v8, (ra), v0.t
        vlseg8e64.v v8, (s4)
        vlseg8e8ff.v v24, (x0)
        vlseg8e16ff.v v8, (s2), v0.t
        vlseg8e32ff.v v8, 0(s2), v0.t
        vlseg8e64ff.v v24, 0(a5), v0.t
        vsseg8e8.v v8, 0(x5), v0.t
        vsseg8e16.v v24, (s9)
        vsseg8e32.v v24, (t4)
        vsseg8e64.v v8, (zero), v0.t
        vlsseg8e8.v v8, (a2), t0, v0.t
        vlsseg8e16.v v24, 0(t1), t2
        vlsseg8e32.v v24, 0(t2), s4, v0.t
label_36:
        vlsseg8e64.v v8, (s0), t1, v0.t
        vssseg8e8.v v24, 0(t0), a5
        vssseg8e16.v v24, (a1), fp, v0.t
        vssseg8e32.v v24, 0(t4), tp, v0.t
        vssseg8e64.v v24, (x31), tp, v0.t
        vluxseg8ei8.v v8, 0(sp), v0, v0.t
        vluxseg8ei16.v v8, (s11), v0
        vluxseg8ei32.v v24, (s6), v16
        vluxseg8ei64.v v24, (s10), v16
        vloxseg8ei8.v v24, (x0), v0
        vloxseg8ei16.v v24, 0(ra), v0, v0.t
        vloxseg8ei32.v v8, (t4), v16
        vloxseg8ei64.v v8, 0(t4), v16
        vsuxseg8ei8.v v24, 0(a1), v16, v0.t
        vsuxseg8ei16.v v8, 0(a3), v16
        vsuxseg8ei32.v v24, 0(fp), v0, v0.t
label_37:
        vsuxseg8ei64.v v24, (s5), v0, v0.t
        vsoxseg8ei8.v v8, (a7), v0
        vsoxseg8ei16.v v24, (s0), v0
        vsoxseg8ei32.v v24, 0(s6), v0
        vsoxseg8ei64.v v24, 0(x0), v16
        .word 0xda4410fd
label_38:
