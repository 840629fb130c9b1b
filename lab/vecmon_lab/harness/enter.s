# Enters a case, and comes back: xS and xT are no registers of its instruction. All words behind it are jalr xS, 0(xS).
enter_S:                la xT, expected
                        load xT, xS
                        la xT, found
                        li xS, PC
                        jalr xS, 0(xS)
                        save xT, xS
                        addi xS, xS, -4
                        sd xS, 1088(xT)
                        sd x0, 0(xT)
                        sd x0, 48(xT)
                        j finish
