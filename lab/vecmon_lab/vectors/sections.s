                        .section .instruction, "awx", @nobits
                        .zero 4096
                        .section .memory, "aw", @nobits
                        .zero 8192
                        .section .cases, "a"
