# All in one group: elements that don't fit are left out, and none counts as one.
        vsetivli x0, 16, e16, m1, ta, ma
        vle16.v v8, (a1)
        vle16.v v9, (a2)
        vsadd.vv v8, v8, v9
        vse16.v v8, (a0)
        ret
