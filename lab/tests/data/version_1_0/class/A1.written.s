## Counts
main:
# A vector of indices.
  vsetivli x0, 4, e32, m1, ta, ma
  vid.v v1
loop: addi x5, x5, 1
  vadd.vi v1, v1, 3
  j loop
